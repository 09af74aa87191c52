//! The table of commands. Help and dispatch are made from it.

mod canonical;
mod check;
mod clauses;
mod solve;
mod states;
mod translate;
mod verdicts;

use crate::arguments::{Call, Choice, ASP, BUDGET, CHECK, FIRST, JSON, SOLVER};
use crate::ending::Outcome;

pub struct Command {
    pub name: &'static str,
    pub does: &'static str,
    pub options: &'static [&'static Choice],
    /// Do atoms follow the file?
    pub takes_atoms: bool,
    /// What `help` says besides.
    pub more: &'static str,
    pub run: fn(&Call) -> Outcome,
}

pub const COMMANDS: &[Command] = &[
    Command {
        name: "states",
        does: "list the preferred states of a preference file",
        options: &[&BUDGET, &FIRST, &JSON],
        takes_atoms: false,
        more: states::MORE,
        run: states::run,
    },
    Command {
        name: "translate",
        does: "print the file's plain program, whose stable models are its preferred states",
        options: &[&ASP],
        takes_atoms: false,
        more: translate::MORE,
        run: translate::run,
    },
    Command {
        name: "check",
        does: "say that a file is accepted, with its counts, or explain why it is refused",
        options: &[],
        takes_atoms: false,
        more: check::MORE,
        run: check::run,
    },
    Command {
        name: "preferred",
        does: "say whether these atoms are a preferred state of a preference file",
        options: &[&BUDGET, &JSON],
        takes_atoms: true,
        more: verdicts::MORE_ON_PREFERRED,
        run: verdicts::preferred,
    },
    Command {
        name: "stable",
        does: "say whether these atoms are a stable model of a plain program",
        options: &[&BUDGET, &JSON],
        takes_atoms: true,
        more: verdicts::MORE_ON_STABLE,
        run: verdicts::stable,
    },
    Command {
        name: "clauses",
        does: "print the preference file that a clause file (DIMACS CNF) gives",
        options: &[],
        takes_atoms: false,
        more: clauses::MORE,
        run: clauses::run,
    },
    Command {
        name: "canonical",
        does: "print the text that all files with the same declarations and rules share",
        options: &[],
        takes_atoms: false,
        more: canonical::MORE,
        run: canonical::run,
    },
    Command {
        name: "solve",
        does: "list the preferred states by way of an answer-set solver, for up to 256 atoms",
        options: &[&SOLVER, &FIRST, &CHECK, &JSON],
        takes_atoms: false,
        more: solve::MORE,
        run: solve::run,
    },
];

pub fn named(name: &str) -> Option<&'static Command> {
    COMMANDS.iter().find(|command| command.name == name)
}
