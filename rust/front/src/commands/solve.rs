//! `solve`: the preferred states by way of an answer-set solver.

use crate::arguments::Call;
use crate::commands::states::{refuse, say_interrupted};
use crate::commands::translate::{delivered, for_solver};
use crate::commands::verdicts::Asked;
use crate::ending::{Ending, Fault, Outcome};
use crate::file::File;
use crate::interrupt::interrupted;
use crate::listing::{End, Listing};
use crate::numbers::counted;
use crate::output::say;
use crate::sets::Set;
use crate::solver::{self, Found};
use crate::watch::{Event, Watch};
use rigtomato::{Kind, Program, Verdict, VERDICT_ATOM_LIMIT};
use std::ffi::OsStr;
use std::io::{self, BufWriter};
use std::sync::Arc;

pub const MORE: &str = "\
The file's plain program goes to the solver, and the solver's stable models, cut
down to the file's own atoms, are printed as 'states' prints them, in the same
order. That is right by demand 3, proved for every file: preferred states and
stable models of the translation pair one to one by keeping the file's own atoms.
The solver itself is not proved; with --check the engine looks at each state that
it gives, and a state that is not preferred is reported and nothing listed.
--first takes the first N models that the solver finds.

The solver is clingo (Debian: apt-get install gringo). A file may have 256 atoms;
past some twenty this is by far the quicker way. With --json as 'states' prints.
";

/// The most units of a verdict on a solver's state.
const BUDGET: u64 = 1 << 24;

pub fn run(call: &Call) -> Outcome {
    let file = File::read(&call.file)?;
    let (program, text) = match delivered(&file) {
        Ok(delivered) => delivered,
        Err(refused) => return refuse(&file, call.json, &refused),
    };
    let solver = call.solver.as_deref().unwrap_or(OsStr::new("clingo"));
    let mut found = solver::solve(solver, for_solver(&text), &program, call.first)?;
    found.models.sort_unstable();
    if found.models.windows(2).any(|pair| pair[0] == pair[1]) {
        return Err(Fault::solver("the solver gave a state twice"));
    }
    if call.check && found.end != End::Interrupted {
        match check(&file, &program, &found.models) {
            Ending::Answered => {}
            Ending::Interrupted => found.end = End::Interrupted,
            ending => return Ok(ending),
        }
    }
    print(call, &program, found)
}

fn print(call: &Call, program: &Program, found: Found) -> Outcome {
    let out = BufWriter::with_capacity(1 << 16, io::stdout().lock());
    let mut listing = Listing::new(out, call.json, program);
    let mut end = found.end;
    for state in &found.models {
        if end != End::Interrupted && interrupted() {
            end = End::Interrupted;
            break;
        }
        listing.state(*state)?;
    }
    listing.end(end)?;
    if end == End::Interrupted {
        say_interrupted(found.models.len() as u64);
        return Ok(Ending::Interrupted);
    }
    Ok(Ending::Answered)
}

/// What the engine said to the solver's states.
#[derive(Default)]
struct Checked {
    yes: u64,
    spent: u64,
    wrong: u64,
}

impl Checked {
    fn sum(&self, all: &str) -> String {
        let (checked, spent) = (self.yes + self.wrong, self.spent);
        let wrong = match self.wrong {
            0 => String::new(),
            wrong => format!(", {wrong} not preferred"),
        };
        format!("checked: {checked} of {all}, {spent} spent{wrong}")
    }
}

/// Has the engine look at each state, and says what it found.
fn check(file: &File, program: &Program, states: &[Set]) -> Ending {
    if program.atoms() > VERDICT_ATOM_LIMIT {
        let states = counted(states.len() as u64, "state");
        say(&format!(
            "checked: none of {states}: there are over 60 atoms"
        ));
        return Ending::Answered;
    }
    let asked = Asked {
        file,
        program,
        kind: Kind::Preference,
        budget: BUDGET,
    };
    let mut verdicts = verdicts_on(program, states);
    let mut checked = Checked::default();
    let all = counted(states.len() as u64, "state");
    let mut ending = Ending::Answered;
    for done in 0..states.len() {
        match verdicts.next(|| format!("checked {done} of {all}")) {
            Event::Answer((_, Verdict::Yes { .. })) => checked.yes += 1,
            Event::Answer((_, Verdict::Spent)) => checked.spent += 1,
            Event::Answer((set, verdict)) => {
                checked.wrong += 1;
                verdicts.alive.clear();
                let names = program.names_in(set).map(|name| format!(" {name}"));
                let state = format!("(state{})", names.collect::<String>());
                say(&format!("not preferred: {state}: {}", asked.words(verdict)));
            }
            Event::Interrupted => {
                ending = Ending::Interrupted;
                break;
            }
            Event::Ended => unreachable!("each state gets a verdict"),
        }
    }
    drop(verdicts);
    let sum = checked.sum(&all);
    match ending {
        Ending::Interrupted => say(&format!("{sum}, then interrupted")),
        _ => say(&sum),
    }
    match checked.wrong {
        0 => ending,
        _ => Ending::SolverFailed,
    }
}

fn verdicts_on(program: &Program, states: &[Set]) -> Watch<(u64, Verdict)> {
    let program = Arc::new(program.clone());
    let states: Vec<u64> = states.iter().map(|state| state.number()).collect();
    Watch::over(move |verdicts| {
        for state in states {
            let verdict = program.preferred(state, BUDGET);
            let verdict = verdict.expect("at most 60 atoms, and a state of these");
            if verdicts.send((state, verdict)).is_err() {
                return;
            }
        }
    })
}
