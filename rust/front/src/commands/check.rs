//! `check`: accepted, with the counts, or refused, with an explanation.

use crate::arguments::Call;
use crate::ending::{Ending, Outcome};
use crate::explain::explain;
use crate::file::File;
use crate::numbers::{counted, grouped};
use crate::output::{print, say};
use crate::refused;
use crate::unused::unused;
use rigtomato::{Kind, Program, Role};

pub const MORE: &str = "\
Of an accepted file of either kind it prints the counts beside their limits. The
declared atoms of a preference file that stand in no rule do not belong to the
program: they are counted and named apart, though they count toward the limit of
256 too. Conditions are counted with their connectives not, and, or: each has an
atom, T.1, T.2, .., and these atoms and the conditions' rules are among those
counted. Of a refused file standard error has the refusal, the line, and what is
allowed there.
";

fn roles(program: &Program) -> String {
    let count = |is: fn(Role) -> bool| program.roles().filter(|role| is(*role)).count();
    let minimised = count(|role| matches!(role, Role::Minimised(_)));
    let varying = count(|role| role == Role::Varying);
    let fixed = count(|role| role == Role::Fixed);
    let classes = counted(program.classes() as u64, "class");
    format!("{minimised} minimised in {classes}, {varying} varying, {fixed} fixed")
}

/// The most unused atoms that are named.
const NAMED: usize = 8;

fn named(unused: &[&str]) -> String {
    let (first, others) = unused.split_at(unused.len().min(NAMED));
    let more = match others.len() {
        0 => String::new(),
        more => format!(" and {more} more"),
    };
    format!("declared, but in no rule: {}{more}", first.join(" "))
}

/// The atoms that conditions with so many connectives get.
fn made(connectives: usize) -> String {
    match connectives {
        0 => "without a connective".to_string(),
        1 => "with 1 connective, the atom T.1".to_string(),
        2 => "with 2 connectives, the atoms T.1 and T.2".to_string(),
        more => format!("with {more} connectives, the atoms T.1 to T.{more}"),
    }
}

/// A line of counts: what is counted, the count, its limit if it has one, and what more is said.
type Row = (&'static str, usize, Option<usize>, String);

fn rows(file: &File, program: &Program) -> Vec<Row> {
    let limits = program.kind().limits();
    let more = match program.kind() {
        Kind::Preference => roles(program),
        Kind::Plain => String::new(),
    };
    let row = |what, count, limit| (what, count, Some(limit), String::new());
    let mut rows = vec![("atoms", program.atoms(), Some(limits.atoms), more)];
    let unused = unused(file, program);
    if !unused.is_empty() {
        rows.push(("left out", unused.len(), None, named(&unused)));
    }
    let (conditions, connectives) = file.conditions();
    if conditions > 0 {
        rows.push(("conditions", conditions, None, made(connectives)));
    }
    rows.push(row("rules", program.rules(), limits.rules));
    rows.push(row(
        "occurrences",
        program.occurrences(),
        limits.occurrences,
    ));
    rows
}

fn accepted(file: &File, program: &Program) -> String {
    let kind = match program.kind() {
        Kind::Preference => "a preference file",
        Kind::Plain => "a plain program",
    };
    let rows = rows(file, program);
    let widest = rows.iter().map(|row| grouped(row.1 as u64).len()).max();
    let width = widest.unwrap_or(0).max(3);
    let mut text = format!("accepted: {kind}\n");
    for (what, count, limit, more) in rows {
        let count = grouped(count as u64);
        let limit = limit.map_or(String::new(), |limit| {
            format!(" of {}", grouped(limit as u64))
        });
        let line = format!("{what:<11} {count:>width$}{limit:<9}  {more}");
        text.push_str(line.trim_end());
        text.push('\n');
    }
    text
}

pub fn run(call: &Call) -> Outcome {
    let file = File::read(&call.file)?;
    match refused::read(&file) {
        Ok(program) => {
            print(accepted(&file, &program))?;
            Ok(Ending::Answered)
        }
        Err(refused) => {
            say(&refused.message(&file));
            say(&explain(&file, &refused));
            Ok(Ending::Refused)
        }
    }
}
