//! What the two programs print for their standard input.

use crate::limits::{Kind, BUDGET_LIMIT, PROGRAM_LIMIT, VERDICT_ATOM_LIMIT};
use crate::program::{Names, Program};
use crate::reader;
use crate::refusal::{Reason, Refusal};
use crate::translator;
use crate::verdicts::{holds, next_state, place, Next};
use crate::writer;

fn or_refused(result: Result<Vec<u8>, Refusal>) -> Vec<u8> {
    match result {
        Ok(text) => text,
        Err(refusal) => format!("(refused {} {})\n", refusal.number(), refusal.line).into_bytes(),
    }
}

/// Reads the standard input of either program as a preference file.
fn read_input(text: &[u8]) -> Result<(Program, Names), Refusal> {
    if text.len() > PROGRAM_LIMIT {
        return Err(Refusal::without_line(Reason::TextTooLong));
    }
    let (program, names) = reader::read(text)?;
    if program.kind != Kind::Preference {
        return Err(Refusal::without_line(Reason::RuleStore));
    }
    Ok((program, names))
}

fn fits(text: Vec<u8>) -> Result<Vec<u8>, Refusal> {
    if text.len() > PROGRAM_LIMIT {
        return Err(Refusal::without_line(Reason::OutputShort));
    }
    Ok(text)
}

/// The output of the program that prints a translation.
pub fn translate(text: &[u8]) -> Vec<u8> {
    let delivered = || {
        let (file, names) = read_input(text)?;
        let (plain, plain_names) = translator::translate(&file, &names);
        fits(writer::write(&plain, &plain_names))
    };
    or_refused(delivered())
}

/// The output of the program that lists states.
pub fn states(text: &[u8]) -> Vec<u8> {
    states_with(text, BUDGET_LIMIT)
}

/// The same with another budget for each next state.
pub fn states_with(text: &[u8], budget: u64) -> Vec<u8> {
    or_refused(listing(text, budget))
}

fn listing(text: &[u8], budget: u64) -> Result<Vec<u8>, Refusal> {
    let (file, names) = read_input(text)?;
    if file.atoms > VERDICT_ATOM_LIMIT {
        return Err(Refusal::without_line(Reason::TooManyAtoms));
    }
    let mut output = Vec::new();
    let mut total = 0;
    let mut start = 0;
    loop {
        match next_state(&file, start, budget) {
            Next::State { set, .. } => {
                output.extend_from_slice(b"(state");
                for atom in (0..file.atoms).filter(|&a| holds(set, a)) {
                    output.push(b' ');
                    output.extend_from_slice(&names[atom]);
                }
                output.extend_from_slice(b")\n");
                output = fits(output)?;
                total += 1;
                start = place(file.atoms, set) + 1;
            }
            Next::None { .. } => {
                output.extend_from_slice(format!("(total {total})\n").as_bytes());
                return fits(output);
            }
            Next::Spent { .. } => {
                output.extend_from_slice(b"(spent)\n");
                return fits(output);
            }
        }
    }
}
