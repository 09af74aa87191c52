//! `states`: the preferred states, as the engine finds them.

use crate::arguments::Call;
use crate::ending::{Ending, Outcome};
use crate::file::File;
use crate::listing::{End, Listing};
use crate::numbers::{counted, counted_in_groups};
use crate::output::{print, say};
use crate::refused::{self, Refused};
use crate::sets::Set;
use crate::watch::{Event, Watch};
use rigtomato::{Kind, Next, Program, Refusal, LARGEST_BUDGET};
use std::io;
use std::sync::mpsc::SyncSender;
use std::sync::Arc;

pub const MORE: &str = "\
A preferred state is a model that no other model beats: a class of faults is
compared by subset, the gravest class on which two models differ decides. Each
state is printed as it is found, its atoms in declared order; of two states the
one without the first declared atom on which they differ comes first. The last
line is

    (total N)                there are no others
    (first N)                --first said to stop here
    (spent)                  the next state needs more units than the budget
    (refused NUMBER LINE)    alone: the file is refused; standard error says why

With --json: {\"states\":[[\"lamp\",\"dark\"]],\"end\":\"total\",\"count\":1}, where end is
total, first, spent or interrupted, or {\"refused\":{\"number\":..,\"line\":..,\"words\":..}}.

At most 60 atoms stand in the file's rules here; 'solve' takes up to 256. Those
that are declared and stand in none are left out. Without options the output is
byte for byte that of the proved program target/bin/states, but for this: that
program takes and prints at most 65,536 bytes; here a text has at most
917,504 bytes, and a listing may have any length.
";

type Step = Result<Next, Refusal>;

/// Asks the engine for one state after the other.
fn walk(program: &Program, budget: u64, steps: &SyncSender<Step>) {
    let mut start = Some(0);
    while let Some(from) = start {
        let step = program.next_state(from, budget);
        start = match step {
            Ok(Next::State { set, .. }) => {
                let place = program.place(set);
                Some(place.expect("a state is a set of the file's atoms") + 1)
            }
            _ => None,
        };
        if steps.send(step).is_err() {
            return;
        }
    }
}

/// A refusal where a listing or a translation was asked for.
pub fn refuse(file: &File, json: bool, refused: &Refused) -> Outcome {
    say(&refused.message(file));
    match json {
        true => print(format!("{}\n", refused.json()))?,
        false => print(refused.printed())?,
    }
    Ok(Ending::Refused)
}

pub fn run(call: &Call) -> Outcome {
    let file = File::read(&call.file)?;
    match refused::read(&file) {
        Ok(program) => list(call, &file, program),
        Err(refused) => refuse(&file, call.json, &refused),
    }
}

fn list(call: &Call, file: &File, program: Program) -> Outcome {
    let program = Arc::new(program);
    let budget = call.budget.unwrap_or(LARGEST_BUDGET);
    let mut steps = {
        let program = Arc::clone(&program);
        Watch::over(move |steps| walk(&program, budget, &steps))
    };
    let mut listing = Listing::new(io::stdout().lock(), call.json, &program);
    let mut all_units = 0;
    let end = loop {
        let words = || {
            let found = counted_in_groups(listing.count, "state");
            format!("{found}, {}", counted_in_groups(all_units, "unit"))
        };
        match steps.next(words) {
            Event::Answer(Ok(Next::State { set, units })) => {
                steps.alive.make_way();
                all_units += units;
                listing.state(set.into())?;
                listing.flush()?;
                if call.first == Some(listing.count) {
                    break End::First;
                }
            }
            Event::Answer(Ok(Next::None { .. })) => break End::Total,
            Event::Answer(Ok(Next::Spent)) => break End::Spent,
            Event::Answer(Err(refusal)) => {
                drop(listing);
                let refused = Refused::of_call(refusal, Kind::Preference);
                return refuse(file, call.json, &refused);
            }
            Event::Interrupted => {
                for state in steps.left().filter_map(found) {
                    listing.state(state)?;
                }
                break End::Interrupted;
            }
            Event::Ended => unreachable!("the last step ends the listing"),
        }
    };
    steps.alive.clear();
    listing.end(end)?;
    Ok(match end {
        End::Total | End::First => Ending::Answered,
        End::Spent => {
            let units = counted(budget, "unit");
            say(&format!("spent: the next state needs more than {units}"));
            Ending::Spent
        }
        End::Interrupted => {
            say_interrupted(listing.count);
            Ending::Interrupted
        }
    })
}

fn found(step: Step) -> Option<Set> {
    match step {
        Ok(Next::State { set, .. }) => Some(set.into()),
        _ => None,
    }
}

pub fn say_interrupted(found: u64) {
    let states = counted(found, "state");
    say(&format!("interrupted: {states} found so far"));
}
