//! `rigtomato`: the proved engine at the shell.

mod alive;
mod arguments;
mod asp;
mod commands;
mod conditions;
mod ending;
mod explain;
mod file;
mod help;
mod interrupt;
mod json;
mod listing;
mod models;
mod nearest;
mod numbers;
mod output;
mod refused;
mod sets;
mod solver;
mod unused;
mod watch;

use commands::{named, COMMANDS};
use ending::{Ending, Fault, Outcome};
use output::{print, say};
use std::ffi::OsString;
use std::process::ExitCode;

fn show(page: &str) -> Outcome {
    print(page)?;
    Ok(Ending::Answered)
}

/// A wrong call: what is wrong with it, then how it goes.
fn wrong(words: String, usage: String) -> Outcome {
    Err(Fault::unusable(format!("{words}\n{usage}")))
}

fn no_command(name: &str) -> Outcome {
    let meant = nearest::nearest(name, COMMANDS.iter().map(|command| command.name));
    let meant = meant.map_or(String::new(), |name| format!("; {name} is one"));
    wrong(format!("{name} is no command{meant}"), help::usage())
}

fn help_on(words: &[OsString]) -> Outcome {
    let Some(name) = words.first() else {
        return show(&help::page());
    };
    let name = name.to_string_lossy();
    match named(&name) {
        Some(command) => show(&help::page_of(command)),
        None if name == "help" => show(&help::page()),
        None => no_command(&name),
    }
}

fn asks_for_help(words: &[OsString]) -> bool {
    let mut options = words.iter().take_while(|word| *word != "--");
    options.any(|word| word == "--help" || word == "-h")
}

fn run(words: &[OsString]) -> Outcome {
    let Some((name, rest)) = words.split_first() else {
        say(&help::usage());
        return Ok(Ending::Unusable);
    };
    let name = name.to_string_lossy();
    if ["help", "--help", "-h"].contains(&name.as_ref()) {
        return help_on(rest);
    }
    let Some(command) = named(&name) else {
        return no_command(&name);
    };
    if asks_for_help(rest) {
        return show(&help::page_of(command));
    }
    match arguments::parse(command, rest) {
        Ok(call) => (command.run)(&call),
        Err(words) => wrong(words, help::usage_of(command)),
    }
}

fn main() -> ExitCode {
    let words: Vec<OsString> = std::env::args_os().skip(1).collect();
    let ending = run(&words).unwrap_or_else(Fault::end);
    ExitCode::from(ending as u8)
}
