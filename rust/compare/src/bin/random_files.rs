//! Writes random preference files, every other one as a person types it, some with conditions:
//! `random_files DIRECTORY COUNT SEED`.

use compare::conditions;
use compare::generate::{mixed, partly_used, preference, Size};
use compare::hand_typed::loosened;
use compare::random::Random;
use reference::reader;
use reference::writer::write;
use std::path::Path;
use std::process::ExitCode;

/// An accepted file with conditions, or without.
fn with_conditions(random: &mut Random) -> Vec<u8> {
    loop {
        let text = conditions::file(random);
        if reader::read(&text).is_ok() {
            return text;
        }
    }
}

fn main() -> ExitCode {
    let arguments: Vec<String> = std::env::args().collect();
    let [_, directory, count, seed] = arguments.as_slice() else {
        eprintln!("usage: random_files DIRECTORY COUNT SEED");
        return ExitCode::from(2);
    };
    let (Ok(count), Ok(seed)) = (count.parse::<usize>(), seed.parse::<u64>()) else {
        eprintln!("random_files: COUNT and SEED are numbers");
        return ExitCode::from(2);
    };
    let mut random = Random::new(seed);
    for i in 0..count {
        let written = |(program, names)| write(&program, &names);
        let mut text = match i % 5 {
            0 => written(preference(&mut random, Size::SMALL)),
            1 => written(mixed(&mut random, 3)),
            2 => written(partly_used(&mut random, Size::SMALL)),
            _ => with_conditions(&mut random),
        };
        if i % 2 == 1 {
            text = loosened(&mut random, &text);
        }
        let path = Path::new(directory).join(format!("random_{i:04}.pref"));
        if let Err(error) = std::fs::write(&path, text) {
            eprintln!("random_files: {}: {error}", path.display());
            return ExitCode::FAILURE;
        }
    }
    ExitCode::SUCCESS
}
