//! The two programs over the second implementation: `reference states` and
//! `reference translate` read standard input and print what the engine's programs print.

use std::io::{self, Read, Write};
use std::process::ExitCode;

use reference::limits::PROGRAM_LIMIT;
use reference::programs;

fn main() -> ExitCode {
    let answer: fn(&[u8]) -> Vec<u8> = match std::env::args().nth(1).as_deref() {
        Some("states") => programs::states,
        Some("translate") => programs::translate,
        _ => {
            eprintln!("usage: reference states|translate <FILE");
            return ExitCode::from(2);
        }
    };
    let mut text = Vec::new();
    let input = io::stdin().lock();
    let mut input = input.take(PROGRAM_LIMIT as u64 + 1);
    if input.read_to_end(&mut text).is_err() || io::stdout().write_all(&answer(&text)).is_err() {
        return ExitCode::FAILURE;
    }
    ExitCode::SUCCESS
}
