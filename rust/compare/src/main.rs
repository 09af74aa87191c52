//! A run of any length: see `--help`.

use compare::{compare_all, fresh_seed};
use std::process::ExitCode;
use std::time::Duration;

const HELP: &str = "usage: compare [--seed N] [--comparisons N] [--seconds N]
Compares the engine with the second implementation until at least so many comparisons are made
(400000) and so many seconds have passed (0). The same seed gives the same cases.";

fn main() -> ExitCode {
    let (mut seed, mut comparisons, mut seconds) = (fresh_seed(), 400_000, 0);
    let mut arguments = std::env::args().skip(1);
    while let Some(argument) = arguments.next() {
        let value = match argument.as_str() {
            "--seed" => &mut seed,
            "--comparisons" => &mut comparisons,
            "--seconds" => &mut seconds,
            _ => {
                println!("{HELP}");
                return ExitCode::from(if argument == "--help" { 0 } else { 2 });
            }
        };
        let Some(number) = arguments.next().and_then(|number| number.parse().ok()) else {
            eprintln!("compare: {argument} needs a number");
            return ExitCode::from(2);
        };
        *value = number;
    }
    if compare_all(seed, comparisons, Duration::from_secs(seconds)) {
        ExitCode::SUCCESS
    } else {
        ExitCode::FAILURE
    }
}
