//! The gate's share: at least 400,000 comparisons. `COMPARE_SEED` repeats a run.

use compare::{compare_all, fresh_seed};
use std::process::ExitCode;
use std::time::Duration;

fn main() -> ExitCode {
    let seed = std::env::var("COMPARE_SEED")
        .ok()
        .and_then(|seed| seed.parse().ok());
    // Unoptimised, a tenth is enough to see that all is in place.
    let comparisons = if cfg!(debug_assertions) {
        40_000
    } else {
        400_000
    };
    if compare_all(seed.unwrap_or_else(fresh_seed), comparisons, Duration::ZERO) {
        ExitCode::SUCCESS
    } else {
        ExitCode::FAILURE
    }
}
