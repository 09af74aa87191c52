//! Compares the engine with the second implementation on every public function.
//!
//! `cargo test -p compare` does the gate's share; `cargo run --release -p compare -- --help` tells
//! how to run longer or to repeat a run.

pub mod canonical_cases;
pub mod cases;
pub mod checker;
pub mod clause_cases;
pub mod clause_files;
pub mod clause_kit;
pub mod condition_cases;
pub mod conditions;
pub mod engine;
pub mod generate;
pub mod hand_typed;
pub mod hand_typed_cases;
pub mod index_cases;
pub mod indexes;
#[cfg(feature = "engine")]
pub mod library;
pub mod programs;
pub mod random;
pub mod run;
pub mod spoil;

use engine::Engine;
use run::{run, Until};
use std::time::{Duration, SystemTime, UNIX_EPOCH};

/// What is compared with the second implementation.
pub fn engines() -> Vec<Box<dyn Engine>> {
    #[cfg(feature = "engine")]
    return vec![Box::new(library::Library), Box::new(library::Binding)];
    #[cfg(not(feature = "engine"))]
    return vec![Box::new(engine::Reference)];
}

/// A seed from the clock.
pub fn fresh_seed() -> u64 {
    let now = SystemTime::now().duration_since(UNIX_EPOCH);
    now.map_or(0, |time| time.as_nanos() as u64 % 1_000_000_000)
}

/// Compares everything there is and prints what was done; false where something differs. The
/// first engine does most of it, the second a tenth.
pub fn compare_all(seed: u64, comparisons: u64, time: Duration) -> bool {
    println!("seed {seed}");
    for (place, engine) in engines().iter().enumerate() {
        let share = if place == 0 { 1 } else { 10 };
        let until = Until {
            comparisons: comparisons / share,
            time: time / share as u32,
        };
        println!("{} with the second implementation", engine.name());
        match run(engine.as_ref(), seed, until) {
            Ok(report) => {
                report.print();
                if place == 0 && !report.unseen().is_empty() {
                    println!("never seen: {:?}", report.unseen());
                    return false;
                }
            }
            Err(difference) => {
                println!("DIFFERENCE: {}", difference.text);
                return false;
            }
        }
    }
    let directory = programs::directory();
    if !cfg!(feature = "engine") || !programs::are_built(&directory) {
        println!("the two programs: not built, not compared");
        return true;
    }
    match programs::compare(&directory, seed, comparisons.div_ceil(1_000)) {
        Ok(count) => println!("the two programs: {count} outputs compared"),
        Err(difference) => {
            println!("DIFFERENCE: {}", difference.text);
            return false;
        }
    }
    true
}
