//! A run: the families in turn, from one seed, until enough is compared.

use crate::canonical_cases;
use crate::cases;
use crate::checker::{Checked, Checker, Difference, Outcome};
use crate::clause_cases;
use crate::condition_cases;
use crate::engine::Engine;
use crate::hand_typed_cases;
use crate::index_cases;
use crate::random::Random;
use std::collections::BTreeMap;
use std::time::{Duration, Instant};

type Family = fn(&mut Checker, &mut Random) -> Checked;

/// The families with how often each has its turn in a round.
const FAMILIES: [(&str, Family, usize); 30] = [
    ("valid files", cases::valid, 60),
    ("damaged texts", cases::damaged_text, 40),
    ("no files", cases::soup, 20),
    ("damaged stores", cases::damaged_stores, 40),
    ("many atoms", cases::many_atoms, 30),
    ("translated files", cases::translated, 10),
    ("every word of a store", cases::every_word, 1),
    ("long files", cases::long, 2),
    ("edges of names", cases::edges_of_names, 20),
    ("reducts", cases::reducts, 40),
    ("choices", cases::choices, 20),
    ("places", cases::places, 20),
    ("orders", cases::orders, 20),
    ("partial choices", cases::partial_choices, 20),
    ("rows of inverters", cases::rows_of_inverters, 5),
    ("unused atoms", cases::unused_atoms, 20),
    ("clause files", clause_cases::clause_files, 40),
    ("large clause files", clause_cases::large_clause_files, 1),
    ("typed files", hand_typed_cases::hand_typed_files, 40),
    (
        "large typed files",
        hand_typed_cases::large_hand_typed_files,
        1,
    ),
    ("canonical texts", canonical_cases::canonical_texts, 20),
    (
        "many canonical rules",
        canonical_cases::many_canonical_rules,
        1,
    ),
    (
        "files with conditions",
        condition_cases::condition_files,
        40,
    ),
    ("lines of conditions", condition_cases::condition_lines, 40),
    (
        "large files with conditions",
        condition_cases::large_condition_files,
        2,
    ),
    ("rule indexes", index_cases::rule_indexes, 20),
    ("flips", index_cases::flips, 40),
    ("flips in a row", index_cases::flips_in_a_row, 20),
    ("added rules", index_cases::added_rules, 30),
    ("large rule indexes", index_cases::large_rule_indexes, 1),
];

/// When a run ends: when both are reached.
#[derive(Clone, Copy, Debug)]
pub struct Until {
    pub comparisons: u64,
    pub time: Duration,
}

pub struct Report {
    pub comparisons: u64,
    /// The comparisons of each family.
    pub families: Vec<(&'static str, u64)>,
    /// How often each function gave which outcome.
    pub outcomes: BTreeMap<(&'static str, Outcome), u64>,
    pub time: Duration,
}

/// Compares the engine with the second implementation.
pub fn run(engine: &dyn Engine, seed: u64, until: Until) -> Result<Report, Difference> {
    run_families(engine, seed, until, |_| true)
}

/// The same by the families of these names.
pub fn run_families(
    engine: &dyn Engine,
    seed: u64,
    until: Until,
    wanted: fn(&str) -> bool,
) -> Result<Report, Difference> {
    let start = Instant::now();
    let mut check = Checker::new(engine);
    let mut counts = [0; FAMILIES.len()];
    let mut round = 0u64;
    while check.comparisons < until.comparisons || start.elapsed() < until.time {
        let families = FAMILIES.iter().enumerate();
        for (place, (name, family, turns)) in families.filter(|(_, family)| wanted(family.0)) {
            // A turn has its own numbers, so that one family can change without the others.
            let own = seed ^ round.wrapping_mul(0x1_0001) ^ ((place as u64 + 1) << 56);
            let mut random = Random::new(own);
            let before = check.comparisons;
            for _ in 0..*turns {
                family(&mut check, &mut random).map_err(|difference| Difference {
                    text: format!("{name}, seed {seed}, round {round}\n{}", difference.text),
                })?;
            }
            counts[place] += check.comparisons - before;
        }
        round += 1;
    }
    let before = check.comparisons;
    cases::limits(&mut check, &mut Random::new(seed))?;
    clause_cases::limits(&mut check)?;
    hand_typed_cases::limits(&mut check)?;
    canonical_cases::limits(&mut check)?;
    condition_cases::limits(&mut check)?;
    index_cases::limits(&mut check)?;
    let limits = check.comparisons - before;
    clause_cases::short_texts(&mut check)?;
    let clauses = check.comparisons - before - limits;
    hand_typed_cases::short_texts(&mut check)?;
    hand_typed_cases::block_edges(&mut check)?;
    let typed = check.comparisons - before - limits - clauses;
    condition_cases::short_lines(&mut check)?;
    let conditions = check.comparisons - before - limits - clauses - typed;
    index_cases::short_words(&mut check)?;
    let indexes = check.comparisons - before - limits - clauses - typed - conditions;
    let mut families = vec![
        ("limits", limits),
        ("short clause files", clauses),
        ("short typed files", typed),
        ("short conditions", conditions),
        ("short indexes, rules and lists", indexes),
    ];
    families.extend(
        FAMILIES
            .iter()
            .zip(counts)
            .map(|(family, count)| (family.0, count)),
    );
    Ok(Report {
        comparisons: check.comparisons,
        families,
        outcomes: check.outcomes,
        time: start.elapsed(),
    })
}

/// The outcomes that a run has to see, or its cases are too poor.
pub fn wanted_outcomes() -> Vec<(&'static str, Outcome)> {
    let mut wanted = Vec::new();
    let mut refusals = |function: &'static str, numbers: &[u64]| {
        wanted.extend(
            numbers
                .iter()
                .map(|&number| (function, Outcome::Refused(number))),
        );
    };
    refusals("read", &[1, 2, 3, 4, 5, 6, 7, 8, 9, 17, 18]);
    refusals("read_clauses", &[1, 7, 9, 15, 16]);
    refusals("write", &[10, 14, 9]);
    refusals("write_canonical", &[10, 14, 9]);
    refusals("translate", &[10, 14, 9]);
    refusals("preferred", &[10, 11, 12, 13]);
    refusals("stable", &[10, 11, 12, 13]);
    refusals("next_state", &[10, 11, 12, 13]);
    refusals("place", &[10, 11, 12]);
    refusals("index_rules", &[10, 9]);
    refusals("add_rule", &[10, 19, 9]);
    refusals("flip", &[10, 19, 11, 12, 9]);
    for function in [
        "read",
        "read_clauses",
        "write",
        "write_canonical",
        "translate",
        "place",
        "listing",
        "index_rules",
        "add_rule",
        "flip",
    ] {
        wanted.push((function, Outcome::Done));
    }
    for kind in [0, 1, 2, 3] {
        wanted.push(("preferred", Outcome::Kind(kind)));
        wanted.push(("stable", Outcome::Kind(kind)));
    }
    for kind in [0, 1, 3] {
        wanted.push(("next_state", Outcome::Kind(kind)));
    }
    wanted
}

impl Report {
    pub fn print(&self) {
        for (name, count) in &self.families {
            println!("{count:>9}  {name}");
        }
        let mut last = "";
        for ((function, outcome), count) in &self.outcomes {
            if *function != last {
                print!("{}{function}:", if last.is_empty() { "" } else { "\n" });
                last = function;
            }
            match outcome {
                Outcome::Done => print!(" done {count}"),
                Outcome::Kind(kind) => print!(" kind {kind} {count}"),
                Outcome::Refused(number) => print!(" refused {number} {count}"),
            }
        }
        let seconds = self.time.as_secs_f64();
        println!("\n{} comparisons in {seconds:.1} s", self.comparisons);
    }

    /// The wanted outcomes that were not seen.
    pub fn unseen(&self) -> Vec<(&'static str, Outcome)> {
        let mut wanted = wanted_outcomes();
        wanted.retain(|outcome| !self.outcomes.contains_key(outcome));
        wanted
    }
}
