//! The kit of clause files under `tests/clauses`, and those that are too long to be kept.

use std::path::{Path, PathBuf};

/// A clause file and what reading it gives.
#[derive(Clone, Debug)]
pub struct Case {
    pub name: String,
    pub text: Vec<u8>,
    /// The refusal's number and its line; twice 0 where the file is accepted.
    pub refused: (u64, u64),
    /// The text of the preference file, where the file is accepted.
    pub written: Option<Vec<u8>>,
}

fn directory() -> PathBuf {
    Path::new(env!("CARGO_MANIFEST_DIR")).join("../../tests/clauses")
}

fn kept(name: &str, end: &str) -> Vec<u8> {
    let path = directory().join(format!("{name}.{end}"));
    std::fs::read(&path).unwrap_or_else(|error| panic!("{}: {error}", path.display()))
}

/// A line of `answers`: a name and two numbers.
fn case(line: &str) -> Case {
    let mut words = line.split_whitespace();
    let name = words.next().expect("a name").to_string();
    let mut number = || -> u64 {
        let word = words.next().expect("two numbers");
        word.parse().expect("a number")
    };
    let refused = (number(), number());
    Case {
        text: kept(&name, "cnf"),
        written: (refused == (0, 0)).then(|| kept(&name, "pref")),
        refused,
        name,
    }
}

fn refused(name: &str, refused: (u64, u64), text: String) -> Case {
    Case {
        name: name.to_string(),
        text: text.into_bytes(),
        refused,
        written: None,
    }
}

/// The cases of the kit; then a text that is too long, and one whose last line has the 8,193rd
/// occurrence.
pub fn cases() -> Vec<Case> {
    let answers =
        std::fs::read_to_string(directory().join("answers")).expect("tests/clauses/answers");
    let lines = answers.lines().filter(|line| !line.starts_with('#'));
    let mut cases: Vec<Case> = lines.map(case).collect();
    let long = format!("p cnf 0 0\n{}", "c\n".repeat(458_748));
    cases.push(refused("too long", (1, 0), long));
    let literals: String = (1..=256).map(|atom| format!("{atom} -{atom} ")).collect();
    let full = format!("{literals}0\n").repeat(16);
    let passed = format!("p cnf 256 17\n{full}1 0\n");
    cases.push(refused("8,193 occurrences", (7, 18), passed));
    cases
}
