//! The kit of clause files, read by the second implementation and by each engine.

use compare::clause_kit::{cases, Case};
use compare::engine::{Engine, Reference};
use compare::engines;
use std::collections::HashSet;

const ROOM: usize = 16_384;

fn hold(engine: &dyn Engine, case: &Case) {
    let what = format!("{} by the {}", case.name, engine.name());
    let (mut rules, mut names, mut out) = (vec![9; ROOM], vec![9; ROOM], vec![9; 65_536]);
    let answer = engine.read_clauses(&case.text, &mut rules, &mut names);
    assert_eq!((answer.refusal, answer.line), case.refused, "{what}");
    let (words, bytes) = (answer.words as usize, answer.bytes as usize);
    let Some(expected) = &case.written else {
        assert_eq!((words, bytes), (0, 0), "{what}");
        assert!(rules.iter().all(|word| *word == 9) && names.iter().all(|byte| *byte == 9));
        return;
    };
    let (rules, names) = (&mut rules[..words], &mut names[..bytes]);
    let length = engine.write(rules, names, &mut out).bytes as usize;
    assert_eq!(out[..length], expected[..], "{what}");
    // Read as a preference file, what is written gives the same stores.
    let (mut again, mut again_names) = (vec![9; words], vec![9; bytes]);
    let read = engine.read(expected, &mut again, &mut again_names);
    assert_eq!((read.refusal, read.words), (0, words as u64), "{what}");
    assert_eq!((&again[..], &again_names[..]), (&*rules, &*names), "{what}");
    // Either output one shorter.
    let short = |words: usize, bytes: usize| {
        let (mut rules, mut names) = (vec![9; words], vec![9; bytes]);
        let answer = engine.read_clauses(&case.text, &mut rules, &mut names);
        assert_eq!((answer.refusal, answer.line), (9, 0), "{what}");
    };
    short(words - 1, bytes);
    if bytes > 0 {
        short(words, bytes - 1);
    }
}

#[test]
fn each_case() {
    let cases = cases();
    let seen: HashSet<u64> = cases.iter().map(|case| case.refused.0).collect();
    assert_eq!(seen, HashSet::from([0, 1, 7, 15, 16]));
    for case in &cases {
        hold(&Reference, case);
        for engine in engines() {
            hold(engine.as_ref(), case);
        }
    }
}

/// Each clause file that is kept has its answer.
#[test]
fn none_is_forgotten() {
    let directory = concat!(env!("CARGO_MANIFEST_DIR"), "/../../tests/clauses");
    let listed: HashSet<String> = cases().into_iter().map(|case| case.name).collect();
    let mut count = 0;
    for entry in std::fs::read_dir(directory).unwrap() {
        let name = entry.unwrap().file_name().into_string().unwrap();
        if let Some(name) = name.strip_suffix(".cnf") {
            assert!(
                listed.contains(name),
                "{name} is not in tests/clauses/answers"
            );
            count += 1;
        }
    }
    assert!(count > 40);
}
