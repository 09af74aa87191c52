//! What the tests share.
#![allow(dead_code)]

pub mod draw;

use reference::lent;
use reference::refusal::Refusal;
use reference::stores::{name_store, rule_store};
use reference::{reader, translator, writer};

pub const FILE_A: &str = "(min sensor)\n(min lamp)\n(vary dark)\n(fix)\n\
    (rule (head sensor lamp) (body) (not))\n(rule (head dark) (body lamp) (not))\n";

/// The rule store and the name store of a text that is accepted.
pub fn stores(text: &str) -> (Vec<u16>, Vec<u8>) {
    let (program, names) = reader::read(text.as_bytes()).expect("an accepted text");
    (rule_store(&program), name_store(&names))
}

pub fn rules(text: &str) -> Vec<u16> {
    stores(text).0
}

/// The number and line with which a text is refused.
pub fn refused(text: &[u8]) -> (u64, u64) {
    let refusal: Refusal = reader::read(text).expect_err("a refused text");
    (refusal.number(), refusal.line)
}

/// The text is accepted, and the writer gives it back.
pub fn accepted(text: &str) {
    let (program, names) = reader::read(text.as_bytes()).expect("an accepted text");
    assert_eq!(writer::write(&program, &names), text.as_bytes());
}

/// Atoms, rules and occurrences of a preference file's translation, read again from its text.
pub fn translated_sums(text: &str) -> (usize, usize, usize) {
    let (program, names) = reader::read(text.as_bytes()).unwrap();
    let (plain, plain_names) = translator::translate(&program, &names);
    let delivered = writer::write(&plain, &plain_names);
    let (again, again_names) = reader::read(&delivered).unwrap();
    assert_eq!((&again, &again_names), (&plain, &plain_names));
    (again.atoms, again.rules.len(), again.occurrences())
}

/// All preferred states, by going on from each next state.
pub fn states(text: &str) -> Vec<u64> {
    use reference::verdicts::Next;
    let rules = rules(text);
    let mut found = Vec::new();
    let mut start = 0;
    while let Next::State { set, .. } = lent::next_state(&rules, start, 1 << 40).unwrap() {
        found.push(set);
        start = lent::place(&rules, set).unwrap() + 1;
    }
    found
}

/// A row of inverters as in document 001's Example 1, with any number of them instead of three: each
/// is at fault or its two wires differ; the first wire is low, and the last is not what it then
/// should be. The faults are one class and are declared first.
pub fn inverters(count: usize) -> String {
    let mut text = format!("(min{})\n", many("ab", count));
    text += &format!("(vary{})\n(fix)\n", many("w", count + 1));
    for i in 0..count {
        let (wires, fault) = (format!("w{i} w{}", i + 1), format!("ab{i}"));
        text += &format!("(rule (head {wires} {fault}) (body) (not))\n");
        text += &format!("(rule (head {fault}) (body {wires}) (not))\n");
    }
    text += "(rule (head) (body w0) (not))\n";
    text + &match count % 2 {
        1 => format!("(rule (head) (body w{count}) (not))\n"),
        _ => format!("(rule (head w{count}) (body) (not))\n"),
    }
}

/// ` a0 a1 a2 ..`: this many different names, each with a space before it.
pub fn many(prefix: &str, count: usize) -> String {
    (0..count).map(|i| format!(" {prefix}{i}")).collect()
}

/// A rule with all these names, of which there is at least one. No choice breaks it, so it only
/// makes the atoms belong to the program.
pub fn tautology(names: &str) -> String {
    format!("(rule (head{names}) (body{names}) (not))\n")
}
