//! The index of a rule store: which rules hold an atom (document 02, W-209).

use crate::program::{Program, Rule};
use crate::refusal::Reason;
use crate::verdicts::breaks;
use std::collections::BTreeSet;

/// For each atom the count of the rules that hold it, in any of their three lists, then the rising
/// list of these.
pub fn index(program: &Program) -> Vec<u16> {
    let mut holding = vec![BTreeSet::new(); program.atoms];
    for (number, rule) in (0u16..).zip(&program.rules) {
        for &atom in rule.lists().into_iter().flatten() {
            holding[atom].insert(number);
        }
    }
    let mut words = Vec::new();
    for rules in holding {
        words.push(rules.len() as u16);
        words.extend(rules);
    }
    words
}

/// The index is that of the store, or refusal 19.
pub fn check_index(program: &Program, words: &[u16]) -> Result<(), Reason> {
    match words == index(program) {
        true => Ok(()),
        false => Err(Reason::RuleIndex),
    }
}

/// The list is one of rising rule numbers, or refusal 19.
pub fn check_list(program: &Program, list: &[u16]) -> Result<(), Reason> {
    let rising = list.windows(2).all(|pair| pair[0] < pair[1]);
    let below = |number: &u16| usize::from(*number) < program.rules.len();
    match rising && list.iter().all(below) {
        true => Ok(()),
        false => Err(Reason::RuleIndex),
    }
}

/// The words of a rule store with a rule's words at their end.
pub fn with_rule(rules: &[u16], rule: &[u16]) -> Vec<u16> {
    let mut words = [rules, rule].concat();
    words[3] += 1;
    words
}

/// The numbers, rising, of the rules of which this is true.
fn numbers(rules: &[Rule], wanted: impl Fn(u16, &Rule) -> bool) -> Vec<u16> {
    let numbered = (0u16..).zip(rules);
    numbered
        .filter(|(number, rule)| wanted(*number, rule))
        .map(|(number, _)| number)
        .collect()
}

/// The rules that the set breaks.
pub fn broken(rules: &[Rule], set: u64) -> Vec<u16> {
    numbers(rules, |_, rule| breaks(set, rule))
}

/// The list's rules that don't hold the atom, and those of the atom's rules that the flipped set
/// breaks.
pub fn flip(program: &Program, list: &[u16], set: u64, atom: usize) -> Vec<u16> {
    let flipped = set ^ (1 << atom);
    numbers(&program.rules, |number, rule| {
        match rule.lists().iter().any(|list| list.contains(&atom)) {
            true => breaks(flipped, rule),
            false => list.contains(&number),
        }
    })
}
