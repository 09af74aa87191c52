//! What the functions of the rule index are called with: stores, indexes, lists and rules, right and
//! damaged.

use crate::generate::{bare, either, partly_used, rule_of, Size};
use crate::random::Random;
use crate::spoil;
use reference::index::{broken, index};
use reference::lent;
use reference::limits::{Kind, VERDICT_ATOM_LIMIT};
use reference::program::{Program, Rule};
use reference::stores::rule_store;

/// What a rule is added with.
#[derive(Clone, Debug, PartialEq, Eq)]
pub struct Adding {
    pub rules: Vec<u16>,
    pub index: Vec<u16>,
    pub rule: Vec<u16>,
}

/// What an atom is flipped with.
#[derive(Clone, Debug, PartialEq, Eq)]
pub struct Flip {
    pub rules: Vec<u16>,
    pub index: Vec<u16>,
    pub list: Vec<u16>,
    pub set: u64,
    pub atom: u64,
}

/// The words of one rule.
pub fn rule_words(rule: &Rule) -> Vec<u16> {
    let lists = rule.lists();
    let counts = lists.map(<[usize]>::len).to_vec();
    let words = [counts, lists.concat()].concat();
    words.into_iter().map(|word| word as u16).collect()
}

impl Adding {
    pub fn new(program: &Program, rule: &Rule) -> Adding {
        Adding {
            rules: rule_store(program),
            index: index(program),
            rule: rule_words(rule),
        }
    }

    /// The lengths of the two results, where nothing is refused.
    pub fn lengths(&self) -> Option<(usize, usize)> {
        let mut rules_out = vec![0; self.rules.len() + self.rule.len()];
        let mut index_out = vec![0; self.index.len() + self.rule.len()];
        let (rules, index, rule) = (&self.rules, &self.index, &self.rule);
        let grown = lent::add_rule(rules, index, rule, &mut rules_out, &mut index_out);
        grown.ok().map(|grown| (grown.words, grown.index_words))
    }

    /// Damages the store, the index or the rule.
    pub fn spoil(&mut self, random: &mut Random, program: &Program) {
        match random.below(4) {
            0 => spoil::rules(random, &mut self.rules),
            1 => spoil_index(random, &mut self.index, program),
            _ => spoil_rule(random, &mut self.rule, program.atoms),
        }
    }
}

impl Flip {
    /// A flip of any atom in any set, from the rules that the set breaks; of more atoms than a set may
    /// have, from none.
    pub fn any(random: &mut Random, program: &Program) -> Flip {
        let set = random.any() & (sets(program) - 1);
        let list = match program.atoms {
            0..=VERDICT_ATOM_LIMIT => broken(&program.rules, set),
            _ => Vec::new(),
        };
        Flip {
            rules: rule_store(program),
            index: index(program),
            list,
            set,
            atom: random.below(program.atoms.max(1)) as u64,
        }
    }

    /// How many rules the answer has, where nothing is refused.
    pub fn length(&self) -> Option<usize> {
        let mut out = vec![0; self.rules.len()];
        let (rules, index, list) = (&self.rules, &self.index, &self.list);
        lent::flip(rules, index, list, self.set, self.atom, &mut out).ok()
    }

    /// Damages one of the five parts.
    pub fn spoil(&mut self, random: &mut Random, program: &Program, part: usize) {
        let count = program.rules.len();
        match part {
            0 => spoil::rules(random, &mut self.rules),
            1 => spoil_index(random, &mut self.index, program),
            2 => spoil_list(random, &mut self.list, count as u16),
            3 => {
                let sets = sets(program);
                let past = [sets, sets + 1, sets | self.set, 1 << 60, 1 << 63, u64::MAX];
                self.set = *random.pick(&past);
            }
            _ => {
                let (atom, atoms) = (self.atom, program.atoms as u64);
                let near = [atoms, atoms, atoms + 1, 60, 63, 64];
                let far = [6, 16, 32, 63].map(|bit| atom | 1 << bit);
                let most = [1 << 63, u64::MAX];
                self.atom = *random.pick(&[&near[..], &far, &most].concat());
            }
        }
    }
}

/// 2^n, and 2^63 where that is more.
fn sets(program: &Program) -> u64 {
    1 << program.atoms.min(63)
}

/// A program of exactly so many atoms and rules, each rule with at most so many atoms.
pub fn drawn(
    random: &mut Random,
    kind: Kind,
    (atoms, rules): (usize, usize),
    places: usize,
) -> Program {
    let mut program = bare(kind, atoms);
    for _ in 0..rules {
        let places = random.within(0, places);
        program.rules.push(rule_of(random, kind, atoms, places));
    }
    program
}

/// A program of either kind with one of these numbers of atoms, or a small one: no rule to some
/// hundred of them, atoms in no rule, in most of them, in several lists of one.
pub fn program(random: &mut Random, atoms: &[usize]) -> Program {
    match random.below(6) {
        0 => either(random, Size::SMALL).0,
        1 => partly_used(random, Size::SMALL).0,
        _ => {
            let kind = *random.pick(&[Kind::Plain, Kind::Preference]);
            let atoms = (*random.pick(atoms)).min(kind.atom_limit());
            let rules = *random.pick(&[0, 1, 2, 2, 5, 5, 12, 40, 150]);
            drawn(random, kind, (atoms, rules), 5)
        }
    }
}

/// Lists of rules: the empty one, all, one, any.
pub fn rising_lists(random: &mut Random, rules: usize) -> [Vec<u16>; 4] {
    let all: Vec<u16> = (0..rules as u16).collect();
    let mut any = all.clone();
    let often = random.within(1, 4);
    any.retain(|_| random.once_in(often));
    let one = random.choose(1, rules);
    let one = one.into_iter().map(|number| number as u16).collect();
    [Vec::new(), all, one, any]
}

/// The rules of each atom, as the index has them.
fn lists(program: &Program) -> Vec<Vec<u16>> {
    let words = index(program);
    let mut left = words.as_slice();
    let mut lists = Vec::new();
    while let Some((count, rest)) = left.split_first() {
        let (list, rest) = rest.split_at(usize::from(*count));
        lists.push(list.to_vec());
        left = rest;
    }
    lists
}

fn words_of_lists(lists: &[Vec<u16>]) -> Vec<u16> {
    let words = |list: &Vec<u16>| [&[list.len() as u16], list.as_slice()].concat();
    lists.iter().flat_map(words).collect()
}

/// An index near that of the program: a rule left out, too many or twice, lists falling or exchanged,
/// a count off, rules numbered from 1, counts before lists, one rule less, one atom more or less.
fn near_index(random: &mut Random, program: &Program) -> Vec<u16> {
    let mut lists = lists(program);
    if lists.is_empty() {
        return vec![0];
    }
    let (atom, other) = (random.below(lists.len()), random.below(lists.len()));
    let list = &mut lists[atom];
    let place = random.below(list.len().max(1));
    match random.below(11) {
        0 if !list.is_empty() => {
            list.remove(place);
        }
        1 => {
            let number = random.within(0, program.rules.len()) as u16;
            list.push(number);
            list.sort_unstable();
        }
        2 if !list.is_empty() => list.insert(place, list[place]),
        3 => list.reverse(),
        4 => lists.swap(atom, other),
        5 => lists.iter_mut().flatten().for_each(|number| *number += 1),
        6 => {
            let counts = lists.iter().map(|list| list.len() as u16);
            return counts.chain(lists.concat()).collect();
        }
        7 => {
            let mut less = program.clone();
            less.rules.pop();
            return index(&less);
        }
        8 => lists.push(Vec::new()),
        9 => {
            lists.pop();
        }
        _ => {
            let before = words_of_lists(&lists[..atom]).len();
            let mut words = words_of_lists(&lists);
            let off = *random.pick(&[1, 2, 0x8000, 65_535]);
            words[before] = words[before].wrapping_add(off);
            return words;
        }
    }
    words_of_lists(&lists)
}

fn spoil_index(random: &mut Random, words: &mut Vec<u16>, program: &Program) {
    match random.once_in(2) {
        true => *words = near_index(random, program),
        false => spoil::rules(random, words),
    }
}

/// Damages a list of rules below `rules`: numbers too large, equal neighbours, falling ones.
fn spoil_list(random: &mut Random, list: &mut Vec<u16>, rules: u16) {
    let past = *random.pick(&[rules, rules, rules + 1, 32_768, 65_535]);
    let place = random.below(list.len().max(1));
    match random.below(7) {
        0 => list.push(past),
        1 => list.insert(place, past),
        2 if !list.is_empty() => list[place] = past,
        3 if !list.is_empty() => list.insert(place, list[place]),
        4 if place > 0 => list.swap(place - 1, place),
        5 => list.reverse(),
        _ => spoil::rules(random, list),
    }
}

/// Damages a rule's words: atoms too large or twice in a list, a filled `not` list, less or more than a
/// rule, two rules, counts off.
fn spoil_rule(random: &mut Random, rule: &mut Vec<u16>, atoms: usize) {
    let last = rule.len().saturating_sub(1);
    match random.below(10) {
        0 | 1 if last >= 3 => {
            let past = atoms as u16;
            rule[random.within(3, last)] = *random.pick(&[past, past, past + 1, 65_535]);
        }
        2 | 3 if last >= 4 => rule[random.within(3, last)] = rule[random.within(3, last)],
        4 if last >= 2 => {
            rule[2] = rule[2].wrapping_add(1);
            rule.push(random.below(atoms.max(1)) as u16);
        }
        5 => rule.extend_from_within(..),
        6 => rule.extend([0, 0, 0]),
        7 if last >= 2 => {
            let off = *random.pick(&[1, 2, 0x8000, 65_535]);
            let place = random.below(3);
            rule[place] = rule[place].wrapping_add(off);
        }
        8 => rule.truncate(random.below(last + 1)),
        _ => spoil::rules(random, rule),
    }
}

#[cfg(test)]
mod tests {
    use super::*;
    use std::collections::BTreeMap;

    /// Damages of one part are mostly refused by its number.
    #[test]
    fn damages_are_refused() {
        let mut random = Random::new(3);
        for (part, number) in [(0, 10), (1, 19), (2, 19), (3, 12), (4, 12)] {
            let mut refusals: BTreeMap<u64, usize> = BTreeMap::new();
            for _ in 0..1_000 {
                let program = program(&mut random, &[1, 2, 6, 60]);
                let mut call = Flip::any(&mut random, &program);
                call.spoil(&mut random, &program, part);
                let (rules, index, list) = (&call.rules, &call.index, &call.list);
                let mut out = vec![0; rules.len()];
                let answer = lent::flip(rules, index, list, call.set, call.atom, &mut out);
                let refusal = answer.map_or_else(|reason| reason as u64, |_| 0);
                *refusals.entry(refusal).or_default() += 1;
            }
            assert!(refusals[&number] > 600, "part {part}: {refusals:?}");
        }
    }

    /// Damages of a rule's words are mostly refused, in stores of both kinds.
    #[test]
    fn damaged_rules_are_refused() {
        let mut random = Random::new(4);
        for kind in [Kind::Plain, Kind::Preference] {
            let program = drawn(&mut random, kind, (6, 3), 5);
            let mut refused = 0;
            for _ in 0..1_000 {
                let mut call = Adding::new(&program, &rule_of(&mut random, kind, 6, 5));
                spoil_rule(&mut random, &mut call.rule, program.atoms);
                refused += usize::from(call.lengths().is_none());
            }
            assert!(refused > 600, "{kind:?}: {refused}");
        }
    }
}
