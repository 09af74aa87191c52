//! Document 02, W-209: the index of a rule store, rules added to both, and lists of rules when an atom
//! is flipped; each sentence by a case, small ones all, and its laws by brute force.

mod common;

use common::draw::{programs, Draw};
use common::{many, rules, FILE_A};
use reference::lent::{self, Grown};
use reference::limits::Kind;
use reference::program::{Program, Role, Rule};
use reference::refusal::Reason;
use reference::stores::{check_rules, rule_store};
use reference::verdicts::holds;
use std::collections::BTreeSet;

const FILL: u16 = 0xa5a5;
/// More than is written for file A.
const ROOM: usize = 60;
const KINDS: [Kind; 2] = [Kind::Preference, Kind::Plain];

/// What is written in an output of so many words. The rest keeps its content.
fn written(out: Vec<u16>, length: usize) -> Vec<u16> {
    assert!(out[length..].iter().all(|word| *word == FILL));
    out[..length].to_vec()
}

fn index_in(rules: &[u16], length: usize) -> Result<Vec<u16>, Reason> {
    let mut out = vec![FILL; length];
    let answer = lent::index_rules(rules, &mut out);
    let words = written(out, answer.unwrap_or(0));
    answer.map(|_| words)
}

fn index(rules: &[u16]) -> Vec<u16> {
    let atoms = usize::from(rules[1]);
    index_in(rules, atoms + rules.len()).expect("a rule store")
}

type Both = (Vec<u16>, Vec<u16>);

fn add_in(
    rules: &[u16],
    index: &[u16],
    rule: &[u16],
    lengths: (usize, usize),
) -> Result<Both, Reason> {
    let (mut rules_out, mut index_out) = (vec![FILL; lengths.0], vec![FILL; lengths.1]);
    let answer = lent::add_rule(rules, index, rule, &mut rules_out, &mut index_out);
    let nothing = Grown {
        words: 0,
        index_words: 0,
    };
    let grown = answer.unwrap_or(nothing);
    let both = (
        written(rules_out, grown.words),
        written(index_out, grown.index_words),
    );
    answer.map(|_| both)
}

fn add(rules: &[u16], index: &[u16], rule: &[u16]) -> Result<Both, Reason> {
    let lengths = (rules.len() + rule.len(), index.len() + rule.len());
    add_in(rules, index, rule, lengths)
}

fn flip_in(
    rules: &[u16],
    index: &[u16],
    list: &[u16],
    (set, atom): (u64, u64),
    length: usize,
) -> Result<Vec<u16>, Reason> {
    let mut out = vec![FILL; length];
    let answer = lent::flip(rules, index, list, set, atom, &mut out);
    let words = written(out, answer.unwrap_or(0));
    answer.map(|_| words)
}

fn flip(rules: &[u16], list: &[u16], set: u64, atom: u64) -> Result<Vec<u16>, Reason> {
    let length = usize::from(rules[3]);
    flip_in(rules, &index(rules), list, (set, atom), length)
}

const TEN: Reason = Reason::RuleStore;
const NINETEEN: Reason = Reason::RuleIndex;
const ELEVEN: Reason = Reason::TooManyAtoms;
const TWELVE: Reason = Reason::SetTooLarge;
const NINE: Reason = Reason::OutputShort;

#[test]
fn numbers() {
    assert_eq!(NINETEEN as u64, 19);
}

/// `sensor`, `lamp` and `dark`: rule 0 has the first two, rule 1 the last two.
const INDEX_A: [u16; 7] = [1, 0, 2, 0, 1, 1, 1];

#[test]
fn for_each_atom_a_count_and_its_rules() {
    assert_eq!(index(&rules(FILE_A)), INDEX_A);
    let text = "(atoms a b c d)\n(rule (head) (body b) (not))\n(rule (head) (body) (not))\n\
        (rule (head a b) (body) (not))\n(rule (head d) (body b a) (not))\n";
    assert_eq!(index(&rules(text)), [2, 2, 3, 3, 0, 2, 3, 0, 1, 3]);
}

#[test]
fn any_of_the_three_lists() {
    let text =
        "(atoms a b c)\n(rule (head a) (body b) (not c))\n(rule (head b) (body c) (not a))\n\
        (rule (head) (body) (not b))\n";
    assert_eq!(index(&rules(text)), [2, 0, 1, 3, 0, 1, 2, 2, 0, 1]);
}

#[test]
fn an_atom_in_two_lists_of_a_rule_is_held_once() {
    let text = "(atoms a b)\n(rule (head a) (body a) (not))\n(rule (head b a) (body) (not a b))\n\
        (rule (head a b) (body b a) (not b))\n";
    assert_eq!(index(&rules(text)), [3, 0, 1, 2, 2, 1, 2]);
    let text = "(vary a b)\n(fix)\n(rule (head a b) (body a) (not))\n";
    assert_eq!(index(&rules(text)), [1, 0, 1, 0]);
}

#[test]
fn no_atom_no_rule_no_occurrence() {
    for kind in [0, 1] {
        assert_eq!(index(&[kind, 0, 0, 0]), []);
        assert_eq!(index(&[kind, 0, 0, 2, 0, 0, 0, 0, 0, 0]), []);
    }
    assert_eq!(index(&[0, 3, 0, 0]), [0, 0, 0]);
    assert_eq!(index(&[1, 2, 0, 1, 17, 18, 0, 0, 0]), [0, 0]);
}

/// The lists of an index of so many atoms, of which no word is left.
fn lists(atoms: usize, mut index: &[u16]) -> Vec<Vec<u16>> {
    let mut lists = Vec::new();
    for _ in 0..atoms {
        let (count, rest) = index.split_first().expect("a count");
        let (list, rest) = rest.split_at(usize::from(*count));
        lists.push(list.to_vec());
        index = rest;
    }
    assert!(index.is_empty());
    lists
}

fn occurs(rule: &Rule, atom: usize) -> bool {
    [&rule.head[..], &rule.body, &rule.not]
        .concat()
        .contains(&atom)
}

fn is_rising(list: &[u16]) -> bool {
    list.windows(2).all(|pair| pair[0] < pair[1])
}

#[test]
fn every_small_index() {
    for kind in KINDS {
        for program in programs(kind, 2_000) {
            let index = index(&rule_store(&program));
            for (atom, list) in lists(program.atoms, &index).iter().enumerate() {
                assert!(is_rising(list));
                for (number, rule) in program.rules.iter().enumerate() {
                    assert_eq!(list.contains(&(number as u16)), occurs(rule, atom));
                }
                let below = |number: &u16| usize::from(*number) < program.rules.len();
                assert!(list.iter().all(below));
            }
        }
    }
}

/// Stores that are none: cut short, with a word more, with a word that may not stand there.
fn no_stores() -> Vec<Vec<u16>> {
    let a = rules(FILE_A);
    let mut stores: Vec<Vec<u16>> = (0..a.len()).map(|length| a[..length].to_vec()).collect();
    stores.push([&a[..], &[0]].concat());
    for (place, word) in [(0, 2), (1, 4), (2, 1), (3, 1), (3, 3), (9, 1), (10, 3)] {
        let mut store = a.clone();
        store[place] = word;
        stores.push(store);
    }
    stores
}

#[test]
fn what_the_index_is_refused_for() {
    for store in no_stores() {
        assert_eq!(index_in(&store, ROOM), Err(TEN));
        assert_eq!(index_in(&store, 0), Err(TEN));
    }
    let a = rules(FILE_A);
    for length in 0..INDEX_A.len() {
        assert_eq!(index_in(&a, length), Err(NINE));
    }
    for length in INDEX_A.len()..INDEX_A.len() + 3 {
        assert_eq!(index_in(&a, length), Ok(INDEX_A.to_vec()));
    }
    assert_eq!(index_in(&[0, 0, 0, 0], 0), Ok(Vec::new()));
}

#[test]
fn a_rule_at_the_end() {
    let a = rules(FILE_A);
    // `dark` if `sensor`.
    let (store, grown) = add(&a, &INDEX_A, &[1, 1, 0, 2, 0]).unwrap();
    let text = format!("{FILE_A}(rule (head dark) (body sensor) (not))\n");
    assert_eq!(store, rules(&text));
    assert_eq!(grown, [2, 0, 2, 2, 0, 1, 2, 1, 2]);
    // Once more, the same rule.
    let (store, grown) = add(&store, &grown, &[1, 1, 0, 2, 0]).unwrap();
    assert_eq!(store[3], 4);
    assert_eq!(grown, [3, 0, 2, 3, 2, 0, 1, 3, 1, 2, 3]);
    // A rule without an atom: the index stays.
    let (store, same) = add(&store, &grown, &[0, 0, 0]).unwrap();
    assert_eq!((store[3], same), (5, grown));
}

#[test]
fn a_rule_of_a_plain_store() {
    let text = "(atoms a b)\n(rule (head a) (body) (not))\n";
    let (store, grown) = add(&rules(text), &[1, 0, 0], &[1, 1, 2, 1, 1, 1, 0]).unwrap();
    let text = format!("{text}(rule (head b) (body b) (not b a))\n");
    assert_eq!(store, rules(&text));
    assert_eq!(grown, [2, 0, 1, 1, 1]);
}

#[test]
fn what_a_rule_is_refused_for() {
    let store = |kind: u16| match kind {
        0 => vec![0, 3, 0, 1, 1, 0, 0, 1],
        _ => vec![1, 3, 0, 1, 17, 17, 18, 1, 0, 0, 1],
    };
    let index = [0, 1, 0, 0];
    let wrong: [&[u16]; 22] = [
        // Not one rule: less, more, two.
        &[],
        &[0],
        &[0, 0],
        &[1, 0, 0],
        &[0, 1, 0],
        &[2, 0, 0, 1],
        &[1, 1, 0, 0],
        &[0, 0, 0, 0],
        &[1, 0, 0, 0, 0],
        &[0, 0, 0, 0, 0, 0],
        &[1, 0, 0, 0, 1, 0, 0, 0],
        &[65_535, 0, 0],
        &[65_535, 2, 0, 0, 1],
        // An atom 3 or more.
        &[1, 0, 0, 3],
        &[0, 1, 0, 3],
        &[2, 1, 0, 0, 4, 1],
        &[1, 0, 0, 65_535],
        // An atom twice in a list.
        &[2, 0, 0, 1, 1],
        &[0, 2, 0, 2, 2],
        &[3, 0, 0, 0, 1, 0],
        &[1, 3, 0, 0, 0, 1, 0],
        &[0, 4, 0, 0, 1, 2, 0],
    ];
    let nots: [&[u16]; 3] = [&[0, 0, 1, 0], &[1, 1, 1, 0, 1, 2], &[0, 0, 2, 2, 0]];
    let wrong_nots: [&[u16]; 3] = [&[0, 0, 1], &[0, 0, 1, 3], &[0, 0, 2, 1, 1]];
    let right: [&[u16]; 5] = [
        &[0, 0, 0],
        &[1, 1, 0, 2, 2],
        &[3, 3, 0, 2, 1, 0, 0, 1, 2],
        &[0, 1, 0, 0],
        &[3, 0, 0, 0, 2, 1],
    ];
    for kind in [0, 1] {
        for rule in wrong.into_iter().chain(wrong_nots) {
            assert_eq!(add(&store(kind), &index, rule), Err(TEN), "{rule:?}");
        }
        for rule in right {
            assert!(add(&store(kind), &index, rule).is_ok(), "{rule:?}");
        }
    }
    for rule in nots {
        assert!(add(&store(0), &index, rule).is_ok(), "{rule:?}");
        assert_eq!(add(&store(1), &index, rule), Err(TEN), "{rule:?}");
    }
}

/// What is no index of file A: words changed, exchanged, dropped, added; a count off; the index of
/// another store.
fn no_indexes() -> Vec<Vec<u16>> {
    let mut indexes: Vec<Vec<u16>> = Vec::new();
    for place in 0..INDEX_A.len() {
        for change in [1, 2, 0x8000, 65_535] {
            let mut index = INDEX_A.to_vec();
            index[place] = index[place].wrapping_add(change);
            indexes.push(index);
        }
        indexes.push(INDEX_A[..place].to_vec());
        let mut index = INDEX_A.to_vec();
        index.remove(place);
        indexes.push(index);
        let mut index = INDEX_A.to_vec();
        index.swap(place, (place + 1) % INDEX_A.len());
        indexes.push(index);
    }
    for place in 0..=INDEX_A.len() {
        for word in [0, 1, 2] {
            let mut index = INDEX_A.to_vec();
            index.insert(place, word);
            indexes.push(index);
        }
    }
    // Falling, a rule twice, rules from 1, counts first.
    indexes.push(vec![1, 0, 2, 1, 0, 1, 1]);
    indexes.push(vec![1, 0, 3, 0, 1, 1, 1, 1]);
    indexes.push(vec![1, 1, 2, 1, 2, 1, 2]);
    indexes.push(vec![1, 2, 1, 0, 0, 1, 1]);
    indexes.retain(|index| *index != INDEX_A);
    indexes
}

/// 10 for the store or the rule, then 19, then 9 for either output.
#[test]
fn what_adding_is_refused_for() {
    let a = rules(FILE_A);
    let rule = [1, 1, 0, 2, 0];
    for store in no_stores() {
        assert_eq!(add(&store, &INDEX_A, &rule), Err(TEN));
        assert_eq!(add_in(&store, &[9], &[9], (0, 0)), Err(TEN));
    }
    assert_eq!(add_in(&a, &[9], &[9], (0, 0)), Err(TEN));
    assert_eq!(add_in(&a, &[9], &[1, 0, 0, 3], (99, 99)), Err(TEN));
    for index in no_indexes() {
        assert_eq!(add(&a, &index, &rule), Err(NINETEEN), "{index:?}");
        assert_eq!(add_in(&a, &index, &rule, (0, 0)), Err(NINETEEN));
    }
    // The index of the grown store is not that of the store.
    let (store, grown) = add(&a, &INDEX_A, &rule).unwrap();
    assert_eq!(add(&a, &grown, &rule), Err(NINETEEN));
    let (words, index_words) = (store.len(), grown.len());
    for rules_len in words - 3..words + 3 {
        for index_len in index_words - 3..index_words + 3 {
            let added = add_in(&a, &INDEX_A, &rule, (rules_len, index_len));
            match rules_len < words || index_len < index_words {
                true => assert_eq!(added, Err(NINE)),
                false => assert_eq!(added, Ok((store.clone(), grown.clone()))),
            }
        }
    }
    assert_eq!(add_in(&a, &INDEX_A, &rule, (0, ROOM)), Err(NINE));
    assert_eq!(add_in(&a, &INDEX_A, &rule, (ROOM, 0)), Err(NINE));
    let nothing = add_in(&[0, 0, 0, 0], &[], &[0, 0, 0], (7, 0));
    assert_eq!(nothing, Ok((vec![0, 0, 0, 1, 0, 0, 0], Vec::new())));
}

/// A program of so many atoms without rules. Those of a preference file vary.
fn bare(kind: Kind, atoms: usize) -> Program {
    let mut program = Program::empty(kind);
    program.atoms = atoms;
    if kind == Kind::Preference {
        program.roles = vec![Role::Varying; atoms];
    }
    program
}

/// The words of one rule.
fn rule_words(rule: &Rule) -> Vec<u16> {
    let lists = rule.lists();
    let counts = lists.map(|list| list.len()).to_vec();
    let words = [counts, lists.concat()].concat();
    words.into_iter().map(|word| word as u16).collect()
}

/// A rule with short lists.
fn short_rule(draw: &mut Draw, kind: Kind, atoms: usize) -> Rule {
    let mut list = || {
        let mut list = Vec::new();
        for _ in 0..draw.below(4) {
            let atom = draw.below(atoms);
            if !list.contains(&atom) {
                list.push(atom);
            }
        }
        list
    };
    Rule {
        head: list(),
        body: list(),
        not: match kind {
            Kind::Plain => list(),
            Kind::Preference => Vec::new(),
        },
    }
}

/// Grown one rule at a time, store and index are those of the whole.
#[test]
fn grown_from_the_empty_program() {
    for kind in KINDS {
        let mut draw = Draw(209);
        for (atoms, count) in [(1, 30), (2, 60), (7, 120), (60, 300), (250, 200)] {
            let mut whole = bare(kind, atoms);
            let mut store = rule_store(&whole);
            let mut grown = index(&store);
            assert_eq!(grown, vec![0; atoms]);
            for _ in 0..count {
                let rule = short_rule(&mut draw, kind, atoms);
                (store, grown) = add(&store, &grown, &rule_words(&rule)).unwrap();
                whole.rules.push(rule);
                assert_eq!(store, rule_store(&whole));
                assert_eq!(grown, index(&store));
            }
        }
    }
}

#[test]
fn every_small_program_grown() {
    for kind in KINDS {
        for program in programs(kind, 500) {
            let mut store = rule_store(&Program {
                rules: Vec::new(),
                ..program.clone()
            });
            let mut grown = index(&store);
            for rule in &program.rules {
                (store, grown) = add(&store, &grown, &rule_words(rule)).unwrap();
            }
            assert_eq!(store, rule_store(&program));
            assert_eq!(grown, index(&store));
        }
    }
}

/// The last rule that the limit takes, and one more.
#[test]
fn the_limit_of_rules() {
    for (kind, limit) in [(Kind::Preference, 1_024), (Kind::Plain, 4_200)] {
        let mut program = bare(kind, 2);
        let rule = Rule {
            head: vec![1],
            ..Rule::default()
        };
        program.rules = vec![rule.clone(); limit - 1];
        let store = rule_store(&program);
        let (store, grown) = add(&store, &index(&store), &rule_words(&rule)).unwrap();
        assert_eq!(usize::from(store[3]), limit);
        assert_eq!(grown, index(&store));
        assert_eq!(usize::from(grown[1]), limit);
        assert_eq!(add(&store, &grown, &rule_words(&rule)), Err(TEN));
        assert_eq!(add(&store, &grown, &[0, 0, 0]), Err(TEN));
        program.rules = vec![rule; limit + 1];
        assert_eq!(index_in(&rule_store(&program), ROOM), Err(TEN));
    }
}

/// The last occurrence that the limit takes, and one more.
#[test]
fn the_limit_of_occurrences() {
    for (kind, atoms, limit) in [(Kind::Preference, 256, 8_192), (Kind::Plain, 1_000, 24_000)] {
        let full = Rule {
            head: (0..atoms).collect(),
            body: (0..atoms).rev().collect(),
            not: Vec::new(),
        };
        let mut program = bare(kind, atoms);
        program.rules = vec![full.clone(); limit / (2 * atoms)];
        program.rules[0].head.truncate(atoms - 5);
        assert_eq!(program.occurrences(), limit - 5);
        let store = rule_store(&program);
        let index_words = index(&store);
        assert_eq!(add(&store, &index_words, &rule_words(&full)), Err(TEN));
        assert_eq!(
            add(&store, &index_words, &[4, 2, 0, 0, 1, 2, 3, 0, 1]),
            Err(TEN)
        );
        assert!(add(&store, &index_words, &[4, 0, 0, 0, 1, 2, 3]).is_ok());
        let (store, grown) = add(&store, &index_words, &[3, 2, 0, 0, 1, 2, 0, 1]).unwrap();
        assert_eq!(check_rules(&store).unwrap().occurrences(), limit);
        assert_eq!(grown, index(&store));
        assert_eq!(add(&store, &grown, &[1, 0, 0, 0]), Err(TEN));
        assert_eq!(add(&store, &grown, &[0, 1, 0, 0]), Err(TEN));
        assert!(add(&store, &grown, &[0, 0, 0]).is_ok());
    }
}

/// Document 01: a set is a model when each rule with its whole body in and no `not` atom in has some
/// head atom in.
fn is_broken(rule: &Rule, set: u64) -> bool {
    let in_set = |list: &[usize]| list.iter().filter(|&&atom| holds(set, atom)).count();
    in_set(&rule.body) == rule.body.len() && in_set(&rule.not) + in_set(&rule.head) == 0
}

/// The broken rules by a test of all.
fn broken(rules: &[Rule], set: u64) -> Vec<u16> {
    let numbers = 0..rules.len() as u16;
    numbers
        .filter(|&number| is_broken(&rules[usize::from(number)], set))
        .collect()
}

/// What the request words, by the lists of the index.
fn worded(program: &Program, index: &[u16], list: &[u16], set: u64, atom: usize) -> Vec<u16> {
    let own = &lists(program.atoms, index)[atom];
    let flipped = match holds(set, atom) {
        true => set - (1 << atom),
        false => set + (1 << atom),
    };
    let mut answer: BTreeSet<u16> = list.iter().copied().collect();
    answer.retain(|rule| !own.contains(rule));
    answer.extend(
        own.iter()
            .filter(|&&number| is_broken(&program.rules[usize::from(number)], flipped)),
    );
    answer.into_iter().collect()
}

/// Set 6 of file A breaks nothing; without `lamp` it breaks rule 0, without `dark` rule 1.
#[test]
fn flips_of_file_a() {
    let a = rules(FILE_A);
    let flip = |list: &[u16], set, atom| flip(&a, list, set, atom).unwrap();
    assert_eq!(flip(&[], 6, 0), []);
    assert_eq!(flip(&[], 6, 1), [0]);
    assert_eq!(flip(&[], 6, 2), [1]);
    assert_eq!(flip(&[0], 0, 0), []);
    assert_eq!(flip(&[0], 0, 1), [1]);
    assert_eq!(flip(&[0], 0, 2), [0]);
    assert_eq!(flip(&[1], 2, 1), [0]);
}

/// A rule of the list that doesn't hold the atom stays, broken or not; of those that hold it, in the
/// list or not, just the broken ones are there.
#[test]
fn any_rising_list() {
    let a = rules(FILE_A);
    // `dark` stands in rule 1 alone, which set 6 keeps and set 2 breaks.
    for (list, set, answer) in [
        (&[][..], 6, &[1][..]),
        (&[0], 6, &[0, 1]),
        (&[1], 6, &[1]),
        (&[0, 1], 6, &[0, 1]),
        (&[], 2, &[]),
        (&[0], 2, &[0]),
        (&[1], 2, &[]),
        (&[0, 1], 2, &[0]),
    ] {
        assert_eq!(flip(&a, list, set, 2), Ok(answer.to_vec()));
    }
}

/// The atom's rules between, before and after those of the list.
#[test]
fn in_rising_order() {
    let rule = |name: &str| format!("(rule (head {name}) (body) (not))\n");
    let names = ["b", "a", "b", "a", "a", "b", "a"];
    let text = format!("(atoms a b)\n{}", names.map(rule).concat());
    let store = rules(&text);
    // Taken out of set 1, atom `a` breaks rules 1, 3, 4 and 6.
    let all = [0, 1, 2, 3, 4, 5, 6];
    assert_eq!(flip(&store, &[0, 2, 5], 1, 0), Ok(all.to_vec()));
    assert_eq!(flip(&store, &all, 1, 0), Ok(all.to_vec()));
    assert_eq!(flip(&store, &[5], 1, 0), Ok(vec![1, 3, 4, 5, 6]));
    assert_eq!(flip(&store, &[], 1, 0), Ok(vec![1, 3, 4, 6]));
    // Put into the empty set, none of them.
    assert_eq!(flip(&store, &all, 0, 0), Ok(vec![0, 2, 5]));
    assert_eq!(flip(&store, &[1, 5, 6], 0, 0), Ok(vec![5]));
}

#[test]
fn an_atom_in_several_lists_or_in_a_not_list() {
    let text = "(atoms a b)\n(rule (head a) (body a) (not))\n(rule (head) (body b) (not a))\n\
        (rule (head) (body a) (not a))\n(rule (head b) (body) (not a b))\n";
    let store = rules(text);
    assert_eq!(flip(&store, &[], 3, 0), Ok(vec![1]));
    assert_eq!(flip(&store, &[1], 2, 0), Ok(vec![]));
    assert_eq!(flip(&store, &[], 1, 0), Ok(vec![3]));
    assert_eq!(flip(&store, &[3], 0, 1), Ok(vec![1]));
    assert_eq!(flip(&store, &[0, 1, 2, 3], 0, 0), Ok(vec![]));
    assert_eq!(flip(&store, &[0, 1, 2, 3], 0, 1), Ok(vec![0, 1, 2]));
}

/// The rules of which the bits are set, of so many.
fn chosen(rules: usize, bits: u64) -> Vec<u16> {
    let numbers = (0..rules).filter(|&number| holds(bits, number));
    numbers.map(|number| number as u16).collect()
}

fn rising_lists(rules: usize) -> Vec<Vec<u16>> {
    (0..1 << rules).map(|bits| chosen(rules, bits)).collect()
}

/// Every set, atom and rising list of the programs of up to two rules; of larger ones every set and
/// atom with the broken rules and some other lists.
#[test]
fn every_small_flip() {
    for kind in KINDS {
        let mut draw = Draw(210);
        for program in programs(kind, 150) {
            let store = rule_store(&program);
            let index = index(&store);
            for set in 0..1u64 << program.atoms {
                let some = match program.rules.len() {
                    few @ 0..=2 => rising_lists(few),
                    many => {
                        let any = draw.below(1 << many) as u64;
                        [0, u64::MAX, any].map(|bits| chosen(many, bits)).to_vec()
                    }
                };
                let before = broken(&program.rules, set);
                for atom in 0..program.atoms {
                    let call = |list: &[u16]| {
                        let flipped = (set, atom as u64);
                        flip_in(&store, &index, list, flipped, program.rules.len()).unwrap()
                    };
                    for list in &some {
                        let expected = worded(&program, &index, list, set, atom);
                        assert_eq!(call(list), expected, "{program:?} {list:?} {set} {atom}");
                    }
                    let after = broken(&program.rules, set ^ (1 << atom));
                    assert_eq!(call(&before), after, "{program:?} {set} {atom}");
                }
            }
        }
    }
}

/// From the broken rules of a set the flips go on for themselves.
#[test]
fn ten_thousand_flips_in_a_row() {
    for (kind, atoms, count) in [
        (Kind::Preference, 60, 200),
        (Kind::Plain, 60, 200),
        (Kind::Plain, 9, 100),
    ] {
        let mut draw = Draw(211);
        let mut program = bare(kind, atoms);
        program.rules = (0..count)
            .map(|_| short_rule(&mut draw, kind, atoms))
            .collect();
        let store = rule_store(&program);
        let index = index(&store);
        let mut set = draw.below(1 << atoms) as u64;
        let mut list = broken(&program.rules, set);
        let mut seen = 0;
        for _ in 0..10_000 {
            let atom = draw.below(atoms);
            list = flip_in(&store, &index, &list, (set, atom as u64), count).unwrap();
            set ^= 1 << atom;
            assert_eq!(list, broken(&program.rules, set));
            seen += list.len();
        }
        assert!(seen > 10_000);
    }
}

/// Flipped twice, an atom gives the broken rules back.
#[test]
fn there_and_back() {
    for kind in KINDS {
        for program in programs(kind, 100) {
            let store = rule_store(&program);
            for set in 0..1u64 << program.atoms {
                let list = broken(&program.rules, set);
                for atom in 0..program.atoms as u64 {
                    let there = flip(&store, &list, set, atom).unwrap();
                    let back = flip(&store, &there, set ^ (1 << atom), atom);
                    assert_eq!(back, Ok(list.clone()));
                }
            }
        }
    }
}

#[test]
fn lists_that_are_none() {
    let a = rules(FILE_A);
    let wrong: [&[u16]; 10] = [
        &[2],
        &[3],
        &[65_535],
        &[0, 0],
        &[1, 1],
        &[1, 0],
        &[0, 1, 2],
        &[0, 1, 1],
        &[0, 1, 0],
        &[0, 65_535],
    ];
    for list in wrong {
        assert_eq!(flip(&a, list, 0, 0), Err(NINETEEN), "{list:?}");
    }
    for list in rising_lists(2) {
        assert!(flip(&a, &list, 0, 0).is_ok(), "{list:?}");
    }
    // Without a rule the empty list alone.
    assert_eq!(flip(&[0, 1, 0, 0], &[], 0, 0), Ok(Vec::new()));
    assert_eq!(flip(&[0, 1, 0, 0], &[0], 0, 0), Err(NINETEEN));
}

#[test]
fn indexes_that_are_none() {
    let a = rules(FILE_A);
    for index in no_indexes() {
        for atom in 0..3 {
            let refused = flip_in(&a, &index, &[], (6, atom), ROOM);
            assert_eq!(refused, Err(NINETEEN), "{index:?}");
        }
    }
    // The index of another store, of another kind too where it is the same.
    let other = "(atoms a b c)\n(rule (head a) (body b) (not))\n(rule (head) (body b) (not c))\n";
    let other = rules(other);
    assert_eq!(index(&other), INDEX_A);
    assert!(flip_in(&other, &INDEX_A, &[], (0, 0), ROOM).is_ok());
    assert_eq!(
        flip_in(&[0, 3, 0, 0], &INDEX_A, &[], (0, 0), 9),
        Err(NINETEEN)
    );
    assert_eq!(flip_in(&a, &[], &[], (0, 0), ROOM), Err(NINETEEN));
}

/// So many atoms, of which the rules have the last two.
fn with_atoms(kind: Kind, atoms: usize) -> Vec<u16> {
    let mut program = bare(kind, atoms);
    for atom in [atoms - 1, atoms - 2] {
        program.rules.push(Rule {
            head: vec![atom],
            ..Rule::default()
        });
    }
    rule_store(&program)
}

#[test]
fn sixty_atoms() {
    for kind in KINDS {
        let sixty = with_atoms(kind, 60);
        let full = (1 << 60) - 1;
        assert_eq!(flip(&sixty, &[], full, 59), Ok(vec![0]));
        assert_eq!(flip(&sixty, &[0], full, 58), Ok(vec![0, 1]));
        assert_eq!(flip(&sixty, &[0, 1], 0, 59), Ok(vec![1]));
        assert_eq!(flip(&sixty, &[0, 1], 1 << 58, 0), Ok(vec![0, 1]));
        for atoms in [61, 62, 63, 64, 65, 256] {
            let more = with_atoms(kind, atoms);
            assert_eq!(flip(&more, &[], 0, 0), Err(ELEVEN));
            assert_eq!(flip(&more, &[0, 1], u64::MAX, u64::MAX), Err(ELEVEN));
            // The index is built and grown as of few atoms.
            let grown = add(&more, &index(&more), &[1, 0, 0, 7]).unwrap().1;
            assert_eq!(grown.len(), atoms + 3);
        }
    }
    let text = format!("(atoms{})\n", many("a", 1_100));
    assert_eq!(index(&rules(&text)), vec![0; 1_100]);
    assert_eq!(flip(&rules(&text), &[], 0, 0), Err(ELEVEN));
}

#[test]
fn sets_and_atoms_past_the_last() {
    let a = rules(FILE_A);
    for set in [8, 9, 16, 1 << 32, 1 << 60, 1 << 63, u64::MAX] {
        assert_eq!(flip(&a, &[], set, 0), Err(TWELVE));
        assert_eq!(flip(&a, &[], set, 3), Err(TWELVE));
    }
    let far = [
        3,
        4,
        63,
        64,
        65,
        1 << 16,
        1 << 32,
        1 << 63,
        (1 << 63) + 1,
        u64::MAX,
    ];
    for atom in far {
        assert_eq!(flip(&a, &[], 0, atom), Err(TWELVE));
    }
    assert!(flip(&a, &[], 7, 2).is_ok());
    // Without an atom there is none to flip.
    assert_eq!(flip(&[0, 0, 0, 0], &[], 0, 0), Err(TWELVE));
    let sixty = with_atoms(Kind::Plain, 60);
    assert_eq!(flip(&sixty, &[], 1 << 60, 0), Err(TWELVE));
    assert_eq!(flip(&sixty, &[], 0, 60), Err(TWELVE));
}

/// 10, 19, 11, 12 and 9 are tested in this order.
#[test]
fn the_order_of_a_flips_refusals() {
    for store in no_stores() {
        assert_eq!(
            flip_in(&store, &[9], &[7, 7], (u64::MAX, u64::MAX), 0),
            Err(TEN)
        );
        assert_eq!(flip_in(&store, &INDEX_A, &[], (6, 1), ROOM), Err(TEN));
    }
    let more = with_atoms(Kind::Preference, 61);
    let right = index(&more);
    for (index, list) in [
        (&[9][..], &[][..]),
        (&right, &[2]),
        (&right, &[0, 0]),
        (&[9], &[1, 0]),
    ] {
        let refused = flip_in(&more, index, list, (u64::MAX, u64::MAX), 0);
        assert_eq!(refused, Err(NINETEEN));
    }
    let refused = flip_in(&more, &right, &[0, 1], (u64::MAX, u64::MAX), 0);
    assert_eq!(refused, Err(ELEVEN));
    let a = rules(FILE_A);
    for flipped in [(8, 0), (0, 3), (8, 3)] {
        assert_eq!(flip_in(&a, &INDEX_A, &[1, 0], flipped, 0), Err(NINETEEN));
        assert_eq!(flip_in(&a, &[9], &[0], flipped, 0), Err(NINETEEN));
        assert_eq!(flip_in(&a, &INDEX_A, &[0], flipped, 0), Err(TWELVE));
    }
    assert_eq!(flip_in(&a, &INDEX_A, &[0], (6, 2), 0), Err(NINE));
}

/// Exact, one short, longer: the room needed is that of the answer, whatever the list's length.
#[test]
fn a_flips_output() {
    let a = rules(FILE_A);
    for (list, flipped, answer) in [
        (&[0][..], (6, 2), &[0, 1][..]),
        (&[], (6, 2), &[1]),
        (&[0, 1], (2, 2), &[0]),
        (&[0], (0, 0), &[]),
        (&[0, 1], (2, 0), &[1]),
    ] {
        for length in 0..answer.len() {
            let refused = flip_in(&a, &INDEX_A, list, flipped, length);
            assert_eq!(refused, Err(NINE));
        }
        for more in 0..3 {
            let written = flip_in(&a, &INDEX_A, list, flipped, answer.len() + more);
            assert_eq!(written, Ok(answer.to_vec()));
        }
    }
}
