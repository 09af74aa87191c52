//! The families of the rule index: built from a store, grown with rules, and asked at flips.

use crate::cases::{exact, lengths};
use crate::checker::{Checked, Checker};
use crate::generate::{bare, rule_of};
use crate::indexes::{drawn, program, rising_lists, rule_words, Adding, Flip};
use crate::random::Random;
use crate::spoil;
use reference::index::{self, broken};
use reference::limits::Kind;
use reference::program::{Program, Rule};
use reference::stores::{check_rules, rule_store};

const KINDS: [Kind; 2] = [Kind::Plain, Kind::Preference];

/// Indexes the store with outputs exact, short and long.
fn index_rules(check: &mut Checker, random: &mut Random, rules: &[u16]) -> Checked {
    let Ok(program) = check_rules(rules) else {
        return check.index_rules(rules, *random.pick(&[0, 9, 90]));
    };
    for out_len in lengths(random, index::index(&program).len()) {
        check.index_rules(rules, out_len)?;
    }
    Ok(())
}

/// Adds the rule with outputs exact, one of them short, both short, and both long.
fn add_rule(check: &mut Checker, random: &mut Random, call: &Adding) -> Checked {
    let Some((words, index_words)) = call.lengths() else {
        let length = *random.pick(&[0, 0, 9, 200]);
        return check.add_rule(call, length, length);
    };
    check.add_rule(call, words, index_words)?;
    check.add_rule(
        call,
        words + random.within(1, 40),
        index_words + random.within(1, 40),
    )?;
    check.add_rule(call, words - 1, index_words)?;
    check.add_rule(call, call.rules.len(), index_words)?;
    if index_words > 0 {
        check.add_rule(call, words, index_words - 1)?;
        check.add_rule(call, words, call.index.len())?;
        check.add_rule(call, random.below(words), random.below(index_words))?;
    }
    Ok(())
}

/// Flips the atom with outputs exact, short and long.
fn flip(check: &mut Checker, random: &mut Random, call: &Flip) -> Checked {
    let Some(length) = call.length() else {
        return check.flip(call, *random.pick(&[0, 0, 9, 200]));
    };
    for out_len in lengths(random, length) {
        check.flip(call, out_len)?;
    }
    Ok(())
}

/// Stores of any size, and the same with one or two damages.
pub fn rule_indexes(check: &mut Checker, random: &mut Random) -> Checked {
    let program = program(random, &[1, 2, 3, 9, 60, 61, 256, 1_100]);
    let rules = rule_store(&program);
    index_rules(check, random, &rules)?;
    for _ in 0..4 {
        let mut spoiled = rules.clone();
        for _ in 0..random.within(1, 2) {
            spoil::rules(random, &mut spoiled);
        }
        index_rules(check, random, &spoiled)?;
    }
    Ok(())
}

/// Flips from the broken rules and from other rising lists, then with one to three damages.
pub fn flips(check: &mut Checker, random: &mut Random) -> Checked {
    let program = program(random, &[1, 2, 3, 6, 20, 59, 60, 60, 61, 64]);
    let call = Flip::any(random, &program);
    flip(check, random, &call)?;
    for list in rising_lists(random, program.rules.len()) {
        let atom = random.below(program.atoms.max(1)) as u64;
        let call = Flip {
            list,
            atom,
            ..call.clone()
        };
        flip(check, random, &call)?;
    }
    for part in 0..5 {
        let mut spoiled = call.clone();
        spoiled.spoil(random, &program, part);
        flip(check, random, &spoiled)?;
    }
    for _ in 0..6 {
        let mut spoiled = call.clone();
        for _ in 0..random.within(1, 3) {
            let part = *random.pick(&[0, 1, 1, 2, 2, 3, 4]);
            spoiled.spoil(random, &program, part);
        }
        flip(check, random, &spoiled)?;
    }
    Ok(())
}

/// Flips in a row from the broken rules of a set: each answer is the next list.
pub fn flips_in_a_row(check: &mut Checker, random: &mut Random) -> Checked {
    let kind = *random.pick(&KINDS);
    let atoms = *random.pick(&[1, 3, 8, 30, 60]);
    let rules = *random.pick(&[1, 5, 40, 200]);
    let program = drawn(random, kind, (atoms, rules), 5);
    let mut call = Flip::any(random, &program);
    for _ in 0..20 {
        let atom = random.below(atoms);
        call.atom = atom as u64;
        let answer = index::flip(&program, &call.list, call.set, atom);
        check.flip(&call, answer.len())?;
        call.list = answer;
        call.set ^= 1 << atom;
    }
    flip(check, random, &call)
}

/// Rules added one after the other, each also with damages in what is handed in.
pub fn added_rules(check: &mut Checker, random: &mut Random) -> Checked {
    let kind = *random.pick(&KINDS);
    let mut program = match random.below(3) {
        0 => bare(kind, random.below(5)),
        _ => program(random, &[1, 2, 3, 9, 60, 61, 256, 1_100]),
    };
    for _ in 0..4 {
        let places = random.within(0, 6);
        let rule = rule_of(random, program.kind, program.atoms, places);
        let call = Adding::new(&program, &rule);
        add_rule(check, random, &call)?;
        for _ in 0..4 {
            let mut spoiled = call.clone();
            for _ in 0..random.within(1, 2) {
                spoiled.spoil(random, &program);
            }
            add_rule(check, random, &spoiled)?;
        }
        program.rules.push(rule);
    }
    Ok(())
}

/// As many rules as the limits take, or nearly: their index, flips, and rules more until there are too
/// many of them, or too many occurrences.
pub fn large_rule_indexes(check: &mut Checker, random: &mut Random) -> Checked {
    let kind = *random.pick(&KINDS);
    let atoms = *random.pick(&[3, 60, 60, kind.atom_limit()]);
    let rules = kind.rule_limit() - random.within(1, 2);
    let mut program = drawn(random, kind, (atoms, rules), 5);
    index_rules(check, random, &rule_store(&program))?;
    let call = Flip::any(random, &program);
    flip(check, random, &call)?;
    for list in rising_lists(random, rules) {
        let mut call = Flip {
            list,
            ..call.clone()
        };
        check.flip(&call, rules)?;
        let part = random.within(1, 4);
        call.spoil(random, &program, part);
        check.flip(&call, rules)?;
    }
    while program.rules.len() <= kind.rule_limit() {
        let rule = rule_of(random, kind, atoms, 5);
        add_at_limit(check, &program, &rule_words(&rule))?;
        program.rules.push(rule);
    }
    let left = random.below(6);
    let occurrences = kind.occurrence_limit();
    let (program, _) = exact(kind, 8, occurrences / 16, occurrences - left);
    for more in [left, left + 1] {
        let (with_rule, _) = exact(kind, 4, 1, more);
        add_at_limit(check, &program, &rule_words(&with_rule.rules[0]))?;
    }
    Ok(())
}

/// The rule added with just enough room and with more.
fn add_at_limit(check: &mut Checker, program: &Program, rule: &[u16]) -> Checked {
    let call = Adding {
        rule: rule.to_vec(),
        ..Adding::new(program, &Rule::default())
    };
    let (words, index_words) = call.lengths().unwrap_or((0, 0));
    check.add_rule(&call, words, index_words)?;
    check.add_rule(&call, 40_000, 40_000)
}

/// Each limit met and passed by one, in the store and by the rule that is added. Done once a run.
pub fn limits(check: &mut Checker) -> Checked {
    for kind in KINDS {
        let (atoms, rules) = (kind.atom_limit(), kind.rule_limit());
        let occurrences = kind.occurrence_limit();
        for (a, r, o) in [(0, 0, 0), (1, 0, 0), (0, 1, 0), (0, 0, 1)] {
            let (program, _) = exact(kind, atoms + a, rules + r, occurrences + o);
            check.index_rules(&rule_store(&program), 40_000)?;
            check.flip(&Flip::any(&mut Random::new(209), &program), 40_000)?;
            add_at_limit(check, &program, &[0, 0, 0])?;
        }
        for less in 0..3 {
            let (program, _) = exact(kind, 3, rules - less, 7);
            for rule in [&[0, 0, 0][..], &[1, 0, 0, 0], &[0, 0, 0, 0, 0, 0]] {
                add_at_limit(check, &program, rule)?;
            }
            let (program, _) = exact(kind, 8, occurrences / 16, occurrences - less);
            for rule in [
                &[0, 0, 0][..],
                &[1, 0, 0, 0],
                &[0, 1, 0, 0],
                &[1, 1, 0, 0, 0],
                &[1, 2, 0, 0, 1, 0],
                &[4, 0, 0, 3, 2, 1, 0],
            ] {
                add_at_limit(check, &program, rule)?;
            }
        }
        // The last atom and those past it; a rule with all atoms.
        for atom in [atoms - 1, atoms, atoms + 1] {
            add_at_limit(check, &bare(kind, atoms), &[1, 0, 0, atom as u16])?;
        }
        let all: Vec<usize> = (0..atoms).rev().collect();
        let full = Rule {
            head: all.clone(),
            body: all,
            not: Vec::new(),
        };
        add_at_limit(check, &bare(kind, atoms), &rule_words(&full))?;
        // An atom in all rules.
        let mut program = bare(kind, 60);
        let fact = Rule {
            head: vec![59],
            ..Rule::default()
        };
        program.rules = vec![fact; rules];
        for (set, atom) in [(0, 58), (0, 59), (1 << 59, 59)] {
            let call = Flip {
                rules: rule_store(&program),
                index: index::index(&program),
                list: broken(&program.rules, set),
                set,
                atom,
            };
            for out_len in [rules, rules - 1, 0] {
                check.flip(&call, out_len)?;
            }
        }
    }
    Ok(())
}

/// Every list of up to so many words below the bound.
fn short_lists(longest: usize, bound: u16) -> Vec<Vec<u16>> {
    let mut all = vec![Vec::new()];
    let mut from = 0;
    for _ in 0..longest {
        let last = all.len();
        for place in from..last {
            let longer = (0..bound).map(|word| [&all[place][..], &[word]].concat());
            let longer: Vec<Vec<u16>> = longer.collect();
            all.extend(longer);
        }
        from = last;
    }
    all
}

/// Every short index, rule and list beside a store of two atoms. Done once a run.
pub fn short_words(check: &mut Checker) -> Checked {
    for kind in KINDS {
        let mut program = bare(kind, 2);
        let rule = |head: &[usize], body: &[usize]| Rule {
            head: head.to_vec(),
            body: body.to_vec(),
            not: Vec::new(),
        };
        program.rules = vec![rule(&[0], &[]), rule(&[1], &[0])];
        let adding = Adding::new(&program, &rule(&[0, 1], &[]));
        let flip = Flip::any(&mut Random::new(209), &program);
        for words in short_lists(6, 3) {
            let mut call = adding.clone();
            call.index = words.clone();
            check.add_rule(&call, 40, 40)?;
            let mut call = flip.clone();
            call.index = words.clone();
            check.flip(&call, 4)?;
            let mut call = adding.clone();
            call.rule = words;
            check.add_rule(&call, 40, 40)?;
        }
        program.rules.push(rule(&[], &[1]));
        let flip = Flip::any(&mut Random::new(210), &program);
        for list in short_lists(4, 5) {
            for (set, atom) in [(0, 0), (3, 1)] {
                let list = list.clone();
                let call = Flip {
                    list,
                    set,
                    atom,
                    ..flip.clone()
                };
                check.flip(&call, 4)?;
            }
        }
    }
    Ok(())
}
