//! The family of canonical texts.

use crate::cases::lengths;
use crate::checker::{Checked, Checker};
use crate::generate::{
    bare, either, lists_of, names, partly_used, plain, preference, rule_of, Size,
};
use crate::random::Random;
use crate::spoil;
use reference::canonical::canonical;
use reference::lent;
use reference::limits::{Kind, TEXT_LIMIT};
use reference::program::{Names, Program, Rule};
use reference::stores::{name_store, rule_store};

/// Writes the canonical text of the stores with outputs exact, short and long, and as long as the
/// writer's text.
fn write(check: &mut Checker, random: &mut Random, rules: &[u16], names: &[u8]) -> Checked {
    let mut most = vec![0; TEXT_LIMIT];
    let Ok(length) = lent::write_canonical(rules, names, &mut most) else {
        let most = *random.pick(&[1, 300, 300, 300]);
        return check.write_canonical(rules, names, random.below(most));
    };
    for out_len in lengths(random, length) {
        check.write_canonical(rules, names, out_len)?;
    }
    let as_typed = lent::write(rules, names, &mut most).expect("stores that fit");
    check.write_canonical(rules, names, as_typed)
}

fn write_program(
    check: &mut Checker,
    random: &mut Random,
    program: &Program,
    names: &Names,
) -> Checked {
    write(check, random, &rule_store(program), &name_store(names))
}

/// The list in any sequence.
fn shuffled<T: Clone>(random: &mut Random, list: &[T]) -> Vec<T> {
    let order = random.choose(list.len(), list.len());
    order.into_iter().map(|place| list[place].clone()).collect()
}

/// The rules in any sequence, each list too, some of the rules once more.
pub fn rearranged(random: &mut Random, program: &Program) -> Program {
    let mut rules = program.rules.clone();
    let room = program.kind.occurrence_limit() - program.occurrences();
    let mut taken = 0;
    for _ in 0..random.below(4) {
        if rules.is_empty() || rules.len() == program.kind.rule_limit() {
            break;
        }
        let again = random.pick(&rules).clone();
        taken += again.occurrences();
        if taken <= room {
            rules.push(again);
        }
    }
    let mut rules = shuffled(random, &rules);
    for rule in &mut rules {
        for list in lists_of(rule) {
            *list = shuffled(random, list);
        }
    }
    Program {
        rules,
        ..program.clone()
    }
}

/// A rule that differs little from this one: in its last atoms, in where a list ends, in the list that
/// an atom stands in, in the sequence alone, or not at all.
fn beside(random: &mut Random, kind: Kind, atoms: usize, rule: &Rule) -> Rule {
    let mut other = rule.clone();
    let lists = match kind {
        Kind::Plain => 3,
        Kind::Preference => 2,
    };
    let chosen = random.below(lists);
    let way = random.below(7);
    let atom = random.below(atoms);
    let list = &mut *lists_of(&mut other)[chosen];
    match way {
        0 => {
            list.pop();
        }
        1 if !list.contains(&atom) => list.push(atom),
        2 if !list.contains(&atom) => {
            list.pop();
            list.push(atom);
        }
        3 => {
            let moved = list.pop();
            let next = &mut *lists_of(&mut other)[(chosen + 1) % lists];
            next.extend(moved.filter(|atom| !next.contains(atom)));
        }
        4 => list.sort_unstable(),
        5 => *list = shuffled(random, list),
        _ => {}
    }
    other
}

/// A program whose rules differ little: many lists begin alike, end where others go on, or say the
/// same in another sequence. The atoms may be few, or so many that their numbers need two bytes.
fn alike(random: &mut Random) -> (Program, Names) {
    let kind = *random.pick(&[Kind::Plain, Kind::Preference]);
    let most = *random.pick(&[1, 2, 3, 6, 12, 40, kind.atom_limit()]);
    let size = Size {
        atoms: most,
        rules: 3,
        list: *random.pick(&[1, 2, 4, 5, 8]),
    };
    let (mut program, names) = match kind {
        Kind::Plain => plain(random, size),
        Kind::Preference => preference(random, size),
    };
    if program.atoms == 0 {
        return (program, names);
    }
    program.rules.push(Rule::default());
    for _ in 0..*random.pick(&[2, 6, 20, 60]) {
        let rule = random.pick(&program.rules).clone();
        let rule = beside(random, kind, program.atoms, &rule);
        program.rules.push(rule);
    }
    (program, names)
}

/// Stores of programs whose rules repeat and differ little, and of any; the same rearranged, sorted,
/// and damaged.
pub fn canonical_texts(check: &mut Checker, random: &mut Random) -> Checked {
    let (program, names) = match random.below(6) {
        0 => either(random, Size::SMALL),
        1 => partly_used(random, Size::SMALL),
        _ => alike(random),
    };
    write_program(check, random, &program, &names)?;
    let other = rearranged(random, &program);
    write_program(check, random, &other, &names)?;
    write_program(check, random, &canonical(&other), &names)?;
    let whole = (rule_store(&program), name_store(&names));
    for _ in 0..4 {
        let (mut rules, mut names) = whole.clone();
        let (rule_damages, name_damages) = *random.pick(&[(1, 0), (0, 1), (2, 0), (1, 1)]);
        for _ in 0..rule_damages {
            spoil::rules(random, &mut rules);
        }
        for _ in 0..name_damages {
            spoil::names(random, &mut names);
        }
        write(check, random, &rules, &names)?;
    }
    Ok(())
}

/// As many rules as the limits take, or nearly: of many atoms, of few, and of so few that most rules
/// are equal to others.
pub fn many_canonical_rules(check: &mut Checker, random: &mut Random) -> Checked {
    let kind = *random.pick(&[Kind::Plain, Kind::Preference]);
    let atoms = *random.pick(&[3, 60, kind.atom_limit()]);
    let places = random.within(1, kind.occurrence_limit() / kind.rule_limit());
    let mut program = bare(kind, atoms);
    for _ in 0..kind.rule_limit() - random.below(3) {
        let rule = rule_of(random, kind, atoms, places);
        program.rules.push(rule);
    }
    let names = names(random, kind, atoms);
    write_program(check, random, &program, &names)
}

/// Rules in the worst sequences for a sort: falling, rising, all equal, equal but for the last word.
/// Done once a run.
pub fn limits(check: &mut Checker) -> Checked {
    for kind in [Kind::Plain, Kind::Preference] {
        let (atoms, count) = (kind.atom_limit(), kind.rule_limit());
        let names: Names = (0..atoms).map(|i| format!("a{i}").into_bytes()).collect();
        let names = name_store(&names);
        let mut program = bare(kind, atoms);
        let rule = |head: Vec<usize>, body: Vec<usize>| Rule {
            head,
            body,
            not: Vec::new(),
        };
        let rising = |i: usize| rule(vec![i % atoms], vec![i / atoms]);
        let equal = |_: usize| rule(vec![7, 3], vec![5]);
        let late = |i: usize| rule(vec![0, 1, 2], vec![i % atoms]);
        let ways: [&dyn Fn(usize) -> Rule; 3] = [&rising, &equal, &late];
        for way in ways {
            for falling in [false, true] {
                program.rules = (0..count).map(way).collect();
                if falling {
                    program.rules.reverse();
                }
                check.write_canonical(&rule_store(&program), &names, TEXT_LIMIT)?;
            }
        }
        let all: Vec<usize> = (0..atoms).rev().collect();
        let times = kind.occurrence_limit() / (2 * atoms);
        program.rules = vec![rule(all.clone(), all); times];
        check.write_canonical(&rule_store(&program), &names, TEXT_LIMIT)?;
    }
    Ok(())
}
