//! Random preference files and plain programs, all of them accepted.

use crate::random::Random;
use reference::limits::{Kind, MADE_LIMIT};
use reference::names::made_name;
use reference::program::{Names, Program, Role, Rule};

/// How large a random program may be.
#[derive(Clone, Copy, Debug)]
pub struct Size {
    pub atoms: usize,
    pub rules: usize,
    /// The most atoms of one list.
    pub list: usize,
}

impl Size {
    /// So small that all sets can be tried by brute force.
    pub const SMALL: Size = Size {
        atoms: 8,
        rules: 9,
        list: 3,
    };
}

fn house_name(random: &mut Random) -> Vec<u8> {
    const FIRST: &[u8] = b"abcdefghijklmnopqrstuvwxyz0123456789";
    const REST: &[u8] = b"abcdefghijklmnopqrstuvwxyz0123456789_";
    const WORDS: [&str; 14] = [
        "min", "vary", "fix", "atoms", "rule", "head", "body", "not", "a", "b", "lamp", "lamp_",
        "e", "n",
    ];
    if random.once_in(6) {
        return random.pick(&WORDS).as_bytes().to_vec();
    }
    let length = match random.below(5) {
        0 => 1,
        1 => 24,
        2 => random.within(1, 24),
        _ => random.within(1, 3),
    };
    let mut name = vec![*random.pick(FIRST)];
    while name.len() < length {
        name.push(*random.pick(REST));
    }
    name
}

fn name(random: &mut Random, kind: Kind) -> Vec<u8> {
    if kind == Kind::Preference || random.once_in(3) {
        return house_name(random);
    }
    match random.below(8) {
        0 => b"U".to_vec(),
        1 | 2 => format!("E.{}", random.within(0, 16)).into_bytes(),
        _ => {
            let prefix: &[u8] = *random.pick(&[b"N.", b"S.", b"D."]);
            [prefix, &house_name(random)].concat()
        }
    }
}

/// The same, or one that has to do with conditions: a word of theirs, or a name of a made atom.
fn any_name(random: &mut Random, kind: Kind) -> Vec<u8> {
    const WORDS: [&str; 4] = ["when", "then", "and", "or"];
    match random.below(24) {
        0 => random.pick(&WORDS).as_bytes().to_vec(),
        1 | 2 => {
            let before = match kind {
                Kind::Plain => *random.pick(&["", "", "N.", "S.", "D."]),
                Kind::Preference => "",
            };
            let made = made_name(random.within(1, MADE_LIMIT));
            [before.as_bytes(), &made].concat()
        }
        _ => name(random, kind),
    }
}

/// A name at the edges of what is allowed, or just past them: its length, its first byte, what
/// stands before it.
pub fn edge_name(random: &mut Random) -> Vec<u8> {
    const FIRST: &[u8] = b"az09_/:`{-";
    const REST: &[u8] = b"abcxyz0189_";
    const BEFORE: [&str; 9] = ["", "", "", "N.", "S.", "D.", "E.", "U.", "N"];
    if random.once_in(4) {
        return edge_of_made_names(random);
    }
    let length = match random.below(3) {
        0 => random.within(1, 3),
        _ => random.within(23, 26),
    };
    let mut name = random.pick(&BEFORE).as_bytes().to_vec();
    name.push(match random.below(3) {
        0 => *random.pick(FIRST),
        _ => *random.pick(b"az09_"),
    });
    for _ in 1..length {
        name.push(*random.pick(REST));
    }
    name
}

/// The same of names `T.1` to `T.256`.
fn edge_of_made_names(random: &mut Random) -> Vec<u8> {
    const BEFORE: [&str; 10] = [
        "T.", "T.", "T.", "N.T.", "S.T.", "D.T.", "E.T.", "T.T.", "T", "U",
    ];
    const NUMBERS: [&str; 20] = [
        "0", "1", "9", "10", "99", "100", "199", "249", "250", "255", "256", "257", "260", "300",
        "999", "1000", "01", "001", "0256", "",
    ];
    let mut name = random.pick(&BEFORE).as_bytes().to_vec();
    match random.below(4) {
        0 => name.extend(random.within(0, 300).to_string().into_bytes()),
        1 => {
            for _ in 0..random.within(1, 4) {
                name.push(*random.pick(b"0125679a_./:"));
            }
        }
        _ => name.extend_from_slice(random.pick(&NUMBERS).as_bytes()),
    }
    name
}

type Drawn = fn(&mut Random, Kind) -> Vec<u8>;

fn different(random: &mut Random, kind: Kind, count: usize, name: Drawn) -> Names {
    let mut seen = std::collections::HashSet::new();
    let mut names = Names::new();
    while names.len() < count {
        let name = name(random, kind);
        if seen.insert(name.clone()) {
            names.push(name);
        }
    }
    names
}

/// This many different names allowed to the kind.
pub fn names(random: &mut Random, kind: Kind, count: usize) -> Names {
    different(random, kind, count, any_name)
}

/// The same without those of conditions.
pub fn names_without_made(random: &mut Random, kind: Kind, count: usize) -> Names {
    different(random, kind, count, name)
}

fn list(random: &mut Random, atoms: usize, least: usize, most: usize) -> Vec<usize> {
    let count = random.within(least, most);
    random.choose(count, atoms)
}

/// Mostly a disjunction with a short body, at times a constraint.
fn rule(random: &mut Random, kind: Kind, atoms: usize, most: usize) -> Rule {
    let head = if random.once_in(6) {
        Vec::new()
    } else {
        list(random, atoms, 1, most)
    };
    let body = if random.once_in(2) {
        list(random, atoms, 0, 1)
    } else {
        list(random, atoms, 0, most)
    };
    let not = match kind {
        Kind::Plain => list(random, atoms, 0, most),
        Kind::Preference => Vec::new(),
    };
    Rule { head, body, not }
}

fn rules(random: &mut Random, program: &mut Program, size: Size) {
    let count = random.within(0, size.rules);
    let mut places = 0;
    while program.rules.len() < count {
        let rule = match program.rules.last() {
            Some(last) if random.once_in(12) => last.clone(),
            _ => rule(random, program.kind, program.atoms, size.list),
        };
        // A rule without lists makes each set a broken one, so it is kept rare.
        if rule.occurrences() == 0 && !random.once_in(20) {
            continue_with_a_fact(random, program);
            continue;
        }
        places += rule.occurrences();
        if places > program.kind.occurrence_limit() {
            break;
        }
        program.rules.push(rule);
    }
}

fn continue_with_a_fact(random: &mut Random, program: &mut Program) {
    let head = if program.atoms > 0 {
        vec![random.below(program.atoms)]
    } else {
        Vec::new()
    };
    let full = program.occurrences() + head.len() > program.kind.occurrence_limit();
    program.rules.push(Rule {
        head: if full { Vec::new() } else { head },
        ..Rule::default()
    });
}

/// A preference file with its names: some with empty classes, with and without fixed atoms.
pub fn preference(random: &mut Random, size: Size) -> (Program, Names) {
    let mut program = Program::empty(Kind::Preference);
    program.atoms = random.within(0, size.atoms);
    program.classes = match random.below(8) {
        0 => 0,
        1 => random.within(0, 16),
        _ => random.within(1, 4),
    };
    let fixed_often = random.within(0, 4);
    let varying_often = random.within(1, 6);
    let mut words: Vec<usize> = (0..program.atoms)
        .map(|_| {
            if random.below(10) < fixed_often {
                18
            } else if random.below(10) < varying_often || program.classes == 0 {
                17
            } else {
                random.within(1, program.classes)
            }
        })
        .collect();
    words.sort_unstable();
    program.roles = words
        .into_iter()
        .map(|word| match word {
            17 => Role::Varying,
            18 => Role::Fixed,
            class => Role::Minimised(class),
        })
        .collect();
    rules(random, &mut program, size);
    let names = names(random, Kind::Preference, program.atoms);
    (program, names)
}

/// Some of the file's atoms in declared order: none, one, all but one, all but those of one role, all
/// but a run of them, or any.
fn some_atoms(random: &mut Random, file: &Program) -> Vec<usize> {
    let mut atoms: Vec<usize> = (0..file.atoms).collect();
    if atoms.is_empty() {
        return atoms;
    }
    let one = random.below(file.atoms);
    let run = one..random.within(one, file.atoms);
    match random.below(8) {
        0 => atoms.clear(),
        1 => atoms = vec![one],
        2 => atoms.retain(|&atom| atom != one),
        3 => atoms.retain(|&atom| file.roles[atom] != file.roles[one]),
        4 => atoms.retain(|atom| !run.contains(atom)),
        _ => atoms.retain(|_| random.once_in(2)),
    }
    atoms
}

/// A preference file with its names, of which only some atoms may stand in rules.
pub fn partly_used(random: &mut Random, mut size: Size) -> (Program, Names) {
    let (mut file, names) = preference(random, Size { rules: 0, ..size });
    let used = some_atoms(random, &file);
    if used.is_empty() {
        // Each rule then has three empty lists, and one is as good as many.
        size.rules = 1;
    }
    let mut over_used = Program::empty(Kind::Preference);
    over_used.atoms = used.len();
    rules(random, &mut over_used, size);
    for rule in &mut over_used.rules {
        for list in [&mut rule.head, &mut rule.body] {
            list.iter_mut().for_each(|atom| *atom = used[*atom]);
        }
    }
    file.rules = over_used.rules;
    (file, names)
}

/// Atoms of some of the roles, at times of none, in any sequence: for each role that is taken one or
/// two of its atoms.
fn mixed_list(random: &mut Random, roles: &[Vec<usize>; 3]) -> Vec<usize> {
    let mut list = Vec::new();
    for atoms in roles {
        if random.once_in(2) {
            let count = random.within(1, 2);
            let places = random.choose(count, atoms.len());
            list.extend(places.into_iter().map(|place| atoms[place]));
        }
    }
    let order = random.choose(list.len(), list.len());
    order.into_iter().map(|place| list[place]).collect()
}

/// A preference file with its names: up to `most` atoms of each role, and rules that mix them on
/// both sides.
pub fn mixed(random: &mut Random, most: usize) -> (Program, Names) {
    let mut program = Program::empty(Kind::Preference);
    let minimised = random.within(0, most);
    let varying = random.within(0, most);
    let fixed = random.within(0, most);
    program.atoms = minimised + varying + fixed;
    program.classes = random.within(minimised.min(1), 3);
    let mut classes: Vec<usize> = (0..minimised)
        .map(|_| random.within(1, program.classes))
        .collect();
    classes.sort_unstable();
    program.roles = classes.into_iter().map(Role::Minimised).collect();
    program.roles.extend(vec![Role::Varying; varying]);
    program.roles.extend(vec![Role::Fixed; fixed]);
    let first_fixed = minimised + varying;
    let roles = [
        (0..minimised).collect(),
        (minimised..first_fixed).collect(),
        (first_fixed..program.atoms).collect(),
    ];
    for _ in 0..random.within(1, 6) {
        let rule = Rule {
            head: mixed_list(random, &roles),
            body: mixed_list(random, &roles),
            not: Vec::new(),
        };
        // A rule without lists makes each set a broken one, so it is kept rare.
        if rule.occurrences() > 0 || random.once_in(20) {
            program.rules.push(rule);
        }
    }
    let names = names(random, Kind::Preference, program.atoms);
    (program, names)
}

/// A row of inverters (document 001's Example 1 with any number instead of three). Each is at fault
/// or its two wires differ; the first wire is low, and the last is not what it then should be. The
/// faults are one class, the wires vary.
pub fn inverters(count: usize) -> Program {
    let mut row = Program::empty(Kind::Preference);
    row.atoms = 2 * count + 1;
    row.classes = 1;
    row.roles = vec![Role::Minimised(1); count];
    row.roles.extend(vec![Role::Varying; count + 1]);
    let mut rule = |head: &[usize], body: &[usize]| {
        row.rules.push(Rule {
            head: head.to_vec(),
            body: body.to_vec(),
            not: Vec::new(),
        });
    };
    for fault in 0..count {
        let (from, to) = (count + fault, count + fault + 1);
        rule(&[from, to, fault], &[]);
        rule(&[fault], &[from, to]);
    }
    let (first, last) = (count, 2 * count);
    rule(&[], &[first]);
    match count % 2 {
        1 => rule(&[], &[last]),
        _ => rule(&[last], &[]),
    }
    row
}

/// The preferred set of a row in which this inverter alone is at fault: behind it the wires are not
/// what they should be.
pub fn one_at_fault(count: usize, fault: usize) -> u64 {
    let high = |wire: &usize| (wire % 2 == 1) != (*wire > fault);
    let wires = (0..=count).filter(high);
    wires.fold(1 << fault, |set, wire| set | 1 << (count + wire))
}

/// A plain program with its names.
pub fn plain(random: &mut Random, size: Size) -> (Program, Names) {
    let mut program = Program::empty(Kind::Plain);
    program.atoms = random.within(0, size.atoms);
    rules(random, &mut program, size);
    let names = names(random, Kind::Plain, program.atoms);
    (program, names)
}

/// A program of either kind.
pub fn either(random: &mut Random, size: Size) -> (Program, Names) {
    if random.once_in(2) {
        preference(random, size)
    } else {
        plain(random, size)
    }
}

/// A program of so many atoms without rules. Those of a preference file vary.
pub fn bare(kind: Kind, atoms: usize) -> Program {
    let mut program = Program::empty(kind);
    program.atoms = atoms;
    if kind == Kind::Preference {
        program.roles = vec![Role::Varying; atoms];
    }
    program
}

pub fn lists_of(rule: &mut Rule) -> [&mut Vec<usize>; 3] {
    [&mut rule.head, &mut rule.body, &mut rule.not]
}

/// A rule of any lists with at most so many atoms in all.
pub fn rule_of(random: &mut Random, kind: Kind, atoms: usize, places: usize) -> Rule {
    let lists = match kind {
        Kind::Plain => 3,
        Kind::Preference => 2,
    };
    let mut rule = Rule::default();
    let places = if atoms == 0 { 0 } else { places };
    for _ in 0..places {
        let (chosen, atom) = (random.below(lists), random.below(atoms));
        let list = &mut *lists_of(&mut rule)[chosen];
        if !list.contains(&atom) {
            list.push(atom);
        }
    }
    rule
}

#[cfg(test)]
mod tests {
    use super::*;
    use reference::used_atoms::used_atoms;
    use std::collections::HashSet;

    /// Which roles the list has: minimised, varying, fixed.
    fn roles(program: &Program, list: &[usize]) -> [bool; 3] {
        let any = |wanted: fn(Role) -> bool| list.iter().any(|&atom| wanted(program.roles[atom]));
        [
            any(|role| matches!(role, Role::Minimised(_))),
            any(|role| role == Role::Varying),
            any(|role| role == Role::Fixed),
        ]
    }

    /// Of each role there are atoms in rules, atoms in none, both, or neither.
    #[test]
    fn atoms_of_every_role_are_unused() {
        let mut random = Random::new(2);
        let mut seen = HashSet::new();
        for _ in 0..1_000 {
            let (file, _) = partly_used(&mut random, Size::SMALL);
            let used = used_atoms(&file);
            let unused: Vec<usize> = (0..file.atoms).filter(|a| !used.contains(a)).collect();
            let (used, unused) = (roles(&file, &used), roles(&file, &unused));
            seen.extend((0..3).map(|role| (role, used[role], unused[role])));
        }
        assert_eq!(seen.len(), 12);
    }

    #[test]
    fn every_mixture_of_roles_is_drawn() {
        let mut random = Random::new(1);
        let mut seen = HashSet::new();
        for _ in 0..1_000 {
            let (program, _) = mixed(&mut random, 3);
            for rule in &program.rules {
                seen.insert((roles(&program, &rule.head), roles(&program, &rule.body)));
            }
        }
        assert_eq!(seen.len(), 64);
    }
}
