//! Readings with a slip in what is left out of the stores (document 02, W-203).

use compare::engine::{Engine, ReadAnswer, Reference};
use reference::limits::Kind;
use reference::program::{Names, Program, Role, Rule};
use reference::reader::read_lines;
use reference::stores::{name_store, rule_store};
use reference::used_atoms::{restricted, used_atoms, without_unused};
use std::collections::HashSet;

/// What is wrong with a reading.
#[derive(Clone, Copy, Debug, PartialEq, Eq)]
pub enum ReadSlip {
    Nothing,
    UnusedKept,
    UnusedFixedKept,
    BodiesForgotten,
    EmptiedClassDropped,
    NumbersNotMovedDown,
    NumbersInTheRulesOrder,
    UnusedNamesKept,
    UnusedNamesNotChecked,
    RoomForTheUnused,
    PlainAtomsLeftOut,
}

use ReadSlip::*;

pub const READ_SLIPS: [ReadSlip; 10] = [
    UnusedKept,
    UnusedFixedKept,
    BodiesForgotten,
    EmptiedClassDropped,
    NumbersNotMovedDown,
    NumbersInTheRulesOrder,
    UnusedNamesKept,
    UnusedNamesNotChecked,
    RoomForTheUnused,
    PlainAtomsLeftOut,
];

/// The atoms that stand in some head, and the rules without the others.
fn head_atoms(typed: &Program) -> (Vec<usize>, Program) {
    let in_a_head = |atom: &usize| typed.rules.iter().any(|rule| rule.head.contains(atom));
    let mut cut = typed.clone();
    for rule in &mut cut.rules {
        rule.body.retain(in_a_head);
    }
    ((0..typed.atoms).filter(in_a_head).collect(), cut)
}

/// The atoms as the rules name them, each where it stands first.
fn in_the_rules_order(typed: &Program) -> Vec<usize> {
    let mut atoms = Vec::new();
    for list in typed.rules.iter().flat_map(Rule::lists) {
        for atom in list {
            if !atoms.contains(atom) {
                atoms.push(*atom);
            }
        }
    }
    atoms
}

/// What remains, without the classes that lost all their atoms.
fn without_emptied_classes(typed: &Program, left: &Program) -> Program {
    let stays = |class: &usize| {
        let [before, after] = [typed, left].map(|file| file.class_atoms(*class).len());
        before == 0 || after > 0
    };
    let classes: Vec<usize> = (1..=typed.classes).filter(stays).collect();
    let mut dropped = left.clone();
    dropped.classes = classes.len();
    for role in &mut dropped.roles {
        if let Role::Minimised(class) = role {
            let place = classes.iter().position(|stays| stays == class);
            *class = place.expect("a class with an atom stays") + 1;
        }
    }
    dropped
}

/// The two stores of what the lines say.
fn stores(slip: ReadSlip, typed: &Program, names: &Names) -> (Vec<u16>, Vec<u8>) {
    let of = |program: &Program, names: &Names| (rule_store(program), name_store(names));
    let of_atoms = |typed: &Program, atoms: &[usize]| {
        let names = atoms.iter().map(|&atom| names[atom].clone()).collect();
        of(&restricted(typed, atoms), &names)
    };
    if typed.kind == Kind::Plain && slip != PlainAtomsLeftOut {
        return of(typed, names);
    }
    let (left, left_names) = without_unused(typed, names);
    match slip {
        UnusedKept => of(typed, names),
        UnusedFixedKept => {
            let used = used_atoms(typed);
            let kept = |atom: &usize| used.contains(atom) || typed.is_fixed(*atom);
            of_atoms(typed, &(0..typed.atoms).filter(kept).collect::<Vec<_>>())
        }
        BodiesForgotten => {
            let (atoms, cut) = head_atoms(typed);
            of_atoms(&cut, &atoms)
        }
        EmptiedClassDropped => of(&without_emptied_classes(typed, &left), &left_names),
        NumbersNotMovedDown => {
            let rules = typed.rules.clone();
            of(&Program { rules, ..left }, &left_names)
        }
        NumbersInTheRulesOrder => of_atoms(typed, &in_the_rules_order(typed)),
        UnusedNamesKept => of(&left, names),
        _ => of(&left, &left_names),
    }
}

/// The text without the declared names that stand on no rule's line.
fn with_used_names(text: &[u8]) -> Vec<u8> {
    let lines = || text.split_inclusive(|byte| *byte == b'\n');
    let in_rules = lines().filter(|line| line.starts_with(b"(rule"));
    let items = in_rules.flat_map(|line| line.split(|byte| matches!(byte, b' ' | b'(' | b')')));
    let used: HashSet<&[u8]> = items.collect();
    let mut cut = Vec::new();
    for line in lines() {
        match line.strip_suffix(b")\n") {
            Some(declared) if !line.starts_with(b"(rule") => {
                let mut items = declared.split(|byte| *byte == b' ');
                let word = items.next().into_iter();
                let kept = word.chain(items.filter(|name| used.contains(name)));
                cut.extend(kept.collect::<Vec<_>>().join(&b' '));
                cut.extend(b")\n");
            }
            _ => cut.extend(line),
        }
    }
    cut
}

fn answer(refusal: u64, words: usize, bytes: usize) -> ReadAnswer {
    ReadAnswer {
        refusal,
        line: 0,
        words: words as u64,
        bytes: bytes as u64,
    }
}

pub fn read(slip: ReadSlip, text: &[u8], rules: &mut [u16], names: &mut [u8]) -> ReadAnswer {
    let right = Reference.read(text, &mut rules.to_vec(), &mut names.to_vec());
    let Ok((typed, typed_names)) = read_lines(text) else {
        return match (slip, right.refusal) {
            (UnusedNamesNotChecked, 3 | 4) => Reference.read(&with_used_names(text), rules, names),
            _ => right,
        };
    };
    let (words, bytes) = stores(slip, &typed, &typed_names);
    let room = match slip {
        RoomForTheUnused => stores(UnusedKept, &typed, &typed_names),
        _ => (words.clone(), bytes.clone()),
    };
    if rules.len() < room.0.len() || names.len() < room.1.len() {
        return answer(9, 0, 0);
    }
    rules[..words.len()].copy_from_slice(&words);
    names[..bytes.len()].copy_from_slice(&bytes);
    answer(0, words.len(), bytes.len())
}
