//! The ten steps: from a preference file to its plain program.

use crate::limits::Kind;
use crate::program::{Names, Program, Rule};

/// An atom of the translation, before it has a number.
#[derive(Clone, Copy, Debug, PartialEq, Eq)]
enum Atom {
    Original(usize),
    N(usize),
    S(usize),
    D(usize),
    E(usize),
    U,
}

use Atom::{Original, D, E, N, S, U};

/// A rule over such atoms: head, body and not.
type Lists = (Vec<Atom>, Vec<Atom>, Vec<Atom>);

/// The declared order.
fn atoms(file: &Program) -> Vec<Atom> {
    let mut atoms = Vec::new();
    atoms.extend((0..file.atoms).map(Original));
    atoms.extend((0..file.atoms).map(N));
    atoms.extend(file.unfixed().into_iter().map(S));
    atoms.extend(file.minimised().into_iter().map(D));
    atoms.extend((0..=file.classes).map(E));
    atoms.push(U);
    atoms
}

fn name(atom: Atom, names: &Names) -> Vec<u8> {
    let prefixed = |prefix: &[u8], a: usize| [prefix, &names[a]].concat();
    match atom {
        Original(a) => names[a].clone(),
        N(a) => prefixed(b"N.", a),
        S(a) => prefixed(b"S.", a),
        D(a) => prefixed(b"D.", a),
        E(j) => format!("E.{j}").into_bytes(),
        U => b"U".to_vec(),
    }
}

fn step_1(file: &Program, rules: &mut Vec<Lists>) {
    for a in 0..file.atoms {
        if file.class(a).is_none() {
            rules.push((vec![Original(a)], vec![], vec![N(a)]));
        }
        rules.push((vec![N(a)], vec![], vec![Original(a)]));
    }
}

fn step_2(file: &Program, rules: &mut Vec<Lists>) {
    let minimised = |list: &[usize]| -> Vec<Atom> {
        let chosen = list.iter().filter(|&&a| file.class(a).is_some());
        chosen.map(|&a| Original(a)).collect()
    };
    let others = |list: &[usize], atom: fn(usize) -> Atom| -> Vec<Atom> {
        let chosen = list.iter().filter(|&&a| file.class(a).is_none());
        chosen.map(|&a| atom(a)).collect()
    };
    for rule in &file.rules {
        let mut not = others(&rule.head, Original);
        not.extend(others(&rule.body, N));
        rules.push((minimised(&rule.head), minimised(&rule.body), not));
    }
}

fn step_3(file: &Program, rules: &mut Vec<Lists>) {
    let unfixed = |list: &[usize]| -> Vec<Atom> {
        let chosen = list.iter().filter(|&&a| !file.is_fixed(a));
        chosen.map(|&a| S(a)).collect()
    };
    let fixed = |list: &[usize]| -> Vec<Atom> {
        let chosen = list.iter().filter(|&&a| file.is_fixed(a));
        chosen.map(|&a| Original(a)).collect()
    };
    for rule in &file.rules {
        let mut head = unfixed(&rule.head);
        head.push(U);
        let mut body = unfixed(&rule.body);
        body.extend(fixed(&rule.body));
        rules.push((head, body, fixed(&rule.head)));
    }
}

fn step_4(rules: &mut Vec<Lists>) {
    rules.push((vec![E(0), U], vec![], vec![]));
}

fn step_5(file: &Program, rules: &mut Vec<Lists>) {
    for i in 1..=file.classes {
        let mut head: Vec<Atom> = file.class_atoms(i).into_iter().map(D).collect();
        head.extend([E(i), U]);
        rules.push((head, vec![E(i - 1)], vec![]));
    }
}

fn step_6(file: &Program, rules: &mut Vec<Lists>) {
    for a in 0..file.atoms {
        if let Some(i) = file.class(a) {
            rules.push((vec![U], vec![D(a)], vec![Original(a)]));
            rules.push((vec![U], vec![D(a), S(a)], vec![]));
            rules.push((vec![U], vec![E(i - 1), S(a)], vec![Original(a)]));
            rules.push((vec![S(a), U], vec![E(i)], vec![N(a)]));
        }
    }
}

fn step_7(file: &Program, rules: &mut Vec<Lists>) {
    for a in file.unfixed() {
        rules.push((vec![S(a)], vec![U], vec![]));
    }
}

fn step_8(file: &Program, rules: &mut Vec<Lists>) {
    for a in file.minimised() {
        rules.push((vec![D(a)], vec![U], vec![]));
    }
}

fn step_9(file: &Program, rules: &mut Vec<Lists>) {
    for j in 0..=file.classes {
        rules.push((vec![E(j)], vec![U], vec![]));
    }
}

fn step_10(file: &Program, rules: &mut Vec<Lists>) {
    rules.push((vec![U], vec![E(file.classes)], vec![]));
    rules.push((vec![], vec![], vec![U]));
}

/// The plain program of a preference file, with its names.
pub fn translate(file: &Program, names: &Names) -> (Program, Names) {
    let mut lists = Vec::new();
    step_1(file, &mut lists);
    step_2(file, &mut lists);
    step_3(file, &mut lists);
    step_4(&mut lists);
    step_5(file, &mut lists);
    step_6(file, &mut lists);
    step_7(file, &mut lists);
    step_8(file, &mut lists);
    step_9(file, &mut lists);
    step_10(file, &mut lists);

    let atoms = atoms(file);
    let number = |atom: &Atom| -> usize {
        let place = atoms.iter().position(|known| known == atom);
        place.expect("each atom of the steps is declared")
    };
    let numbers = |list: Vec<Atom>| -> Vec<usize> { list.iter().map(number).collect() };
    let mut plain = Program::empty(Kind::Plain);
    plain.atoms = atoms.len();
    for (head, body, not) in lists {
        plain.rules.push(Rule {
            head: numbers(head),
            body: numbers(body),
            not: numbers(not),
        });
    }
    let plain_names = atoms.iter().map(|&atom| name(atom, names)).collect();
    (plain, plain_names)
}
