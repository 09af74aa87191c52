//! Document 02, W-203: only atoms that stand in some rule belong to a preference program.

use crate::program::{Names, Program, Role, Rule};

/// The atoms that stand in some rule, in declared order.
pub fn used_atoms(program: &Program) -> Vec<usize> {
    let used = |atom: &usize| {
        let mut lists = program.rules.iter().flat_map(Rule::lists);
        lists.any(|list| list.contains(atom))
    };
    (0..program.atoms).filter(used).collect()
}

/// The program of these atoms, among which are all that stand in a rule. An atom's number is its
/// place in the list; classes stay, emptied ones too.
pub fn restricted(program: &Program, atoms: &[usize]) -> Program {
    let number = |atom: &usize| -> usize {
        let place = atoms.iter().position(|left| left == atom);
        place.expect("an atom of a rule is left")
    };
    let numbers = |list: &[usize]| -> Vec<usize> { list.iter().map(number).collect() };
    let rule = |rule: &Rule| Rule {
        head: numbers(&rule.head),
        body: numbers(&rule.body),
        not: numbers(&rule.not),
    };
    let role = |atom: &usize| -> Option<Role> { program.roles.get(*atom).copied() };
    Program {
        kind: program.kind,
        atoms: atoms.len(),
        classes: program.classes,
        roles: atoms.iter().filter_map(role).collect(),
        rules: program.rules.iter().map(rule).collect(),
    }
}

/// The program without the atoms that stand in no rule, with its names.
pub fn without_unused(program: &Program, names: &Names) -> (Program, Names) {
    let used = used_atoms(program);
    let names = used.iter().map(|&atom| names[atom].clone()).collect();
    (restricted(program, &used), names)
}
