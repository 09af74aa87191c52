//! The canonical form of a program (document 02, W-205): two programs with the same declarations and
//! the same rules as sets have the same one.

use crate::program::{Program, Rule};

fn sorted(list: &[usize]) -> Vec<usize> {
    let mut sorted = list.to_vec();
    sorted.sort_unstable();
    sorted
}

/// The program with the atoms inside each list sorted by number, then the rules by the first
/// difference of head, body and not lists, one of equal rules kept. Lists compare by their first
/// difference too, and one that ends first stands before.
pub fn canonical(program: &Program) -> Program {
    let rule = |rule: &Rule| Rule {
        head: sorted(&rule.head),
        body: sorted(&rule.body),
        not: sorted(&rule.not),
    };
    let mut rules: Vec<Rule> = program.rules.iter().map(rule).collect();
    rules.sort_by(|one, other| one.lists().cmp(&other.lists()));
    rules.dedup();
    Program {
        rules,
        ..program.clone()
    }
}
