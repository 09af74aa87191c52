//! The two verdicts and the next state, by walks over partial choices (document 02, W-207).
//!
//! A set is its number: atom i is in when bit i is set. Of two sets, the earlier is the one lacking
//! the first declared atom on which they differ (document 02, W-206); every walk meets the earlier
//! one first.

use crate::choices::{Spent, Units, Walk};
use crate::program::{Program, Rule};

#[derive(Clone, Copy, Debug, PartialEq, Eq)]
pub enum Verdict {
    /// Preferred, or stable.
    Yes { units: u64 },
    /// No model: the number of the first broken rule.
    Broken { rule: u64 },
    /// The first better set.
    Beaten { set: u64, units: u64 },
    /// More units needed than the budget.
    Spent { units: u64 },
}

#[derive(Clone, Copy, Debug, PartialEq, Eq)]
pub enum Next {
    State { set: u64, units: u64 },
    None { units: u64 },
    Spent { units: u64 },
}

pub fn holds(set: u64, atom: usize) -> bool {
    (set >> atom) & 1 == 1
}

/// The set's place, from 0, in the order of all sets of so many atoms.
pub fn place(atoms: usize, set: u64) -> u64 {
    let members = (0..atoms).filter(|&a| holds(set, a));
    members.map(|a| 1 << (atoms - 1 - a)).sum()
}

/// The rule has its whole body in, no `not` atom in, and no head atom in.
pub fn breaks(set: u64, rule: &Rule) -> bool {
    rule.body.iter().all(|&b| holds(set, b))
        && !rule.not.iter().any(|&c| holds(set, c))
        && !rule.head.iter().any(|&a| holds(set, a))
}

pub fn first_broken(rules: &[Rule], set: u64) -> Option<u64> {
    let place = rules.iter().position(|rule| breaks(set, rule));
    place.map(|number| number as u64)
}

pub fn is_model(rules: &[Rule], set: u64) -> bool {
    first_broken(rules, set).is_none()
}

fn agree(one: u64, other: u64, atoms: &[usize]) -> bool {
    atoms.iter().all(|&a| holds(one, a) == holds(other, a))
}

/// Is `one`'s part of these atoms a proper subset of `other`'s?
fn proper_part(one: u64, other: u64, atoms: &[usize]) -> bool {
    atoms.iter().all(|&a| holds(other, a) || !holds(one, a)) && !agree(one, other, atoms)
}

/// N beats M (document 001, Definition 3).
pub fn beats(file: &Program, n: u64, m: u64) -> bool {
    let fixed: Vec<usize> = (0..file.atoms).filter(|&a| file.is_fixed(a)).collect();
    is_model(&file.rules, n)
        && agree(n, m, &fixed)
        && (1..=file.classes).any(|i| {
            (1..i).all(|earlier| agree(n, m, &file.class_atoms(earlier)))
                && proper_part(n, m, &file.class_atoms(i))
        })
}

/// The rules of M's reduct: those without a `not` atom in M, their `not` lists emptied.
pub fn reduct(rules: &[Rule], m: u64) -> Vec<Rule> {
    let kept = rules
        .iter()
        .filter(|rule| !rule.not.iter().any(|&c| holds(m, c)));
    kept.map(|rule| Rule {
        head: rule.head.clone(),
        body: rule.body.clone(),
        not: Vec::new(),
    })
    .collect()
}

/// The verdict on a model, by a walk that looks for a better set.
fn judged(walk: &Walk, budget: u64) -> Verdict {
    let mut units = Units::within(budget);
    let better = walk.first(&mut units);
    let units = units.taken;
    match better {
        Ok(None) => Verdict::Yes { units },
        Ok(Some(set)) => Verdict::Beaten { set, units },
        Err(Spent) => Verdict::Spent { units: budget },
    }
}

/// Is the set preferred in the preference file? Fixed atoms take only M's value.
pub fn preferred(file: &Program, m: u64, budget: u64) -> Verdict {
    if let Some(rule) = first_broken(&file.rules, m) {
        return Verdict::Broken { rule };
    }
    let walk = Walk {
        atoms: file.atoms,
        rules: &file.rules,
        allows: &|atom, is_in| !file.is_fixed(atom) || is_in == holds(m, atom),
        leaves_out: &|_| false,
        accepts: &|n, _| Ok(beats(file, n, m)),
    };
    judged(&walk, budget)
}

/// Is the set stable in the plain program? Atoms outside M are only out, the rules are the
/// reduct's, and the final choice M is neither visited nor counted.
pub fn stable(plain: &Program, m: u64, budget: u64) -> Verdict {
    if let Some(rule) = first_broken(&plain.rules, m) {
        return Verdict::Broken { rule };
    }
    let walk = Walk {
        atoms: plain.atoms,
        rules: &reduct(&plain.rules, m),
        allows: &|atom, is_in| !is_in || holds(m, atom),
        leaves_out: &|choice| choice.decided == plain.atoms && choice.set == m,
        accepts: &|_, _| Ok(true),
    };
    judged(&walk, budget)
}

/// Is the model preferred? Its verdict's units are taken.
fn is_state(file: &Program, model: u64, units: &mut Units) -> Result<bool, Spent> {
    let (yes, more) = match preferred(file, model, units.left()) {
        Verdict::Yes { units } => (true, units),
        Verdict::Beaten { units, .. } => (false, units),
        Verdict::Spent { .. } => return Err(Spent),
        Verdict::Broken { .. } => unreachable!("it is a model"),
    };
    units.take(more)?;
    Ok(yes)
}

/// The first preferred set at or after the start, which is a place. A choice that lies wholly
/// before the start is not visited, and fixed atoms are free.
pub fn next_state(file: &Program, start: u64, budget: u64) -> Next {
    let mut units = Units::within(budget);
    let walk = Walk {
        atoms: file.atoms,
        rules: &file.rules,
        allows: &|_, _| true,
        leaves_out: &|choice| choice.last_place(file.atoms) < start,
        accepts: &|model, units| is_state(file, model, units),
    };
    let state = walk.first(&mut units);
    let units = units.taken;
    match state {
        Ok(Some(set)) => Next::State { set, units },
        Ok(None) => Next::None { units },
        Err(Spent) => Next::Spent { units: budget },
    }
}
