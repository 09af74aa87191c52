//! Document 02, W-207: unless either is spent, verdict, better set and next state equal those of the
//! full walk, which tries every set in the order of W-206, one unit each.

mod common;

use common::draw::programs;
use reference::limits::Kind;
use reference::program::Program;
use reference::verdicts::{self, beats, first_broken, holds, is_model, reduct, Next, Verdict};

const LARGEST: u64 = 1 << 40;

/// The set at a place of a walk: `base` with the free atoms as the place's binary digits say, the
/// last atom by the lowest digit. Of two places the lower has the earlier set.
fn set_at(place: u64, free: &[usize], base: u64) -> u64 {
    let mut set = base;
    for (digit, &atom) in free.iter().rev().enumerate() {
        if holds(place, digit) {
            set |= 1 << atom;
        }
    }
    set
}

/// Tries the sets of a walk of this length until one is better.
fn walk(
    length: u64,
    budget: u64,
    set_at: impl Fn(u64) -> u64,
    better: impl Fn(u64) -> bool,
) -> Verdict {
    for place in 0..length {
        if place == budget {
            return Verdict::Spent { units: budget };
        }
        let set = set_at(place);
        if better(set) {
            let units = place + 1;
            return Verdict::Beaten { set, units };
        }
    }
    Verdict::Yes { units: length }
}

fn preferred(file: &Program, m: u64, budget: u64) -> Verdict {
    if let Some(rule) = first_broken(&file.rules, m) {
        return Verdict::Broken { rule };
    }
    let free = file.unfixed();
    let fixed = (0..file.atoms).filter(|&a| file.is_fixed(a) && holds(m, a));
    let base = fixed.fold(0, |set, a| set | 1 << a);
    let at = |place| set_at(place, &free, base);
    walk(1 << free.len(), budget, at, |n| beats(file, n, m))
}

fn stable(plain: &Program, m: u64, budget: u64) -> Verdict {
    if let Some(rule) = first_broken(&plain.rules, m) {
        return Verdict::Broken { rule };
    }
    let members: Vec<usize> = (0..plain.atoms).filter(|&a| holds(m, a)).collect();
    let kept = reduct(&plain.rules, m);
    let proper_subsets = (1 << members.len()) - 1;
    let at = |place| set_at(place, &members, 0);
    walk(proper_subsets, budget, at, |n| is_model(&kept, n))
}

fn next_state(file: &Program, start: u64, budget: u64) -> Next {
    let spent = Next::Spent { units: budget };
    let atoms: Vec<usize> = (0..file.atoms).collect();
    let mut units = 0;
    for place in start..1 << file.atoms {
        if units == budget {
            return spent;
        }
        units += 1;
        let set = set_at(place, &atoms, 0);
        match preferred(file, set, budget - units) {
            Verdict::Broken { .. } => {}
            Verdict::Spent { .. } => return spent,
            Verdict::Beaten { units: more, .. } => units += more,
            Verdict::Yes { units: more } => {
                let units = units + more;
                return Next::State { set, units };
            }
        }
    }
    Next::None { units }
}

/// What a verdict says of the set, without its units; nothing where it is spent.
#[derive(Debug, PartialEq, Eq)]
enum Said {
    Yes,
    Broken(u64),
    Beaten(u64),
}

fn said(verdict: Verdict) -> Option<Said> {
    match verdict {
        Verdict::Yes { .. } => Some(Said::Yes),
        Verdict::Broken { rule } => Some(Said::Broken(rule)),
        Verdict::Beaten { set, .. } => Some(Said::Beaten(set)),
        Verdict::Spent { .. } => None,
    }
}

/// The state that was found, or that there is none; nothing where it is spent.
fn found(next: Next) -> Option<Option<u64>> {
    match next {
        Next::State { set, .. } => Some(Some(set)),
        Next::None { .. } => Some(None),
        Next::Spent { .. } => None,
    }
}

const BUDGETS: [u64; 6] = [0, 2, 5, 9, 20, LARGEST];

/// Holds the answers of both walks to each other, each with every budget; tells how often one of the
/// two was spent and the other was not.
fn hold<T: PartialEq + std::fmt::Debug>(
    short: impl Fn(u64) -> Option<T>,
    full: impl Fn(u64) -> Option<T>,
) -> usize {
    assert!(short(LARGEST).is_some() && full(LARGEST).is_some());
    let full = BUDGETS.map(full);
    let mut one_spent = 0;
    for short in BUDGETS.map(short) {
        for full in &full {
            match (&short, full) {
                (Some(short), Some(full)) => assert_eq!(short, full),
                (None, None) => {}
                _ => one_spent += 1,
            }
        }
    }
    one_spent
}

type Walk = fn(&Program, u64, u64) -> Verdict;

fn hold_verdicts(kind: Kind, short: Walk, full: Walk) {
    let mut one_spent = 0;
    for program in programs(kind, 2_000) {
        for m in 0..1 << program.atoms {
            let short = |budget| said(short(&program, m, budget));
            let full = |budget| said(full(&program, m, budget));
            one_spent += hold(short, full);
        }
    }
    assert!(one_spent > 0);
}

#[test]
fn preferred_verdicts() {
    hold_verdicts(Kind::Preference, verdicts::preferred, preferred);
}

#[test]
fn stable_verdicts() {
    hold_verdicts(Kind::Plain, verdicts::stable, stable);
}

#[test]
fn next_states() {
    let mut one_spent = 0;
    for file in programs(Kind::Preference, 1_000) {
        for start in 0..=1 << file.atoms {
            let short = |budget| found(verdicts::next_state(&file, start, budget));
            let full = |budget| found(next_state(&file, start, budget));
            one_spent += hold(short, full);
        }
    }
    assert!(one_spent > 0);
}
