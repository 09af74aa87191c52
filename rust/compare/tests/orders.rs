//! Document 02, W-206, held against the second implementation itself: where no budget is spent, the
//! order of sets changes neither a verdict's case nor which sets are states.

use compare::generate::{mixed, plain, preference, Size};
use compare::random::Random;
use reference::limits::BUDGET_LIMIT;
use reference::program::Program;
use reference::verdicts::{
    beats, first_broken, holds, is_model, next_state, place, preferred, reduct, stable, Next,
    Verdict,
};

/// The verdict on a model, by the sets in the sequence in which they come.
fn walk(sets: impl Iterator<Item = u64>, better: impl Fn(u64) -> bool) -> Verdict {
    let mut units = 0;
    for set in sets {
        units += 1;
        if better(set) {
            return Verdict::Beaten { set, units };
        }
    }
    Verdict::Yes { units }
}

fn preferred_by_number(file: &Program, m: u64) -> Verdict {
    if let Some(rule) = first_broken(&file.rules, m) {
        return Verdict::Broken { rule };
    }
    let agrees =
        |n: &u64| (0..file.atoms).all(|a| !file.is_fixed(a) || holds(*n, a) == holds(m, a));
    walk((0..1 << file.atoms).filter(agrees), |n| beats(file, n, m))
}

fn stable_by_number(plain: &Program, m: u64) -> Verdict {
    if let Some(rule) = first_broken(&plain.rules, m) {
        return Verdict::Broken { rule };
    }
    let kept = reduct(&plain.rules, m);
    walk((0..m).filter(|n| n & !m == 0), |n| is_model(&kept, n))
}

/// Two verdicts of one case, with the same rule if broken.
fn same_case(one: Verdict, other: Verdict) -> bool {
    match (one, other) {
        (Verdict::Yes { .. }, Verdict::Yes { .. }) => true,
        (Verdict::Beaten { .. }, Verdict::Beaten { .. }) => true,
        _ => one == other,
    }
}

fn better_set(verdict: Verdict) -> Option<u64> {
    match verdict {
        Verdict::Beaten { set, .. } => Some(set),
        _ => None,
    }
}

/// Holds the verdicts on all sets to those by rising number; gives how often another set is the
/// first better one.
fn compare(
    program: &Program,
    verdict: fn(&Program, u64, u64) -> Verdict,
    by_number: fn(&Program, u64) -> Verdict,
) -> usize {
    let differs = |&m: &u64| {
        let (given, old) = (verdict(program, m, BUDGET_LIMIT), by_number(program, m));
        assert!(same_case(given, old), "{m}: {given:?} {old:?} {program:?}");
        better_set(given) != better_set(old)
    };
    (0..1 << program.atoms).filter(differs).count()
}

fn file(random: &mut Random, turn: usize) -> Program {
    match turn % 2 {
        0 => preference(random, Size::SMALL).0,
        _ => mixed(random, 2).0,
    }
}

#[test]
fn verdicts() {
    let mut random = Random::new(15);
    let mut differences = [0, 0];
    for turn in 0..600 {
        let file = file(&mut random, turn);
        differences[0] += compare(&file, preferred, preferred_by_number);
        let (plain, _) = plain(&mut random, Size::SMALL);
        differences[1] += compare(&plain, stable, stable_by_number);
    }
    assert!(
        differences.iter().all(|&count| count > 0),
        "{differences:?}"
    );
}

#[test]
fn states() {
    let mut random = Random::new(16);
    let mut moved = 0;
    for turn in 0..600 {
        let file = file(&mut random, turn);
        let yes = |set: &u64| matches!(preferred_by_number(&file, *set), Verdict::Yes { .. });
        let by_number: Vec<u64> = (0..1 << file.atoms).filter(yes).collect();
        let mut listed = Vec::new();
        let mut start = 0;
        while let Next::State { set, .. } = next_state(&file, start, BUDGET_LIMIT) {
            listed.push(set);
            start = place(file.atoms, set) + 1;
        }
        moved += usize::from(listed != by_number);
        listed.sort_unstable();
        assert_eq!(listed, by_number, "{file:?}");
    }
    assert!(moved > 0, "some list has another sequence");
}
