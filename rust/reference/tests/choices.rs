//! Document 02, W-207, by another way: all visited choices as a list, and units as places in it.

mod common;

use common::draw::programs;
use common::{inverters, rules};
use reference::lent;
use reference::limits::Kind;
use reference::program::{Program, Rule};
use reference::verdicts::{
    beats, first_broken, holds, next_state, preferred, reduct, stable, Next, Verdict,
};

const LARGEST: u64 = 1 << 40;

/// A partial choice: the values of the first atoms. As lists compare, a choice stands before those
/// below it, and out before in.
type Values = Vec<bool>;

fn every_choice(atoms: usize) -> Vec<Values> {
    let of_length = |length: usize| {
        let values = move |set: u64| (0..length).map(|a| holds(set, a)).collect::<Values>();
        (0..1u64 << length).map(values)
    };
    let mut all: Vec<Values> = (0..=atoms).flat_map(of_length).collect();
    all.sort();
    all
}

fn closed(rules: &[Rule], values: &[bool]) -> bool {
    let all = |list: &[usize], value| list.iter().all(|&a| values.get(a) == Some(&value));
    rules
        .iter()
        .any(|rule| all(&rule.body, true) && all(&rule.head, false))
}

/// The choices below no closed one, with the values that are allowed.
fn visited(
    atoms: usize,
    rules: &[Rule],
    allowed: impl Fn(usize, bool) -> bool,
) -> impl Iterator<Item = Values> {
    let mut choices = every_choice(atoms);
    choices.retain(|values| {
        let reached = (0..values.len()).all(|decided| !closed(rules, &values[..decided]));
        reached && values.iter().enumerate().all(|(a, &v)| allowed(a, v))
    });
    choices.into_iter()
}

fn set_of(values: &[bool]) -> u64 {
    let members = values.iter().enumerate().filter(|(_, &value)| value);
    members.map(|(atom, _)| 1 << atom).sum()
}

/// The verdict on a model by the choices in their order; `better` tells of a model.
fn expected(
    atoms: usize,
    rules: &[Rule],
    choices: impl Iterator<Item = Values>,
    better: impl Fn(u64) -> bool,
) -> Verdict {
    let mut units = 0;
    for values in choices {
        units += 1;
        let model = values.len() == atoms && !closed(rules, &values);
        if model && better(set_of(&values)) {
            let set = set_of(&values);
            return Verdict::Beaten { set, units };
        }
    }
    Verdict::Yes { units }
}

fn expected_preferred(file: &Program, m: u64) -> Verdict {
    if let Some(rule) = first_broken(&file.rules, m) {
        return Verdict::Broken { rule };
    }
    let allowed = |a, value| !file.is_fixed(a) || value == holds(m, a);
    let choices = visited(file.atoms, &file.rules, allowed);
    expected(file.atoms, &file.rules, choices, |n| beats(file, n, m))
}

fn expected_stable(plain: &Program, m: u64) -> Verdict {
    if let Some(rule) = first_broken(&plain.rules, m) {
        return Verdict::Broken { rule };
    }
    let kept = reduct(&plain.rules, m);
    let choices = visited(plain.atoms, &kept, |a, value| !value || holds(m, a));
    let other = choices.filter(|values| values.len() < plain.atoms || set_of(values) != m);
    expected(plain.atoms, &kept, other, |_| true)
}

/// Does the choice become no set at or after the start? Its last set has all other atoms in.
fn before(atoms: usize, values: &[bool], start: u64) -> bool {
    let mut last = values.to_vec();
    last.resize(atoms, true);
    let place = last.iter().fold(0, |place, &v| 2 * place + u64::from(v));
    place < start
}

fn expected_next(file: &Program, start: u64) -> Next {
    let choices = visited(file.atoms, &file.rules, |_, _| true);
    let mut units = 0;
    for values in choices.filter(|values| !before(file.atoms, values, start)) {
        units += 1;
        if values.len() < file.atoms || closed(&file.rules, &values) {
            continue;
        }
        let set = set_of(&values);
        match expected_preferred(file, set) {
            Verdict::Yes { units: more } => {
                let units = units + more;
                return Next::State { set, units };
            }
            Verdict::Beaten { units: more, .. } => units += more,
            other => panic!("{other:?} for a model"),
        }
    }
    Next::None { units }
}

/// The verdict as expected with just enough budget, and spent with less.
fn hold_verdict(verdict: impl Fn(u64) -> Verdict, expected: Verdict) {
    let needed = match expected {
        Verdict::Yes { units } | Verdict::Beaten { units, .. } => units,
        _ => 0,
    };
    for budget in [needed, needed + 1, LARGEST] {
        assert_eq!(verdict(budget), expected);
    }
    for units in [0, needed / 2, needed.saturating_sub(1)] {
        if units < needed {
            assert_eq!(verdict(units), Verdict::Spent { units });
        }
    }
}

fn hold_next(next: impl Fn(u64) -> Next, expected: Next) {
    let needed = match expected {
        Next::State { units, .. } | Next::None { units } => units,
        Next::Spent { .. } => unreachable!("without a budget nothing is spent"),
    };
    for budget in [needed, needed + 1, LARGEST] {
        assert_eq!(next(budget), expected);
    }
    for units in [0, needed / 2, needed.saturating_sub(1)] {
        if units < needed {
            assert_eq!(next(units), Next::Spent { units });
        }
    }
}

#[test]
fn preferred_units_are_places_in_the_list() {
    for file in programs(Kind::Preference, 1_000) {
        for m in 0..1 << file.atoms {
            let verdict = |budget| preferred(&file, m, budget);
            hold_verdict(verdict, expected_preferred(&file, m));
        }
    }
}

#[test]
fn stable_units_are_places_in_the_list() {
    for plain in programs(Kind::Plain, 1_000) {
        for m in 0..1 << plain.atoms {
            let verdict = |budget| stable(&plain, m, budget);
            hold_verdict(verdict, expected_stable(&plain, m));
        }
    }
}

#[test]
fn next_state_units_are_places_in_the_list() {
    for file in programs(Kind::Preference, 300) {
        for start in 0..=1 << file.atoms {
            let next = |budget| next_state(&file, start, budget);
            hold_next(next, expected_next(&file, start));
        }
    }
}

/// The preferred set in which just this inverter of the row is at fault.
fn one_fault(count: usize, fault: usize) -> u64 {
    let high = |wire: usize| (wire % 2 == 1) != (wire > fault);
    let wires = (0..=count).filter(|&wire| high(wire));
    wires.fold(1 << fault, |set, wire| set | 1 << (count + wire))
}

#[test]
fn rows_of_inverters() {
    let example = include_str!("../../../examples/inverters.pref");
    assert_eq!(rules(&inverters(3)), rules(example));
    for count in 1..=9 {
        let row = rules(&inverters(count));
        let units = 4 * 3u64.pow(count as u32) - 1;
        for fault in [0, count / 2, count - 1] {
            let set = one_fault(count, fault);
            assert_eq!(
                lent::preferred(&row, set, units),
                Ok(Verdict::Yes { units }),
                "{count} {fault}"
            );
            let units = units - 1;
            let spent = Ok(Verdict::Spent { units });
            assert_eq!(lent::preferred(&row, set, units), spent);
        }
    }
}

#[test]
fn rows_of_inverters_all_at_fault() {
    for (count, units) in [(9, 45), (19, 90), (29, 135)] {
        let row = rules(&inverters(count));
        let all_faults = (1 << count) - 1;
        let set = one_fault(count, count - 1);
        assert_eq!(
            lent::preferred(&row, all_faults, units),
            Ok(Verdict::Beaten { set, units })
        );
        let units = units - 1;
        let spent = Ok(Verdict::Spent { units });
        assert_eq!(lent::preferred(&row, all_faults, units), spent);
    }
}
