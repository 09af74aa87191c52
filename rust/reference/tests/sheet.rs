//! Document 01, "Sheets of known states", with places and order by document 02, W-206, and units by
//! W-207; the choice rules of a translation and its sums by W-214.

mod common;

use common::{accepted, rules, states, translated_sums, FILE_A};
use reference::lent::{next_state, place, preferred, stable};
use reference::programs;
use reference::verdicts::{Next, Verdict};

const LARGEST: u64 = 1 << 40;

const ONE_CLASS: &str = "(min sensor lamp)\n(vary dark)\n(fix)\n\
    (rule (head sensor lamp) (body) (not))\n(rule (head dark) (body lamp) (not))\n";
const OTHER_ORDER: &str = "(min lamp)\n(min sensor)\n(vary dark)\n(fix)\n\
    (rule (head sensor lamp) (body) (not))\n(rule (head dark) (body lamp) (not))\n";
const DARK_FIXED: &str = "(min sensor)\n(min lamp)\n(vary)\n(fix dark)\n\
    (rule (head sensor lamp) (body) (not))\n(rule (head dark) (body lamp) (not))\n";
const SENSOR_OR_DARK: &str = "(min sensor)\n(vary dark)\n(fix)\n\
    (rule (head sensor dark) (body) (not))\n";

fn printed(text: &str) -> String {
    String::from_utf8(programs::states(text.as_bytes())).unwrap()
}

#[test]
fn file_a_is_listed() {
    accepted(FILE_A);
    assert_eq!(printed(FILE_A), "(state lamp dark)\n(total 1)\n");
    assert_eq!(states(FILE_A), [6]);
}

#[test]
fn file_a_verdicts_and_units() {
    let a = rules(FILE_A);
    let verdict = |set, budget| preferred(&a, set, budget).unwrap();
    assert_eq!(verdict(6, LARGEST), Verdict::Yes { units: 13 });
    assert_eq!(verdict(6, 13), Verdict::Yes { units: 13 });
    assert_eq!(verdict(6, 12), Verdict::Spent { units: 12 });
    assert_eq!(verdict(1, LARGEST), Verdict::Beaten { set: 6, units: 6 });
    assert_eq!(verdict(0, LARGEST), Verdict::Broken { rule: 0 });
    assert_eq!(verdict(0, 0), Verdict::Broken { rule: 0 });
    assert_eq!(verdict(2, LARGEST), Verdict::Broken { rule: 1 });
    assert_eq!(verdict(1, 5), Verdict::Spent { units: 5 });
    assert_eq!(verdict(1, 6), Verdict::Beaten { set: 6, units: 6 });
    assert_eq!(verdict(1, 0), Verdict::Spent { units: 0 });
}

#[test]
fn file_a_places() {
    let a = rules(FILE_A);
    let order = [0, 4, 2, 6, 1, 5, 3, 7];
    for (at, set) in (0..).zip(order) {
        assert_eq!(place(&a, set), Ok(at));
    }
}

#[test]
fn file_a_next_states() {
    let a = rules(FILE_A);
    let next = |start, budget| next_state(&a, start, budget).unwrap();
    // The choice of nothing and five more lead to 6, the first model; its verdict takes 13.
    assert_eq!(next(0, LARGEST), Next::State { set: 6, units: 19 });
    assert_eq!(next(0, 19), Next::State { set: 6, units: 19 });
    assert_eq!(next(0, 18), Next::Spent { units: 18 });
    // From place 3 on, `sensor` and `lamp` both out lies before the start, and so does set 2.
    assert_eq!(next(3, LARGEST), Next::State { set: 6, units: 17 });
    // Eight choices; the models 1, 5 and 7 are each beaten by 6 with 6 units.
    assert_eq!(next(4, LARGEST), Next::None { units: 26 });
    assert_eq!(next(4, 26), Next::None { units: 26 });
    assert_eq!(next(4, 25), Next::Spent { units: 25 });
    assert_eq!(next(7, LARGEST), Next::None { units: 10 });
    assert_eq!(next(8, 0), Next::None { units: 0 });
}

#[test]
fn file_a_with_one_class() {
    assert_eq!(states(ONE_CLASS), [6, 1, 5]);
}

#[test]
fn file_a_in_the_other_order() {
    // There `lamp` is atom 0 and `sensor` atom 1.
    assert_eq!(states(OTHER_ORDER), [2, 6]);
}

#[test]
fn file_a_with_dark_fixed() {
    assert_eq!(states(DARK_FIXED), [6, 1]);
    let fixed = rules(DARK_FIXED);
    let verdict = |budget| preferred(&fixed, 1, budget).unwrap();
    assert_eq!(verdict(LARGEST), Verdict::Yes { units: 10 });
    assert_eq!(verdict(10), Verdict::Yes { units: 10 });
    assert_eq!(verdict(9), Verdict::Spent { units: 9 });
}

#[test]
fn the_empty_file() {
    let text = "(vary)\n(fix)\n";
    assert_eq!(states(text), [0]);
    let empty = rules(text);
    assert_eq!(preferred(&empty, 0, 1), Ok(Verdict::Yes { units: 1 }));
    assert_eq!(preferred(&empty, 0, 0), Ok(Verdict::Spent { units: 0 }));
    assert_eq!(
        next_state(&empty, 0, 2),
        Ok(Next::State { set: 0, units: 2 })
    );
    assert_eq!(next_state(&empty, 0, 1), Ok(Next::Spent { units: 1 }));
    assert_eq!(next_state(&empty, 1, 0), Ok(Next::None { units: 0 }));
    assert_eq!(printed(text), "(state)\n(total 1)\n");
    assert_eq!(translated_sums(text), (2, 4, 7));
}

#[test]
fn three_empty_lists() {
    let text = "(vary)\n(fix)\n(rule (head) (body) (not))\n";
    assert!(states(text).is_empty());
    // The choice of nothing is closed.
    assert_eq!(next_state(&rules(text), 0, 1), Ok(Next::None { units: 1 }));
    assert_eq!(printed(text), "(total 0)\n");
}

#[test]
fn sensor_or_dark() {
    assert_eq!(translated_sums(SENSOR_OR_DARK), (10, 18, 44));
}

/// Steps 1 and 2, and where step 3 begins, of a file with atoms of every role.
#[test]
fn choice_rules() {
    let text = "(min a)\n(min b)\n(vary v)\n(fix f)\n\
        (rule (head v b f a) (body) (not))\n\
        (rule (head) (body f b v a) (not))\n\
        (rule (head a) (body b) (not))\n\
        (rule (head v) (body f) (not))\n\
        (rule (head) (body) (not))\n";
    let expected = "(rule (head N.a) (body) (not a))\n\
        (rule (head N.b) (body) (not b))\n\
        (rule (head v) (body) (not N.v))\n\
        (rule (head N.v) (body) (not v))\n\
        (rule (head f) (body) (not N.f))\n\
        (rule (head N.f) (body) (not f))\n\
        (rule (head b a) (body) (not v f))\n\
        (rule (head) (body b a) (not N.f N.v))\n\
        (rule (head a) (body b) (not))\n\
        (rule (head) (body) (not v N.f))\n\
        (rule (head) (body) (not))\n\
        (rule (head S.v S.b S.a U) (body) (not f))\n";
    let delivered = String::from_utf8(programs::translate(text.as_bytes())).unwrap();
    let (_, rules) = delivered.split_once('\n').unwrap();
    assert!(rules.starts_with(expected), "{rules}");
}

#[test]
fn stable_sets_and_units() {
    let text = "(atoms a b c)\n(rule (head a b) (body) (not c))\n(rule (head b) (body a) (not))\n";
    let marked = rules(text);
    let verdict = |set, budget| stable(&marked, set, budget).unwrap();
    let beaten = |set, units| Verdict::Beaten { set, units };
    assert_eq!(verdict(2, LARGEST), Verdict::Yes { units: 4 });
    assert_eq!(verdict(2, 4), Verdict::Yes { units: 4 });
    assert_eq!(verdict(2, 3), Verdict::Spent { units: 3 });
    assert_eq!(verdict(3, LARGEST), beaten(2, 5));
    assert_eq!(verdict(3, 4), Verdict::Spent { units: 4 });
    assert_eq!(verdict(4, LARGEST), beaten(0, 4));
    assert_eq!(verdict(4, 3), Verdict::Spent { units: 3 });
    assert_eq!(verdict(0, 0), Verdict::Broken { rule: 0 });
    assert_eq!(verdict(1, 0), Verdict::Broken { rule: 1 });
}

/// The final choice M is neither visited nor counted: M empty takes n units.
#[test]
fn the_empty_set_is_stable() {
    for (atoms, text) in ["(atoms)\n", "(atoms a)\n", "(atoms a b)\n"]
        .iter()
        .enumerate()
    {
        let units = atoms as u64;
        let verdict = |budget| stable(&rules(text), 0, budget).unwrap();
        assert_eq!(verdict(LARGEST), Verdict::Yes { units });
        assert_eq!(verdict(units), Verdict::Yes { units });
        if units > 0 {
            let units = units - 1;
            assert_eq!(verdict(units), Verdict::Spent { units });
        }
    }
}

/// The stable sets of file A's translation, cut to the file's three atoms, are its states.
#[test]
fn the_translation_of_small_files_pairs() {
    use reference::{reader, translator, verdicts};
    for text in [FILE_A, ONE_CLASS, OTHER_ORDER, DARK_FIXED, SENSOR_OR_DARK] {
        let (file, names) = reader::read(text.as_bytes()).unwrap();
        let (plain, _) = translator::translate(&file, &names);
        let mut cut: Vec<u64> = (0..1u64 << plain.atoms)
            .filter(|&set| matches!(verdicts::stable(&plain, set, LARGEST), Verdict::Yes { .. }))
            .map(|set| set % (1 << file.atoms))
            .collect();
        cut.sort_unstable_by_key(|&set| verdicts::place(file.atoms, set));
        assert_eq!(cut, states(text), "{text}");
    }
}

#[test]
fn a_listing_that_is_spent() {
    let spent = |budget| String::from_utf8(programs::states_with(ONE_CLASS.as_bytes(), budget));
    let whole = "(state lamp dark)\n(state sensor)\n(state sensor dark)\n(total 3)\n";
    assert_eq!(spent(LARGEST).unwrap(), whole);
    let rules = rules(ONE_CLASS);
    let mut needed = Vec::new();
    for start in [0, 4, 5, 6] {
        match next_state(&rules, start, LARGEST).unwrap() {
            Next::State { units, .. } | Next::None { units } => needed.push(units),
            Next::Spent { .. } => panic!("spent"),
        }
    }
    let most = *needed.iter().max().unwrap();
    assert_eq!(spent(most).unwrap(), whole);
    assert!(spent(most - 1).unwrap().ends_with("(spent)\n"));
    assert_eq!(spent(0).unwrap(), "(spent)\n");
}
