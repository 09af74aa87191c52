//! Document 02, W-203: a preference file's atoms that stand in no rule are checked with the others and
//! then left out of both stores.

mod common;

use common::{accepted, many, refused, rules, states, stores, tautology, translated_sums};
use reference::lent::{self, Accepted};
use reference::programs;
use reference::refusal::{Reason, Refusal};
use reference::verdicts::{Next, Verdict};

/// File A with six more names, one before, between and behind those that stand in a rule.
const CATALOGUE: &str =
    "(min pad1 sensor pad2)\n(min lamp)\n(vary pad3 dark pad4)\n(fix pad5 pad6)\n\
    (rule (head sensor lamp) (body) (not))\n(rule (head dark) (body lamp) (not))\n";

/// The text that the writer gives for the stores of an accepted text.
fn written(text: &str) -> String {
    let (rules, names) = stores(text);
    of_stores(lent::write, &rules, &names)
}

type Texts = fn(&[u16], &[u8], &mut [u8]) -> Result<usize, Reason>;

fn of_stores(call: Texts, rules: &[u16], names: &[u8]) -> String {
    let mut out = vec![0; 100_000];
    let length = call(rules, names, &mut out).expect("stores that fit");
    out.truncate(length);
    String::from_utf8(out).unwrap()
}

fn printed(text: &str) -> String {
    String::from_utf8(programs::states(text.as_bytes())).unwrap()
}

#[test]
fn the_stores_are_those_of_what_remains() {
    assert_eq!(stores(CATALOGUE), stores(common::FILE_A));
    assert_eq!(written(CATALOGUE), common::FILE_A);
    assert_eq!(printed(CATALOGUE), printed(common::FILE_A));
    assert_eq!(
        programs::translate(CATALOGUE.as_bytes()),
        programs::translate(common::FILE_A.as_bytes())
    );
}

/// The example that declares a whole catalogue says what the one without the unused names says.
#[test]
fn the_example() {
    let whole = include_str!("../../../examples/whole_catalogue.pref");
    let part = include_str!("../../../examples/catalogue.pref");
    accepted(part);
    assert_eq!(written(whole), part);
    assert_eq!(printed(whole), "(state 1999_12_lamp 1999_12)\n(total 1)\n");
}

/// An atom's number is its place among those that remain, in declared order and not in that of the
/// rules.
#[test]
fn numbers_move_down() {
    let text = "(min a b c)\n(vary d e)\n(fix f g)\n(rule (head g c) (body e) (not))\n";
    let (rules, names) = stores(text);
    assert_eq!(rules, [1, 3, 1, 1, 1, 17, 18, 2, 1, 0, 2, 0, 1]);
    assert_eq!(names, b"\x01c\x01e\x01g");
    let expected = "(min c)\n(vary e)\n(fix g)\n(rule (head g c) (body e) (not))\n";
    assert_eq!(written(text), expected);
}

/// A head or a body is enough, and so is a rule that holds in every set.
#[test]
fn which_atoms_remain() {
    accepted("(min)\n(vary a)\n(fix)\n(rule (head a) (body) (not))\n");
    accepted("(min)\n(vary)\n(fix a)\n(rule (head) (body a) (not))\n");
    accepted("(min a)\n(vary)\n(fix)\n(rule (head a) (body a) (not))\n");
}

/// An unused varying atom does not double the list, and an unused fixed one does not either.
#[test]
fn each_state_once() {
    let rule = "(rule (head a) (body) (not))\n";
    for declared in [
        "(vary a)\n(fix)\n",
        "(vary a b)\n(fix)\n",
        "(vary b a c)\n(fix d e)\n",
        "(min b)\n(vary a)\n(fix c)\n",
    ] {
        let text = format!("{declared}{rule}");
        assert_eq!(printed(&text), "(state a)\n(total 1)\n");
        assert_eq!(states(&text), [1]);
    }
}

#[test]
fn unused_names_are_checked() {
    let rule = "(rule (head a) (body) (not))\n";
    let file = |min: &str, vary: &str, fix: &str| {
        format!("(min{min})\n(vary{vary})\n(fix{fix})\n{rule}").into_bytes()
    };
    let long = format!(" {}", "b".repeat(25));
    assert_eq!(refused(&file(&long, " a", "")), (3, 1));
    assert_eq!(refused(&file("", &format!(" a{long}"), "")), (3, 2));
    assert_eq!(refused(&file("", " a", &long)), (3, 3));
    assert_eq!(refused(&file(" a", "", " N.b")), (3, 3));
    assert_eq!(refused(&file(" a", " B", "")), (2, 2));
    assert_eq!(refused(&file(" b b", " a", "")), (4, 1));
    assert_eq!(refused(&file(" b", " a b", "")), (4, 2));
    assert_eq!(refused(&file(" b", " a", " c b")), (4, 3));
    // An undeclared atom, with an unused one beside it.
    assert_eq!(
        refused(b"(vary a b)\n(fix)\n(rule (head c) (body) (not))\n"),
        (5, 3)
    );
}

#[test]
fn unused_names_count_toward_the_limit() {
    let rule = "(rule (head a) (body) (not))\n";
    let file = |varying: usize, fixed: usize| {
        let (varying, fixed) = (many("v", varying), many("f", fixed));
        format!("(min a)\n(vary{varying})\n(fix{fixed})\n{rule}")
    };
    for (varying, fixed) in [(255, 0), (0, 255), (100, 155)] {
        assert_eq!(rules(&file(varying, fixed)), [1, 1, 1, 1, 1, 1, 0, 0, 0]);
    }
    assert_eq!(refused(file(256, 0).as_bytes()), (7, 2));
    assert_eq!(refused(file(255, 1).as_bytes()), (7, 3));
    // Declared twice counts before the limit.
    let twice = format!("(min a)\n(vary{} v0)\n(fix)\n{rule}", many("v", 255));
    assert_eq!(refused(twice.as_bytes()), (4, 2));
}

#[test]
fn an_emptied_class_stays() {
    let text = "(min a)\n(min b c)\n(min d)\n(vary)\n(fix)\n(rule (head a d) (body) (not))\n";
    let expected = "(min a)\n(min)\n(min d)\n(vary)\n(fix)\n(rule (head a d) (body) (not))\n";
    assert_eq!(written(text), expected);
    assert_eq!(rules(text), [1, 2, 3, 1, 1, 3, 2, 0, 0, 0, 1]);
    // n = p = 2, k = 3, r = 1, L = 2.
    assert_eq!(translated_sums(text), (13, 26, 69));
    let sixteen: String = (0..16).map(|i| format!("(min a{i})\n")).collect();
    let emptied = "(min)\n".repeat(16) + "(vary)\n(fix)\n";
    assert_eq!(written(&format!("{sixteen}(vary)\n(fix)\n")), emptied);
}

#[test]
fn a_file_whose_rules_have_no_atom() {
    for (rules, states) in [
        ("", "(state)\n(total 1)\n"),
        ("(rule (head) (body) (not))\n", "(total 0)\n"),
    ] {
        let text = format!("(min a b)\n(vary c)\n(fix d)\n{rules}");
        assert_eq!(written(&text), format!("(min)\n(vary)\n(fix)\n{rules}"));
        assert_eq!(stores(&text).1, b"");
        assert_eq!(printed(&text), states);
    }
}

#[test]
fn a_plain_program_keeps_its_atoms() {
    accepted("(atoms a b N.c U)\n");
    accepted("(atoms a b c)\n(rule (head b) (body) (not))\n");
    let plain = rules("(atoms a b c)\n(rule (head b) (body) (not))\n");
    assert_eq!(plain, [0, 3, 0, 1, 1, 0, 0, 1]);
    assert_eq!(lent::stable(&plain, 2, 9), Ok(Verdict::Yes { units: 4 }));
    assert_eq!(lent::stable(&plain, 8, 9), Err(Reason::SetTooLarge));
}

/// Four atoms: `a` and `v`, which no rule has, `b` in a rule, `f`, which no rule has.
const HANDED_IN: (&[u16], &[u8]) = (
    &[1, 4, 2, 1, 1, 2, 17, 18, 1, 0, 0, 1],
    b"\x01a\x01b\x01v\x01f",
);

#[test]
fn stores_handed_in_are_taken_as_they_stand() {
    let (rules, names) = HANDED_IN;
    let text = of_stores(lent::write, rules, names);
    let expected = "(min a)\n(min b)\n(vary v)\n(fix f)\n(rule (head b) (body) (not))\n";
    assert_eq!(text, expected);
    let delivered = of_stores(lent::translate, rules, names);
    let declared = "(atoms a b v f N.a N.b N.v N.f S.a S.b S.v D.a D.b E.0 E.1 E.2 U)\n";
    assert!(delivered.starts_with(declared), "{delivered}");
    let yes = |set| {
        matches!(
            lent::preferred(rules, set, 1 << 40),
            Ok(Verdict::Yes { .. })
        )
    };
    let preferred: Vec<u64> = (0..16).filter(|&set| yes(set)).collect();
    assert_eq!(preferred, [2, 6, 10, 14]);
    assert_eq!(lent::preferred(rules, 16, 9), Err(Reason::SetTooLarge));
    assert_eq!(lent::place(rules, 14), Ok(7));
    let next = |start| lent::next_state(rules, start, 1 << 40);
    assert!(matches!(next(5), Ok(Next::State { set: 10, .. })));
    assert!(matches!(next(8), Ok(Next::None { .. })));
    // Read again, it is the store without its unused atoms.
    assert_eq!(stores(&text).0, [1, 1, 2, 1, 2, 1, 0, 0, 0]);
    assert_eq!(stores(&text).1, b"\x01b");
}

/// 60 atoms in rules are listed, however many are declared; 61 are not.
#[test]
fn sixty_atoms_by_what_remains() {
    let file = |used: usize, unused: usize| {
        let (used, unused) = (many("a", used), many("b", unused));
        let facts: String = used
            .split_whitespace()
            .map(|name| format!("(rule (head {name}) (body) (not))\n"))
            .collect();
        format!("(vary{unused}{used})\n(fix)\n{facts}")
    };
    let all = format!("(state{})\n(total 1)\n", many("a", 60));
    for unused in [0, 1, 196] {
        assert_eq!(printed(&file(60, unused)), all);
    }
    for unused in [0, 1, 195] {
        assert_eq!(printed(&file(61, unused)), "(refused 11 0)\n");
    }
}

/// Refusal 9 asks only for the room of what remains, and what lies past it keeps its content.
#[test]
fn outputs_by_what_remains() {
    let names = many("catalogue_", 200);
    let text = format!("(min{names})\n(vary a)\n(fix)\n{}", tautology(" a"));
    let (words, bytes) = stores(&text);
    assert_eq!((words.len(), bytes.len()), (4 + 1 + 3 + 2, 2));
    let short = Err(Refusal::without_line(Reason::OutputShort));
    for (w, b) in [(0, 0), (1, 0), (0, 1), (400, 3_000)] {
        let mut lent_words = vec![7u16; words.len() + w];
        let mut lent_bytes = vec![7u8; bytes.len() + b];
        let whole = Accepted {
            words: words.len(),
            bytes: bytes.len(),
        };
        let read = lent::read(text.as_bytes(), &mut lent_words, &mut lent_bytes);
        assert_eq!(read, Ok(whole));
        assert!(lent_words.starts_with(&words) && lent_bytes.starts_with(&bytes));
        assert!(lent_words[words.len()..].iter().all(|word| *word == 7));
        assert!(lent_bytes[bytes.len()..].iter().all(|byte| *byte == 7));
    }
    for (w, b) in [(1, 0), (0, 1), (1, 1)] {
        let mut lent_words = vec![7u16; words.len() - w];
        let mut lent_bytes = vec![7u8; bytes.len() - b];
        let read = lent::read(text.as_bytes(), &mut lent_words, &mut lent_bytes);
        assert_eq!(read, short);
        assert!(lent_words.iter().all(|word| *word == 7));
        assert!(lent_bytes.iter().all(|byte| *byte == 7));
    }
}
