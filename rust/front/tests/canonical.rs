//! `canonical`: what it prints of files of either kind, its refusals, and what takes its output.

mod common;

use common::{example, front, ran, rigtomato, run, run_bytes, text_of, Temporary, FILE_A};
use compare::generate::{either, partly_used, Size};
use compare::hand_typed::loosened;
use compare::random::Random;
use reference::canonical::canonical;
use reference::limits::Kind;
use reference::used_atoms::without_unused;
use reference::writer;

#[test]
fn of_both_kinds() {
    let typed = "; file A\n(min sensor)\n(min lamp)\n\n(vary dark pad)\n(fix)\n\
        (rule(head dark)(body lamp)(not)) ; dark\n(rule(head lamp sensor)(body)(not))\n\
        (rule (head sensor lamp) (body) (not))\n";
    assert_eq!(rigtomato("canonical -", typed), ran(0, FILE_A, ""));
    assert_eq!(rigtomato("canonical -", FILE_A), ran(0, FILE_A, ""));
    let plain = "\n( atoms b a N.a )\n(rule (head a b) (body N.a) (not))\n\
        (rule (head) (body) (not a b))\n(rule (head b) (body) (not a))\n";
    let expected = "(atoms b a N.a)\n(rule (head) (body) (not b a))\n\
        (rule (head b) (body) (not a))\n(rule (head b a) (body N.a) (not))\n";
    assert_eq!(rigtomato("canonical -", plain), ran(0, expected, ""));
    // A plain program keeps its atoms.
    assert_eq!(
        rigtomato("canonical -", "(atoms  a b)\n"),
        ran(0, "(atoms a b)\n", "")
    );
    // A translation is sorted too, and its first rule is the one without a head.
    let translation = rigtomato("translate -", FILE_A).out;
    let sorted = rigtomato("canonical -", &translation).out;
    assert_ne!(sorted, translation);
    assert_eq!(sorted.lines().nth(1), Some("(rule (head) (body) (not U))"));
    assert_eq!(rigtomato("canonical -", &sorted), ran(0, &sorted, ""));
}

#[test]
fn of_files() {
    let [whole, part] = ["whole_catalogue.pref", "catalogue.pref"].map(example);
    let [whole, part] = [whole, part].map(|file| run(front().args(["canonical", &file]), ""));
    assert_eq!((whole.status, whole.err.as_str()), (Some(0), ""));
    assert_eq!(whole, part);
    let file = Temporary::new("canonical.pref", &whole.out);
    let again = run(front().args(["canonical", &file.path]), "");
    assert_eq!(again, whole);
    for command in ["states", "check", "translate"] {
        let taken = run(front().args([command, &file.path]), "");
        assert_eq!((taken.status, taken.err.as_str()), (Some(0), ""));
    }
    let states = run(front().args(["states", &file.path]), "");
    assert_eq!(
        states,
        run(front().args(["states", &example("catalogue.pref")]), "")
    );
    let typed = run(
        front().args(["canonical", &example("file_a_typed.pref")]),
        "",
    );
    assert_eq!(typed, ran(0, &text_of(&example("file_a.pref")), ""));
    let inverters = text_of(&example("inverters.pref"));
    let sorted = rigtomato("canonical -", &inverters).out;
    assert_eq!(
        rigtomato("states -", &sorted),
        rigtomato("states -", &inverters)
    );
}

/// What the second implementation says of random files, as the writer writes them and as they are
/// typed.
#[test]
fn random_files() {
    let mut random = Random::new(205);
    for turn in 0..60 {
        let (program, names) = match turn % 2 {
            0 => either(&mut random, Size::SMALL),
            _ => partly_used(&mut random, Size::SMALL),
        };
        let mut text = writer::write(&program, &names);
        if turn % 4 > 1 {
            text = loosened(&mut random, &text);
        }
        let (left, left_names) = match program.kind {
            Kind::Plain => (program, names),
            Kind::Preference => without_unused(&program, &names),
        };
        let expected = writer::write(&canonical(&left), &left_names);
        let (status, out, err) = run_bytes(front().args(["canonical", "-"]), &text);
        assert_eq!((status, err.len()), (Some(0), 0));
        assert!(out == expected, "{}", String::from_utf8_lossy(&text));
    }
}

/// Past 60 atoms, and the most rules.
#[test]
fn large_files() {
    let names: String = (0..256).map(|i| format!(" a{i}")).collect();
    let rule = |i: usize| format!("(rule (head a{}) (body a{}) (not))\n", i % 256, i / 256);
    let typed: String = (0..1_024).rev().map(rule).collect();
    let text = format!("(vary{names})\n(fix)\n{typed}");
    let sorted = rigtomato("canonical -", &text);
    assert_eq!((sorted.status, sorted.out.len()), (Some(0), text.len()));
    let mut rules = sorted.out.lines().skip(2);
    assert_eq!(rules.next(), Some("(rule (head a0) (body a0) (not))"));
    assert_eq!(rules.next(), Some("(rule (head a0) (body a1) (not))"));
    assert_eq!(rules.last(), Some("(rule (head a255) (body a3) (not))"));
}

#[test]
fn refused_files() {
    let refused = rigtomato(
        "canonical -",
        "(vary)\n\n(fix)\n(rule(head a)(body)(not))\n",
    );
    let message = "standard-input:4: an atom is not declared (refusal 5)\n\
        (rule(head a)(body)(not))\n";
    assert_eq!(refused, ran(1, "(refused 5 4)\n", message));
    let clauses = rigtomato("canonical -", "p cnf 1 1\n1 0\n");
    assert_eq!(
        (clauses.status, clauses.out.as_str()),
        (Some(1), "(refused 2 1)\n")
    );
}

#[test]
fn wrong_calls() {
    for words in ["canonical", "canonical a b", "canonical a --json"] {
        let wrong = rigtomato(words, "");
        assert_eq!((wrong.status, wrong.out.as_str()), (Some(2), ""), "{words}");
        assert!(
            wrong.err.contains("usage: rigtomato canonical FILE"),
            "{words}"
        );
    }
    let meant = rigtomato("canonic -", FILE_A).err;
    assert!(meant.starts_with("rigtomato: canonic is no command; canonical is one\n"));
}
