//! Files with conditions: each command takes them, and goes by the rules that they give.

mod common;

use common::{front, ran, rigtomato, run, stored, Json, Temporary};

/// The first line that gives rules is the fifth; the condition gives five of them.
const TYPED: &str = "\
; what a planner types
(min bad)
(vary visit pad)   ; pad stands nowhere
(fix lit)

  ( when visit and not lit (then bad) )  ; a lamp that works is lit
(rule (head visit) (body) (not))
";

/// The same as the engine writes it.
const WRITTEN: &str = "(min bad)\n(vary visit T.1 T.2)\n(fix lit)\n\
    (rule (head T.1) (body visit T.2) (not))\n\
    (rule (head visit) (body T.1) (not))\n\
    (rule (head T.2) (body T.1) (not))\n\
    (rule (head T.2 lit) (body) (not))\n\
    (rule (head) (body T.2 lit) (not))\n\
    (rule (head bad) (body T.1) (not))\n\
    (rule (head visit) (body) (not))\n";

#[test]
fn it_says_what_its_rules_say() {
    for words in [
        "states -",
        "states --json -",
        "states --first 1 -",
        "translate -",
        "translate --asp -",
        "canonical -",
        "preferred - visit lit",
        "preferred - bad visit T.1 T.2",
        "preferred --json - visit lit bad",
    ] {
        assert_eq!(
            rigtomato(words, TYPED),
            rigtomato(words, WRITTEN),
            "{words}"
        );
    }
    let states = "(state visit lit)\n(state bad visit T.1 T.2)\n(total 2)\n";
    assert_eq!(rigtomato("states -", TYPED), ran(0, states, ""));
    assert_eq!(
        rigtomato("preferred - visit lit", TYPED)
            .out
            .split(',')
            .next(),
        Some("yes")
    );
}

#[test]
fn for_solvers() {
    let asp = rigtomato("translate --asp -", TYPED).out;
    for term in ["holds(\"T.1\")", "n(\"T.1\")", "s(\"T.2\")"] {
        assert!(asp.contains(term), "{term}: {asp}");
    }
    let models = "holds(\"lit\") holds(\"visit\")\n\
        holds(\"bad\") holds(\"visit\") holds(\"T.1\") holds(\"T.2\")\nSATISFIABLE\n";
    let file = Temporary::new("conditions.pref", TYPED);
    let models = Temporary::new("conditions.models", models);
    let mut command = front();
    command
        .args(["solve", "--check", &file.path])
        .args(["--solver", &stored("solver")])
        .env("STAND_IN_OUTPUT", &models.path)
        .env("STAND_IN_STATUS", "30");
    let solved = run(&mut command, "");
    assert_eq!(solved.out, rigtomato("states -", TYPED).out);
    assert_eq!(solved.err, "checked: 2 of 2 states, 0 spent\n");
}

#[test]
fn what_check_counts() {
    let expected = "accepted: a preference file\n\
        atoms         5 of 256    1 minimised in 1 class, 3 varying, 1 fixed\n\
        left out      1           declared, but in no rule: pad\n\
        conditions    1           with 2 connectives, the atoms T.1 and T.2\n\
        rules         7 of 1,024\n\
        occurrences  14 of 8,192\n";
    assert_eq!(rigtomato("check -", TYPED), ran(0, expected, ""));
    let conditions = |lines: &str| {
        let check = rigtomato("check -", &format!("(vary a b)\n(fix)\n{lines}"));
        let row = check
            .out
            .lines()
            .find(|line| line.starts_with("conditions"));
        row.map(str::to_string)
    };
    assert_eq!(conditions("(rule (head a) (body b) (not))\n"), None);
    assert_eq!(
        conditions("(when a (then b))\n(when (b) (then a))\n").as_deref(),
        Some("conditions    2           without a connective")
    );
    assert_eq!(
        conditions("(when not a (then b))\n").as_deref(),
        Some("conditions    1           with 1 connective, the atom T.1")
    );
    assert_eq!(
        conditions("(when not a and b (then b))\n(when a or b (then b))\n").as_deref(),
        Some("conditions    2           with 3 connectives, the atoms T.1 to T.3")
    );
}

/// The line as it is typed, and the rule of it that is broken.
#[test]
fn broken_conditions() {
    let condition = "( when visit and not lit (then bad) )";
    for (atoms, rule, made) in [
        ("visit T.2", 0, "(rule (head T.1) (body visit T.2) (not))"),
        ("T.1 T.2", 1, "(rule (head visit) (body T.1) (not))"),
        ("visit", 3, "(rule (head T.2 lit) (body) (not))"),
        ("visit T.1 T.2", 5, "(rule (head bad) (body T.1) (not))"),
    ] {
        let broken = format!("no model: line 6 is broken: {condition}, by {made}\n");
        let answer = rigtomato(&format!("preferred - {atoms}"), TYPED);
        assert_eq!(answer, ran(0, &broken, ""));
        let json = Json::line(&rigtomato(&format!("preferred --json - {atoms}"), TYPED).out);
        assert_eq!(json.fields(), ["verdict", "rule", "line", "text", "made"]);
        assert_eq!(json.get("rule").number(), rule);
        assert_eq!(json.get("line").number(), 6);
        assert_eq!(json.get("text").text(), condition);
        assert_eq!(json.get("made").text(), made);
    }
    // A rule behind it is counted with those of the condition.
    let json = Json::line(&rigtomato("preferred --json - lit", TYPED).out);
    assert_eq!(json.fields(), ["verdict", "rule", "line", "text"]);
    assert_eq!(json.get("rule").number(), 6);
    assert_eq!(json.get("line").number(), 7);
}

#[test]
fn atoms_asked_for() {
    let unusable = |words: &str| ran(2, "", &format!("rigtomato: standard-input: {words}\n"));
    assert_eq!(
        rigtomato("preferred - pad", TYPED),
        unusable("pad is declared, but it stands in no rule, so it does not belong to the program")
    );
    assert_eq!(
        rigtomato("preferred - T.3", TYPED),
        unusable("no atom is called T.3; the nearest is T.1")
    );
}

/// Over 60 atoms with those that conditions get.
#[test]
fn sixty_atoms() {
    let facts: String = (0..59)
        .map(|i| format!("(rule (head a{i}) (body) (not))\n"))
        .collect();
    let names = common::names(59);
    let file = |line: &str| format!("(vary{names})\n(fix)\n{facts}{line}\n");
    let states = rigtomato("states -", &file("(when a0 and a1 (then a2))"));
    assert_eq!(
        states,
        ran(0, &format!("(state{names} T.1)\n(total 1)\n"), "")
    );
    let states = rigtomato("states -", &file("(when not a0 or a1 (then a2))"));
    assert_eq!(
        (states.status, &states.out[..]),
        (Some(1), "(refused 11 0)\n")
    );
}
