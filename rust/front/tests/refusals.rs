//! Each refusal as it is told: its words, its line, and what `check` says besides.

mod common;

use common::{example, fixed, front, names, ran, rigtomato, run, varying, Json, Temporary};

const FORM: &str = "a form or the order of lines is broken, or a needed line is missing";

fn many(what: &str, count: usize) -> String {
    what.repeat(count)
}

/// Number, line, words, the line as it is shown, what `check` says, and a text that is so refused.
fn refusals() -> Vec<(u64, u64, &'static str, String, &'static str, String)> {
    let rule = "(rule (head a) (body) (not))";
    let none = String::new;
    vec![
        (
            1,
            0,
            "the text is too long",
            none(),
            "917,504 bytes",
            many("a", 917_505),
        ),
        (2, 1, FORM, none(), "ends too early", none()),
        (
            2,
            2,
            FORM,
            none(),
            "ends too early",
            "(min a)\n".to_string(),
        ),
        (
            2,
            1,
            FORM,
            "(vary a) (fix)".to_string(),
            "(rule (head a b) (body c) (not))\neach on a line of its own.",
            "(vary a) (fix)\n".to_string(),
        ),
        (
            2,
            4,
            FORM,
            "(rule (head a) (body)  ; two lines".to_string(),
            "a comment goes from ; to the",
            "(vary a)\n\n(fix)\n(rule (head a) (body)  ; two lines\n(not))\n".to_string(),
        ),
        (
            2,
            3,
            FORM,
            none(),
            "ends too early",
            "; a comment\n\n".to_string(),
        ),
        (
            2,
            3,
            FORM,
            "; the end".to_string(),
            "the last one too",
            "(vary)\n(fix)\n; the end".to_string(),
        ),
        (
            2,
            2,
            FORM,
            "(fix)".to_string(),
            "the last one too",
            "(vary)\n(fix)".to_string(),
        ),
        (
            2,
            1,
            FORM,
            "(vary\\x09\\xc3\\xa9)\\x0d".to_string(),
            "A tab or a carriage return is no space",
            "(vary\t\u{e9})\r\n(fix)\r\n".to_string(),
        ),
        (
            2,
            3,
            FORM,
            "(rule (head) (body) (not))\\x0d".to_string(),
            "a line feed (byte 10) alone",
            "(vary) ;\t\r\n(fix)\n(rule (head) (body) (not))\r\n".to_string(),
        ),
        (
            2,
            3,
            FORM,
            "(vary) ; \\x09".to_string(),
            "(min ..) lines",
            "(vary)\n(fix)\n(vary) ; \t\n".to_string(),
        ),
        (
            2,
            2,
            FORM,
            "(rules)".to_string(),
            "(rule (head a b) (body c) (not d))",
            "(atoms a)\n(rules)\n".to_string(),
        ),
        (
            2,
            4,
            FORM,
            "(fix)".to_string(),
            "A plain program has one (atoms ..) line",
            "; plain\n\n ( atoms a )\n(fix)\n".to_string(),
        ),
        (
            3,
            1,
            "a name is too long, or is a generated one in a preference file",
            "(min N.a)".to_string(),
            "at most 24 bytes",
            "(min N.a)\n".to_string(),
        ),
        (
            4,
            2,
            "an atom is declared twice",
            "(vary a)".to_string(),
            "On the (min ..), (vary ..) and (fix ..) lines each atom stands once.",
            "(min a)\n(vary a)\n".to_string(),
        ),
        (
            5,
            3,
            "an atom is not declared",
            rule.to_string(),
            "must stand on one of the (min ..), (vary ..) and (fix ..) lines.",
            format!("(vary)\n(fix)\n{rule}\n"),
        ),
        (
            5,
            2,
            "an atom is not declared",
            rule.to_string(),
            "must stand on the (atoms ..) line",
            format!("(atoms b)\n{rule}\n"),
        ),
        (
            5,
            6,
            "an atom is not declared",
            format!("  {rule}  ; a typed line"),
            "must stand on the (atoms ..) line",
            format!("; plain\n\n( atoms  b )\n;\n\n  {rule}  ; a typed line\n"),
        ),
        (
            6,
            3,
            "an atom stands twice in one list of a rule",
            "(rule (head) (body a a) (not))".to_string(),
            "at most once in each of a rule's lists",
            "(vary a)\n(fix)\n(rule (head) (body a a) (not))\n".to_string(),
        ),
        (
            7,
            17,
            "there are too many classes, atoms, rules or atom occurrences",
            "(min)".to_string(),
            "at most 16 classes, 256 atoms, 1,024 rules and 8,192 atom places",
            many("(min)\n", 17),
        ),
        (
            7,
            1,
            "there are too many classes, atoms, rules or atom occurrences",
            format!("(atoms{})", names(1_101))[..200].to_string(),
            "at most 1,100 atoms, 4,200 rules and 24,000 atom places",
            format!("(atoms{})\n", names(1_101)),
        ),
        (
            2,
            3,
            FORM,
            "(when a)".to_string(),
            "It ends with (then d)) and nothing behind",
            "(vary a)\n(fix)\n(when a)\n".to_string(),
        ),
        (
            2,
            2,
            FORM,
            "(when a (then a))".to_string(),
            "A condition stands behind the (fix ..) line",
            "(vary a)\n(when a (then a))\n(fix)\n".to_string(),
        ),
        (
            2,
            2,
            FORM,
            "(when a (then a))".to_string(),
            "Conditions stand in preference files alone.",
            "(atoms a)\n(when a (then a))\n".to_string(),
        ),
        (
            2,
            3,
            FORM,
            "(rule a)".to_string(),
            "Among the rules conditions may stand",
            "(vary a)\n(fix)\n(rule a)\n".to_string(),
        ),
        (
            17,
            3,
            "no condition stands between `(when` and its `(then ..)`",
            "(when a or (b and) (then a)) ; typed".to_string(),
            "Behind `and` may stand a name, `not` or an opening bracket, but there stands `)`.\n\
             Names are joined there by not, and, or",
            "(vary a b)\n(fix)\n(when a or (b and) (then a)) ; typed\n".to_string(),
        ),
        (
            18,
            3,
            "a condition's brackets are deeper than 32",
            format!("(when {}a{} (then a))", many("(", 33), many(")", 33)),
            "at most 32 deep",
            format!(
                "(vary a)\n(fix)\n(when {}a{} (then a))\n",
                many("(", 33),
                many(")", 33)
            ),
        ),
        (
            3,
            3,
            "a name is too long, or is a generated one in a preference file",
            "(when N.T.1 (then a))".to_string(),
            "at most 24 bytes",
            "(vary a)\n(fix)\n(when N.T.1 (then a))\n".to_string(),
        ),
        (
            4,
            4,
            "an atom is declared twice",
            "(when a and b (then a))".to_string(),
            "one that this line gets is declared",
            "(vary a b T.2)\n(fix)\n(when not a (then b))\n(when a and b (then a))\n".to_string(),
        ),
        (
            5,
            4,
            "an atom is not declared",
            "(when T.1 (then a))".to_string(),
            "Each atom of a condition must stand on one of the (min ..), (vary ..) and (fix ..) \
             lines. The atoms T.1, T.2, .. that conditions get are not declared.",
            "(vary a)\n(fix)\n(when not a (then a))\n(when T.1 (then a))\n".to_string(),
        ),
        (
            7,
            3,
            "there are too many classes, atoms, rules or atom occurrences",
            format!("(when {}a (then a))", many("not ", 256))[..200].to_string(),
            "an atom for each not, and, or",
            format!("(vary a)\n(fix)\n(when {}a (then a))\n", many("not ", 256)),
        ),
        (
            8,
            3,
            "a preference file has a filled `not` list",
            "(rule (head) (body) (not a))".to_string(),
            "an empty list, (not)",
            "(vary)\n(fix a)\n(rule (head) (body) (not a))\n".to_string(),
        ),
    ]
}

/// What standard error has for a refusal.
fn message(number: u64, line: u64, words: &str, shown: &str) -> String {
    let place = match line {
        0 => String::new(),
        line => format!(":{line}"),
    };
    let shown = match shown {
        "" => String::new(),
        line => format!("{line}\n"),
    };
    format!("standard-input{place}: {words} (refusal {number})\n{shown}")
}

#[test]
fn of_the_text() {
    for (number, line, words, shown, help, text) in refusals() {
        let message = message(number, line, words, &shown);
        let printed = format!("(refused {number} {line})\n");
        for command in [
            "states -",
            "translate -",
            "translate - --asp",
            "canonical -",
            "solve -",
        ] {
            assert_eq!(rigtomato(command, &text), ran(1, &printed, &message));
        }
        for command in ["preferred -", "stable - a"] {
            assert_eq!(rigtomato(command, &text), ran(1, "", &message));
        }
        for command in ["states - --json", "solve - --json", "preferred - --json"] {
            let refused = rigtomato(command, &text);
            assert_eq!((refused.status, &refused.err), (Some(1), &message));
            let value = Json::line(&refused.out);
            assert_eq!(value.fields(), ["refused"]);
            let value = value.get("refused");
            assert_eq!(value.fields(), ["number", "line", "words"]);
            assert_eq!(value.get("number").number(), number);
            assert_eq!(value.get("line").number(), line);
            assert_eq!(value.get("words").text(), words);
        }
        let check = rigtomato("check -", &text);
        assert_eq!((check.status, check.out.as_str()), (Some(1), ""));
        let explained = check.err.strip_prefix(&message).expect("the message first");
        assert!(explained.contains(help), "{number}: {explained}");
    }
}

#[test]
fn of_the_other_kind() {
    let plain = "(atoms a)\n(rule (head a) (body) (not))\n";
    let words = "this is a plain program, and a preference file is needed";
    for command in ["states -", "translate -", "translate --asp -", "solve -"] {
        let expected = ran(1, "(refused 10 0)\n", &message(10, 0, words, ""));
        assert_eq!(rigtomato(command, plain), expected);
    }
    let preferred = rigtomato("preferred - a", plain);
    assert_eq!(preferred, ran(1, "", &message(10, 0, words, "")));
    let words = "this is a preference file, and a plain program is needed";
    let stable = rigtomato("stable - a", "(vary a)\n(fix)\n");
    assert_eq!(stable, ran(1, "", &message(10, 0, words, "")));
}

#[test]
fn of_many_atoms() {
    let words = "there are over 60 atoms; `solve` lists the states of up to 256";
    let file = varying(61);
    let told = message(11, 0, words, "");
    assert_eq!(
        rigtomato("states -", &file),
        ran(1, "(refused 11 0)\n", &told)
    );
    assert_eq!(rigtomato("preferred - a60", &file), ran(1, "", &told));
    let plain = format!("(atoms{})\n", names(61));
    let told = message(11, 0, "there are over 60 atoms", "");
    assert_eq!(rigtomato("stable -", &plain), ran(1, "", &told));
    assert_eq!(rigtomato("states --first 1 -", &fixed(60)).status, Some(0));
}

/// Only the atoms that stand in rules are counted.
#[test]
fn of_many_declared_atoms() {
    let facts: String = (0..60)
        .map(|i| format!("(rule (head a{i}) (body) (not))\n"))
        .collect();
    let file = |more: &str| format!("(vary{})\n(fix)\n{facts}{more}", names(256));
    let state = format!("(state{})\n(total 1)\n", names(60));
    assert_eq!(rigtomato("states -", &file("")), ran(0, &state, ""));
    let refused = rigtomato("states -", &file("(rule (head a60) (body) (not))\n"));
    assert_eq!(
        (refused.status, refused.out.as_str()),
        (Some(1), "(refused 11 0)\n")
    );
}

/// A file is called what the caller calls it.
#[test]
fn names_of_files() {
    let plain = rigtomato("translate -", "(vary)\n(fix)\n").out;
    let file = Temporary::new("broken.lp", &(plain + "(rule\n"));
    let refused = run(front().args(["check", &file.path]), "");
    assert_eq!(refused.status, Some(1));
    let start = format!("{}:6: {FORM} (refusal 2)\n(rule\n", file.path);
    assert!(refused.err.starts_with(&start), "{}", refused.err);
    let file = run(front().args(["stable", &example("file_a.pref")]), "");
    assert!(file
        .err
        .starts_with(&format!("{}: this is a ", example("file_a.pref"))));
}
