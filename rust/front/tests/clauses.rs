//! `clauses`: the kit of clause files, its refusals as they are told, and what takes its output.

mod common;

use common::{front, ran, rigtomato, run, run_bytes, stored, Temporary};
use compare::clause_kit::cases;

const BROKEN: &str =
    "the header, a clause or a line's end is broken, or the count of clauses differs";
const LIMIT: &str = "there are too many classes, atoms, rules or atom occurrences";

#[test]
fn the_kit() {
    for case in cases() {
        let (status, out, err) = run_bytes(front().args(["clauses", "-"]), &case.text);
        match case.written {
            Some(expected) => {
                assert_eq!((status, out), (Some(0), expected), "{}", case.name);
                assert!(err.is_empty(), "{}", case.name);
            }
            None => {
                let (number, line) = case.refused;
                let printed = format!("(refused {number} {line})\n").into_bytes();
                assert_eq!((status, out), (Some(1), printed), "{}", case.name);
                let err = String::from_utf8_lossy(&err).into_owned();
                let told = err.lines().next().expect("a message");
                assert!(told.ends_with(&format!(" (refusal {number})")), "{told}");
            }
        }
    }
}

/// Number, line, words, the line as it is shown, a part of what is said besides, and a text.
#[test]
fn refusals() {
    let long = "c\n".repeat(458_753);
    for (number, line, words, shown, help, text) in [
        (
            1,
            0,
            "the text is too long",
            "",
            "917,504 bytes",
            long.as_str(),
        ),
        (
            7,
            1,
            LIMIT,
            "p cnf 257 1",
            "256 atoms, 1,024 clauses and 8,192",
            "p cnf 257 1\n",
        ),
        (
            15,
            1,
            BROKEN,
            "p cnf 1",
            "p cnf ATOMS CLAUSES",
            "p cnf 1\n1 0\n",
        ),
        (15, 1, BROKEN, "", "ends too early", ""),
        (15, 2, BROKEN, "", "ends too early", "p cnf 1 1\n"),
        (15, 2, BROKEN, "1 0", "the last one too", "p cnf 1 1\n1 0"),
        (15, 2, BROKEN, "1\\x090", "not tabs", "p cnf 1 1\n1\t0\n"),
        (
            15,
            1,
            BROKEN,
            "(vary)",
            "p cnf ATOMS CLAUSES",
            "(vary)\n(fix)\n",
        ),
        (
            16,
            3,
            "a literal is beyond the header's atoms",
            "-2 0",
            "the header's first number",
            "p cnf 1 1\n1\n-2 0\n",
        ),
    ] {
        let refused = rigtomato("clauses -", text);
        let printed = format!("(refused {number} {line})\n");
        assert_eq!((refused.status, refused.out), (Some(1), printed));
        let place = match line {
            0 => String::new(),
            line => format!(":{line}"),
        };
        let shown = match shown {
            "" => String::new(),
            shown => format!("{shown}\n"),
        };
        let message = format!("standard-input{place}: {words} (refusal {number})\n{shown}");
        let besides = refused.err.strip_prefix(&message);
        let besides = besides.unwrap_or_else(|| panic!("{}", refused.err));
        assert!(besides.contains(help), "{besides}");
    }
}

/// Its output goes, by way of a file, wherever a preference file does.
#[test]
fn what_takes_its_output() {
    let text = "c one of 9 and 3, one of 4 and 7\np cnf 9 4\n9 3 0\n4 7 0\n-9 -3 0\n-9 -4 0\n";
    let written = rigtomato("clauses -", text);
    let expected = "(min v3 v4 v7 v9)\n(vary)\n(fix)\n\
        (rule (head v9 v3) (body) (not))\n(rule (head v4 v7) (body) (not))\n\
        (rule (head) (body v9 v3) (not))\n(rule (head) (body v9 v4) (not))\n";
    assert_eq!(written, ran(0, expected, ""));
    let file = Temporary::new("clauses.pref", &written.out);
    let on_file = |words: &[&str], atoms: &[&str]| {
        let mut command = front();
        run(command.args(words).arg(&file.path).args(atoms), "")
    };
    let states = "(state v7 v9)\n(state v3 v7)\n(state v3 v4)\n(total 3)\n";
    assert_eq!(on_file(&["states"], &[]), ran(0, states, ""));
    let check = on_file(&["check"], &[]);
    let counts = "atoms         4 of 256    4 minimised in 1 class, 0 varying, 0 fixed\n";
    assert_eq!(check.status, Some(0));
    assert!(check.out.contains(counts) && !check.out.contains("left out"));
    let yes = on_file(&["preferred"], &["v7", "v9"]);
    assert!(yes.out.starts_with("yes, "), "{}", yes.out);
    let beaten = on_file(&["preferred"], &["v3", "v4", "v7"]);
    assert!(
        beaten.out.starts_with("beaten by: v3 v7 ("),
        "{}",
        beaten.out
    );
    let broken = on_file(&["preferred"], &["v4", "v9"]);
    let line = "no model: line 7 is broken: (rule (head) (body v9 v4) (not))\n";
    assert_eq!(broken, ran(0, line, ""));
    let translated = on_file(&["translate"], &[]);
    assert_eq!(translated.status, Some(0));
    assert!(translated.out.starts_with("(atoms v3 v4 v7 v9 N.v3 "));
    assert_eq!(on_file(&["translate", "--asp"], &[]).status, Some(0));
    let models = "holds(\"v3\") holds(\"v7\")\nholds(\"v9\") holds(\"v7\")\n\
        holds(\"v3\") holds(\"v4\")\nSATISFIABLE\n";
    let models = Temporary::new("clauses.models", models);
    let mut solve = front();
    solve
        .args([
            "solve",
            "--check",
            &file.path,
            "--solver",
            &stored("solver"),
        ])
        .env("STAND_IN_OUTPUT", &models.path)
        .env("STAND_IN_STATUS", "30");
    let checked = "checked: 3 of 3 states, 0 spent\n";
    assert_eq!(run(&mut solve, ""), ran(0, states, checked));
}

/// Whoever hands a clause file to another command is told of this one by `check`.
#[test]
fn a_clause_file_elsewhere() {
    let text = "c\np cnf 1 1\n1 0\n";
    let states = rigtomato("states -", text);
    assert_eq!(
        (states.status, states.out.as_str()),
        (Some(1), "(refused 2 1)\n")
    );
    let check = rigtomato("check -", text);
    assert_eq!((check.status, check.out.as_str()), (Some(1), ""));
    assert!(
        check.err.contains("rigtomato clauses FILE"),
        "{}",
        check.err
    );
}

#[test]
fn wrong_calls() {
    for words in ["clauses", "clauses a b", "clauses a --json"] {
        let wrong = rigtomato(words, "");
        assert_eq!((wrong.status, wrong.out.as_str()), (Some(2), ""), "{words}");
        assert!(
            wrong.err.contains("usage: rigtomato clauses FILE"),
            "{words}"
        );
    }
}
