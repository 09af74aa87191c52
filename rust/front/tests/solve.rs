//! `solve` with a stand-in for the solver.

mod common;

use common::{example, front, names, ran, run, stored, tautology, text_of, Json, Ran, Temporary};
use std::process::Command;

const OPTIONS: &str = "--verbose=0 --warn=none";

/// `solve` of a file with a solver that prints this and ends so.
fn solve(file: &str, models: &str, status: &str) -> Command {
    let mut command = front();
    command
        .args(["solve", file, "--solver", &stored("solver")])
        .env("STAND_IN_OUTPUT", models)
        .env("STAND_IN_STATUS", status);
    command
}

fn solved(file: &str, models: &str, status: &str, more: &[&str]) -> Ran {
    run(solve(file, models, status).args(more), "")
}

#[test]
fn states_as_the_engine_lists_them() {
    for name in ["file_a", "inverters"] {
        let file = example(&format!("{name}.pref"));
        let models = stored(&format!("{name}.models"));
        for more in [&[][..], &["--json"]] {
            let listed = run(front().args(["states", &file]).args(more), "");
            assert_eq!(solved(&file, &models, "30", more), listed);
        }
    }
}

/// Its inputs have no gate that could be at fault, so 15 of its 70 atoms stand in no rule.
#[test]
fn a_circuit() {
    let file = stored("circuit.pref");
    let mut command = solve(&file, &stored("circuit.models"), "30");
    command
        .env("STAND_IN_OPTIONS", format!("{OPTIONS} 0 -"))
        .env("STAND_IN_INPUT", stored("circuit.lp"));
    let expected = ran(0, &text_of(&stored("circuit.states")), "");
    assert_eq!(run(&mut command, ""), expected);
    let spent = "checked: 0 of 4 states, 4 spent\n";
    let checked = run(command.arg("--check"), "");
    assert_eq!(
        checked,
        Ran {
            err: spent.to_string(),
            ..expected
        }
    );
}

/// One of 70 parts is at fault: past 60 atoms, and past a word's bits.
#[test]
fn more_atoms_than_the_engine_lists() {
    let names = names(70);
    let file = format!("(min{names})\n(vary)\n(fix)\n(rule (head{names}) (body) (not))\n");
    let models: String = (0..70).map(|i| format!("holds(\"a{i}\")\n")).collect();
    let models = Temporary::new("wide.models", &format!("{models}SATISFIABLE\n"));
    let states: String = (0..70).rev().map(|i| format!("(state a{i})\n")).collect();
    let states = format!("{states}(total 70)\n");
    let mut command = solve("-", &models.path, "30");
    assert_eq!(run(&mut command, &file), ran(0, &states, ""));
    let not_checked = "checked: none of 70 states: there are over 60 atoms\n";
    let checked = run(command.arg("--check"), &file);
    assert_eq!(checked, ran(0, &states, not_checked));
}

#[test]
fn first_models() {
    let file = example("inverters.pref");
    let two = "holds(\"ab1\") holds(\"c\")\nholds(\"ab3\") holds(\"b\")\nSATISFIABLE\n";
    let models = Temporary::new("two.models", two);
    let first = |first: &str, status: &str| {
        let mut command = solve(&file, &models.path, status);
        command.env("STAND_IN_OPTIONS", format!("{OPTIONS} {first} -"));
        run(command.args(["--first", first]), "")
    };
    let states = "(state ab3 b)\n(state ab1 c)\n";
    assert_eq!(
        first("2", "10"),
        ran(0, &format!("{states}(first 2)\n"), "")
    );
    assert_eq!(
        first("2", "30"),
        ran(0, &format!("{states}(first 2)\n"), "")
    );
    assert_eq!(
        first("3", "30"),
        ran(0, &format!("{states}(total 2)\n"), "")
    );
    let stopped = "rigtomato: the solver stopped before it had found all models\n";
    assert_eq!(first("3", "10"), ran(4, "", stopped));
    assert_eq!(solved(&file, &models.path, "10", &[]), ran(4, "", stopped));
}

#[test]
fn none_and_the_empty_set() {
    let answers = [
        ("SATISFIABLE", "\n", "30", "(state)\n(total 1)\n"),
        ("UNSATISFIABLE", "", "20", "(total 0)\n"),
    ];
    for (word, model, status, expected) in answers {
        let models = Temporary::new(word, &format!("{model}{word}\n"));
        let mut command = solve("-", &models.path, status);
        assert_eq!(run(&mut command, "(vary)\n(fix)\n"), ran(0, expected, ""));
    }
}

#[test]
fn checked_states() {
    let file = example("inverters.pref");
    let right = solved(&file, &stored("inverters.models"), "30", &["--check"]);
    assert_eq!(right.status, Some(0));
    assert!(right.out.ends_with("(total 3)\n"));
    assert_eq!(right.err, "checked: 3 of 3 states, 0 spent\n");

    let wrong = "\
        not preferred: (state a): no model: line 6 is broken: (rule (head b c ab2) (body) (not))\n\
        not preferred: (state ab1 ab3 b): beaten by: ab3 b (18 units)\n\
        checked: 4 of 4 states, 0 spent, 2 not preferred\n";
    for more in [&["--check"][..], &["--check", "--json"]] {
        let refuted = solved(&file, &stored("wrong.models"), "30", more);
        assert_eq!(refuted.status, Some(4));
        assert_eq!(refuted.out, "");
        assert_eq!(refuted.err, wrong);
    }
    let unchecked = solved(&file, &stored("wrong.models"), "30", &[]);
    assert_eq!(unchecked.status, Some(0));
}

/// With a rule that no choice breaks, a verdict on 25 free atoms takes 2^26 - 1 units, over 2^24.
#[test]
fn spent_checks() {
    let names: String = (0..25).map(|i| format!(" v{i}")).collect();
    let file = format!("(min)\n(vary{names})\n(fix)\n{}", tautology(&names));
    let models = Temporary::new("spent.models", "\nholds(\"v24\")\nSATISFIABLE\n");
    let mut command = solve("-", &models.path, "30");
    let ran = run(command.arg("--check"), &file);
    assert_eq!(ran.status, Some(0));
    assert_eq!(ran.out, "(state)\n(state v24)\n(total 2)\n");
    assert_eq!(ran.err, "checked: 0 of 2 states, 2 spent\n");
}

#[test]
fn failing_solvers() {
    let file = example("inverters.pref");
    let failed = |models: &str, status: &str| solved(&file, &stored(models), status, &[]);
    for status in ["0", "1", "33", "65"] {
        let words = format!("rigtomato: the solver failed (exit status: {status})\n");
        assert_eq!(
            failed("inverters.models", status),
            ran(4, "", &(words + "stand-in: no answer\n"))
        );
    }
    let contrary = failed("inverters.models", "20");
    assert_eq!(
        contrary,
        ran(4, "", "rigtomato: the solver gave models and found none\n")
    );
    let start = "rigtomato: the solver printed what is no model: ";
    for (models, line) in [
        ("circuit.models", "holds(\\\"high35\\\")"),
        ("circuit.states", "(state ab15"),
        ("circuit.lp", "% A preference file"),
    ] {
        let unreadable = failed(models, "30");
        assert_eq!((unreadable.status, unreadable.out.as_str()), (Some(4), ""));
        let rest = unreadable
            .err
            .strip_prefix(start)
            .expect("what is no model");
        assert!(rest.starts_with(line), "{rest}");
    }
}

#[test]
fn a_state_twice() {
    let line = "holds(\"lamp\") holds(\"dark\")\n";
    let models = Temporary::new("twice.models", &format!("{line}{line}SATISFIABLE\n"));
    let twice = solved(&example("file_a.pref"), &models.path, "30", &[]);
    assert_eq!(
        twice,
        ran(4, "", "rigtomato: the solver gave a state twice\n")
    );
}

#[test]
fn a_missing_solver() {
    let file = example("file_a.pref");
    let absent = run(
        front().args(["solve", &file, "--solver", "/no/such/clingo"]),
        "",
    );
    assert_eq!((absent.status, absent.out.as_str()), (Some(2), ""));
    assert!(absent
        .err
        .starts_with("rigtomato: the solver /no/such/clingo cannot be run: "));
    let nowhere = run(front().args(["solve", &file]).env("PATH", "/no/such"), "");
    assert_eq!(nowhere.status, Some(2));
    assert!(nowhere
        .err
        .starts_with("rigtomato: the solver clingo cannot be run: "));
    assert!(nowhere.err.contains("apt-get install gringo"));
    // A refused file needs no solver.
    let refused = run(front().args(["solve", "-"]).env("PATH", "/no/such"), "");
    assert_eq!(
        (refused.status, refused.out.as_str()),
        (Some(1), "(refused 2 1)\n")
    );
}

#[test]
fn json() {
    let file = stored("circuit.pref");
    let listed = solved(&file, &stored("circuit.models"), "30", &["--json"]);
    let value = Json::line(&listed.out);
    assert_eq!(value.get("count").number(), 4);
    assert_eq!(value.get("end").text(), "total");
    let lines = value.get("states").list().iter();
    let lines: String = lines
        .map(|state| format!("(state {})\n", state.texts().join(" ")))
        .collect();
    assert_eq!(lines + "(total 4)\n", text_of(&stored("circuit.states")));
}
