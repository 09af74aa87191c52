//! Each command: what it prints, and its exit status.

mod common;

use common::{
    endless, example, front, names, proved, ran, rigtomato, run, stored, tautology, text_of,
    varying, Json, FILE_A,
};

#[test]
fn states_of_the_examples() {
    for (name, states) in [
        ("file_a", "(state lamp dark)\n(total 1)\n"),
        ("file_a_typed", "(state lamp dark)\n(total 1)\n"),
        (
            "inverters",
            "(state ab3 b)\n(state ab2 b c)\n(state ab1 c)\n(total 3)\n",
        ),
        ("inverters_by_rank", "(state ab3 b)\n(total 1)\n"),
        ("touch", "(state bad_lamp visit touch)\n(total 1)\n"),
        ("catalogue", "(state 1999_12_lamp 1999_12)\n(total 1)\n"),
        (
            "whole_catalogue",
            "(state 1999_12_lamp 1999_12)\n(total 1)\n",
        ),
        (
            "conditions",
            "(state bad_lamp visit T.6 T.7 T.8 T.9 touch night)\n(total 1)\n",
        ),
    ] {
        let path = example(&format!("{name}.pref"));
        assert_eq!(run(front().args(["states", &path]), ""), ran(0, states, ""));
        assert_eq!(rigtomato("states -", &text_of(&path)), ran(0, states, ""));
    }
}

#[test]
fn first_states() {
    let text = text_of(&example("inverters.pref"));
    let states = |words| rigtomato(words, &text);
    assert_eq!(
        states("states - --first 2"),
        ran(0, "(state ab3 b)\n(state ab2 b c)\n(first 2)\n", "")
    );
    assert!(states("states --first 3 -").out.ends_with("(first 3)\n"));
    assert!(states("states --first=4 -").out.ends_with("(total 3)\n"));
    assert_eq!(rigtomato("states - --first 1", &endless()).status, Some(0));
}

#[test]
fn budgets() {
    let spent = |units| format!("spent: the next state needs more than {units} units\n");
    assert_eq!(
        rigtomato("states - --budget 18", FILE_A),
        ran(3, "(spent)\n", &spent(18))
    );
    assert_eq!(
        rigtomato("states - --budget 25", FILE_A),
        ran(3, "(state lamp dark)\n(spent)\n", &spent(25))
    );
    assert_eq!(rigtomato("states - --budget 26", FILE_A).status, Some(0));
    assert_eq!(
        rigtomato("states - --budget 0", FILE_A),
        ran(3, "(spent)\n", &spent(0))
    );
    let after_one = rigtomato("states - --budget 1000", &endless());
    assert_eq!(after_one, ran(3, "(state)\n(spent)\n", &spent(1_000)));

    let largest = 1_u64 << 40;
    let words = format!("states - --budget {largest}");
    assert_eq!(rigtomato(&words, FILE_A).status, Some(0));
    let refused = "standard-input: the budget is over 2^40 (refusal 13)\n";
    for budget in [(largest + 1).to_string(), "9".repeat(30)] {
        let words = format!("states - --budget {budget}");
        assert_eq!(
            rigtomato(&words, FILE_A),
            ran(1, "(refused 13 0)\n", refused)
        );
        let words = format!("preferred - --budget {budget}");
        assert_eq!(rigtomato(&words, FILE_A), ran(1, "", refused));
    }
}

#[test]
fn states_as_json() {
    let json = |words, text: &str| {
        let ran = rigtomato(words, text);
        (ran.status, Json::line(&ran.out))
    };
    let expected = "{\"states\":[[\"lamp\",\"dark\"]],\"end\":\"total\",\"count\":1}\n";
    assert_eq!(rigtomato("states --json -", FILE_A), ran(0, expected, ""));

    let (status, value) = json("states --json -", &text_of(&example("inverters.pref")));
    assert_eq!(
        (status, value.fields()),
        (Some(0), vec!["states", "end", "count"])
    );
    let states: Vec<Vec<&str>> = value.get("states").list().iter().map(Json::texts).collect();
    assert_eq!(
        states,
        [vec!["ab3", "b"], vec!["ab2", "b", "c"], vec!["ab1", "c"]]
    );
    assert_eq!(value.get("count").number(), 3);

    let (_, value) = json(
        "states --json --first 2 -",
        &text_of(&example("inverters.pref")),
    );
    assert_eq!(
        (value.get("end").text(), value.get("count").number()),
        ("first", 2)
    );

    let (status, value) = json("states --json --budget 1000 -", &endless());
    assert_eq!((status, value.get("end").text()), (Some(3), "spent"));
    assert_eq!(value.get("states").list(), [Json::List(vec![])]);

    let none = "(vary)\n(fix)\n(rule (head) (body) (not))\n";
    let (status, value) = json("states --json -", none);
    assert_eq!((status, value.get("states").list().len()), (Some(0), 0));
    assert_eq!(
        (value.get("end").text(), value.get("count").number()),
        ("total", 0)
    );

    let (status, value) = json(
        "states --json -",
        "(vary)\n(fix)\n(rule (head a) (body) (not))\n",
    );
    let refused = value.get("refused");
    assert_eq!((status, refused.get("number").number()), (Some(1), 5));
    assert_eq!(refused.get("line").number(), 3);
    assert_eq!(refused.get("words").text(), "an atom is not declared");
}

#[test]
fn translations() {
    let file = example("file_a.pref");
    let plain = run(front().args(["translate", &file]), "");
    assert_eq!((plain.status, plain.err.as_str()), (Some(0), ""));
    let program = run(&mut std::process::Command::new(proved("translate")), FILE_A);
    assert_eq!(plain.out, program.out);

    let asp = run(front().args(["translate", "--asp", &file]), "");
    assert_eq!(asp, ran(0, &text_of(&stored("file_a.lp")), ""));
    let circuit = run(
        front().args(["translate", "--asp", &stored("circuit.pref")]),
        "",
    );
    assert_eq!(circuit, ran(0, &text_of(&stored("circuit.lp")), ""));
    let refused = rigtomato("translate --asp -", "(atoms a)\n");
    assert_eq!(
        (refused.status, refused.out.as_str()),
        (Some(1), "(refused 10 0)\n")
    );
}

#[test]
fn checks() {
    let counts = "\
        accepted: a preference file\n\
        atoms         3 of 256    2 minimised in 2 classes, 1 varying, 0 fixed\n\
        rules         2 of 1,024\n\
        occurrences   4 of 8,192\n";
    assert_eq!(rigtomato("check -", FILE_A), ran(0, counts, ""));
    let counts = "\
        accepted: a preference file\n\
        atoms        55 of 256    20 minimised in 3 classes, 35 varying, 0 fixed\n\
        left out     15           declared, but in no rule: \
        ab11 ab19 ab20 ab21 ab23 ab25 ab26 ab27 and 7 more\n\
        rules        96 of 1,024\n\
        occurrences 360 of 8,192\n";
    let circuit = run(front().args(["check", &stored("circuit.pref")]), "");
    assert_eq!(circuit, ran(0, counts, ""));
    let translation = rigtomato("translate -", FILE_A).out;
    let counts = "\
        accepted: a plain program\n\
        atoms        15 of 1,100\n\
        rules        29 of 4,200\n\
        occurrences  75 of 24,000\n";
    assert_eq!(rigtomato("check -", &translation), ran(0, counts, ""));
    let full = format!(
        "(vary)\n(fix)\n{}",
        "(rule (head) (body) (not))\n".repeat(1_024)
    );
    assert!(rigtomato("check -", &full)
        .out
        .contains("\nrules       1,024 of 1,024\n"));
}

/// Counts are of what remains; the declared atoms that stand in no rule are counted and named apart.
#[test]
fn checks_with_unused_atoms() {
    let rule = "(rule (head a) (body) (not))\n";
    let row = |declared: &str| {
        let check = rigtomato("check -", &format!("{declared}{rule}"));
        assert_eq!((check.status, check.err.as_str()), (Some(0), ""));
        let rows: Vec<String> = check.out.lines().map(str::to_string).collect();
        rows[1..3].join("\n")
    };
    assert_eq!(
        row("(min b)\n(vary c a)\n(fix d)\n"),
        "atoms         1 of 256    0 minimised in 1 class, 1 varying, 0 fixed\n\
         left out      3           declared, but in no rule: b c d"
    );
    let eight = names(8);
    let line = format!("left out      8           declared, but in no rule:{eight}");
    assert!(row(&format!("(min a)\n(vary{eight})\n(fix)\n")).ends_with(&line));
    let nine = format!("{eight} b c");
    let line = format!("left out     10           declared, but in no rule:{eight} and 2 more");
    assert!(row(&format!("(min a)\n(vary)\n(fix{nine})\n")).ends_with(&line));
    assert!(row("(vary a)\n(fix)\n").ends_with("\nrules         1 of 1,024"));

    let none = rigtomato("check -", "(min a)\n(vary b)\n(fix)\n").out;
    assert!(none.contains("\natoms         0 of 256    0 minimised in 1 class, 0 "));
    assert!(none.contains("\nleft out      2           declared, but in no rule: a b\n"));
    // A plain program keeps its atoms.
    let plain = rigtomato("check -", "(atoms a b c)\n").out;
    assert!(
        plain.contains("\natoms         3 of 1,100\nrules "),
        "{plain}"
    );
    // Unused atoms count toward the limit.
    let many = format!("(min a)\n(vary{})\n(fix)\n{rule}", names(256));
    let refused = rigtomato("check -", &many);
    assert_eq!((refused.status, refused.out.as_str()), (Some(1), ""));
    let told = refused.err.ends_with("Atoms that no rule has count too.\n");
    assert!(refused.err.starts_with("standard-input:2: ") && told);
}

#[test]
fn preferred_sets() {
    let verdict = |atoms: &str| rigtomato(&format!("preferred - {atoms}"), FILE_A);
    let answer = |line: &str| ran(0, &format!("{line}\n"), "");
    assert_eq!(verdict("lamp dark"), answer("yes, 13 units"));
    assert_eq!(verdict("dark lamp lamp"), answer("yes, 13 units"));
    assert_eq!(verdict("sensor"), answer("beaten by: lamp dark (6 units)"));
    assert_eq!(
        verdict("sensor --budget 6"),
        answer("beaten by: lamp dark (6 units)")
    );
    assert_eq!(
        verdict(""),
        answer("no model: line 5 is broken: (rule (head sensor lamp) (body) (not))")
    );
    assert_eq!(
        verdict("lamp"),
        answer("no model: line 6 is broken: (rule (head dark) (body lamp) (not))")
    );
    assert_eq!(
        verdict("sensor --budget 5"),
        ran(3, "spent: more than 5 units are needed\n", "")
    );
    let one_atom = format!("(min a)\n(vary)\n(fix)\n{}", tautology(" a"));
    let empty_is_better = rigtomato("preferred - a", &one_atom);
    assert_eq!(
        empty_is_better,
        answer("beaten by: the empty set (2 units)")
    );
    let no_atom = rigtomato("preferred -", "(vary)\n(fix)\n");
    assert_eq!(no_atom, answer("yes, 1 unit"));
    let one = rigtomato("preferred - --budget 1", &one_atom);
    assert_eq!(one, ran(3, "spent: more than 1 unit is needed\n", ""));
}

const CHOICE: &str = "(atoms a N.a b)\n(rule (head a) (body) (not N.a))\n\
    (rule (head N.a) (body) (not a))\n(rule (head b) (body a) (not))\n";

#[test]
fn stable_sets() {
    let verdict = |atoms: &str| rigtomato(&format!("stable - {atoms}"), CHOICE);
    let answer = |line: &str| ran(0, &format!("{line}\n"), "");
    assert_eq!(verdict("a b"), answer("yes, 5 units"));
    assert_eq!(verdict("N.a"), answer("yes, 4 units"));
    assert_eq!(
        verdict("N.a b"),
        answer("not minimal: N.a is a model of the reduct (5 units)")
    );
    assert_eq!(
        verdict("a N.a b"),
        answer("not minimal: the empty set is a model of the reduct (4 units)")
    );
    assert_eq!(
        verdict("b"),
        answer("no model: line 2 is broken: (rule (head a) (body) (not N.a))")
    );
    assert_eq!(
        verdict("a b --budget 4"),
        ran(3, "spent: more than 4 units are needed\n", "")
    );
}

/// The stable model that goes with the state of file A.
#[test]
fn stable_sets_of_a_translation() {
    let translation = rigtomato("translate -", FILE_A).out;
    let model = "lamp dark N.sensor S.sensor S.lamp S.dark D.sensor D.lamp E.0 E.1 E.2 U";
    let yes = rigtomato(&format!("stable - {model}"), &translation);
    assert_eq!(yes, ran(0, "yes, 1031 units\n", ""));
    let other = model.replace("lamp dark N.sensor", "sensor N.lamp N.dark");
    let no = rigtomato(&format!("stable - {other}"), &translation);
    assert_eq!(no.status, Some(0));
    assert!(no.out.starts_with("not minimal: sensor "), "{}", no.out);
}

#[test]
fn verdicts_as_json() {
    let verdict = |words: &str, text: &str| {
        let ran = rigtomato(words, text);
        (ran.status, Json::line(&ran.out))
    };
    let expected = "{\"verdict\":\"yes\",\"units\":13}\n";
    assert_eq!(
        rigtomato("preferred --json - lamp dark", FILE_A),
        ran(0, expected, "")
    );
    let (status, broken) = verdict("preferred --json -", FILE_A);
    assert_eq!(
        (status, broken.fields()),
        (Some(0), vec!["verdict", "rule", "line", "text"])
    );
    assert_eq!(broken.get("verdict").text(), "broken");
    assert_eq!(
        (broken.get("rule").number(), broken.get("line").number()),
        (0, 5)
    );
    assert_eq!(
        broken.get("text").text(),
        "(rule (head sensor lamp) (body) (not))"
    );
    let (_, beaten) = verdict("preferred --json - sensor", FILE_A);
    assert_eq!(beaten.fields(), ["verdict", "set", "units"]);
    assert_eq!(beaten.get("set").texts(), ["lamp", "dark"]);
    assert_eq!(beaten.get("units").number(), 6);
    let (status, spent) = verdict("preferred --json - sensor --budget 5", FILE_A);
    assert_eq!((status, spent.get("verdict").text()), (Some(3), "spent"));
    assert_eq!(spent.get("units").number(), 5);
    let (_, smaller) = verdict("stable --json - N.a b", CHOICE);
    assert_eq!(
        (smaller.get("verdict").text(), smaller.get("set").texts()),
        ("beaten", vec!["N.a"])
    );
    let (status, refused) = verdict("stable --json -", FILE_A);
    assert_eq!(
        (status, refused.get("refused").get("number").number()),
        (Some(1), 10)
    );
}

#[test]
fn unknown_atoms() {
    let said = |atoms: &str| rigtomato(&format!("preferred - {atoms}"), FILE_A);
    let unknown = |words: &str| ran(2, "", &format!("rigtomato: standard-input: {words}\n"));
    assert_eq!(
        said("lamp lmap"),
        unknown("no atom is called lmap; the nearest is lamp")
    );
    assert_eq!(
        said("sensors"),
        unknown("no atom is called sensors; the nearest is sensor")
    );
    assert_eq!(said("door"), unknown("no atom is called door"));
    assert_eq!(
        rigtomato("preferred -", "(vary)\n(fix)\n"),
        ran(0, "yes, 1 unit\n", "")
    );
    assert_eq!(
        rigtomato("preferred - a", "(vary)\n(fix)\n"),
        unknown("no atom is called a")
    );
    // Atoms past the 60th have a number too; it is the file that is refused.
    let refused = rigtomato("preferred - a255", &varying(256));
    assert_eq!((refused.status, refused.out.as_str()), (Some(1), ""));
    assert!(refused.err.contains("(refusal 11)"), "{}", refused.err);
}

/// An atom that is declared but stands in no rule is another matter than one that is not there.
#[test]
fn unused_atoms() {
    let file = example("whole_catalogue.pref");
    let said = |atom: &str| run(front().args(["preferred", &file, "1999_12", atom]), "");
    let unusable = |words: &str| ran(2, "", &format!("rigtomato: {file}: {words}\n"));
    for atom in ["1999_12_pad", "2004_7_lamp", "2011_3"] {
        let words = format!(
            "{atom} is declared, but it stands in no rule, so it does not belong to the program"
        );
        assert_eq!(said(atom), unusable(&words));
    }
    assert_eq!(
        said("2004_7_pads"),
        unusable("no atom is called 2004_7_pads; the nearest is 2004_7_pad")
    );
    // What is near is an atom of the program.
    assert_eq!(said("2011_33"), unusable("no atom is called 2011_33"));
    assert_eq!(said("1999_12_lamp"), ran(0, "yes, 27 units\n", ""));
    let json = run(front().args(["preferred", "--json", &file, "2011_3"]), "");
    assert_eq!((json.status, json.out.as_str()), (Some(2), ""));
    // A plain program keeps its atoms.
    let plain = rigtomato("stable - a", "(atoms a b)\n(rule (head a) (body) (not))\n");
    assert_eq!(plain, ran(0, "yes, 3 units\n", ""));
    // That it is of the other kind comes first.
    let other = rigtomato("stable - a", "(vary a)\n(fix)\n");
    assert!(other.err.ends_with("(refusal 10)\n"), "{}", other.err);
}

/// The states of a file are those of the file without its unused names, and so is its translation.
#[test]
fn files_with_unused_atoms() {
    let [whole, part] = ["whole_catalogue.pref", "catalogue.pref"].map(example);
    for words in [
        &["states"][..],
        &["states", "--json"],
        &["translate"],
        &["translate", "--asp"],
        &["canonical"],
    ] {
        let [whole, part] = [&whole, &part].map(|file| run(front().args(words).arg(file), ""));
        assert_eq!(whole, part);
    }
    let set = ["1999_12", "1999_12_lamp"];
    let [whole, part] =
        [&whole, &part].map(|file| run(front().args(["preferred", "--json", file]).args(set), ""));
    assert_eq!(whole, part);
}

#[test]
fn wrong_usage() {
    for words in [
        "",
        "nothing",
        "states",
        "states a b",
        "states a --asp",
        "states a --first",
        "states a --first 0",
        "states a --first x",
        "states a --budget -1",
        "translate a --json",
        "check",
        "solve",
        "help nothing",
        "preferred --json",
    ] {
        let wrong = rigtomato(words, "");
        assert_eq!((wrong.status, wrong.out.as_str()), (Some(2), ""), "{words}");
        assert!(
            wrong.err.contains("usage: rigtomato "),
            "{words}: {}",
            wrong.err
        );
    }
    let meant = rigtomato("state -", FILE_A).err;
    assert!(meant.starts_with("rigtomato: state is no command; states is one\n"));
}

#[test]
fn unreadable_files() {
    for (path, why) in [
        ("no/such.pref", "No such file or directory"),
        (env!("CARGO_MANIFEST_DIR"), "Is a directory"),
    ] {
        for command in [
            "states",
            "translate",
            "check",
            "preferred",
            "stable",
            "clauses",
            "canonical",
            "solve",
        ] {
            let ran = run(front().args([command, path]), "");
            assert_eq!((ran.status, ran.out.as_str()), (Some(2), ""));
            let start = format!("rigtomato: {path}: cannot be read: {why}");
            assert!(ran.err.starts_with(&start), "{}", ran.err);
        }
    }
}

#[test]
fn help() {
    let page = rigtomato("--help", "");
    assert_eq!((page.status, page.err.as_str()), (Some(0), ""));
    assert_eq!(rigtomato("help", ""), page);
    assert_eq!(rigtomato("-h", ""), page);
    for part in [
        "130 interrupted",
        "(rule (head dark) (body lamp) (not))",
        "help [COMMAND]",
    ] {
        assert!(page.out.contains(part), "{part}");
    }
    for usage in [
        "states FILE [--budget N] [--first N] [--json]",
        "translate FILE [--asp]",
        "check FILE",
        "preferred FILE [--budget N] [--json] ATOM..",
        "stable FILE [--budget N] [--json] ATOM..",
        "clauses FILE",
        "canonical FILE",
        "solve FILE [--solver PATH] [--first N] [--check] [--json]",
    ] {
        assert!(page.out.contains(&format!("  {usage}\n")), "{usage}");
        let name = usage.split(' ').next().unwrap();
        let own = rigtomato(&format!("help {name}"), "");
        assert_eq!(own.status, Some(0));
        assert!(
            own.out.starts_with(&format!("usage: rigtomato {usage}\n")),
            "{usage}"
        );
        assert!(own.out.contains("Exit status: 0 answered, 1 refused, 2 "));
        assert_eq!(rigtomato(&format!("{name} --help"), ""), own);
        assert_eq!(rigtomato(&format!("{name} x -h"), ""), own);
    }
    let states = rigtomato("help states", "").out;
    assert!(states.contains("65,536 bytes") && states.contains("917,504 bytes"));
}
