//! Files as a person types them: each command takes them, and shows the lines as they are typed.

mod common;

use common::{example, front, ran, rigtomato, run, stored, Json, Temporary, FILE_A};

/// File A.
const TYPED: &str = "\
; One of two parts is at fault, and the sensor is the graver.

( min sensor )
( min lamp   )  ; the lesser fault
(vary dark)     ; is there light?
(fix)

  (rule (head sensor lamp) (body)      (not))  ; one of the two
  (rule (head dark)        (body lamp) (not))  ; a lamp at fault means dark
; the end
";

/// A choice of `a` or not, with `b` where there is `a`.
const PLAIN: &str = "\
; (vary) and (fix) are of the other kind

 ( atoms a N.a b )  ; three

(rule (head a)  (body)  (not N.a))
(rule(head N.a)(body)(not a))

(rule (head b)  (body a) (not))    ; b with a
";

#[test]
fn it_says_what_the_strict_file_says() {
    for words in [
        "states -",
        "states --json -",
        "translate -",
        "translate --asp -",
        "canonical -",
        "check -",
        "preferred - lamp dark",
        "preferred - sensor",
        "preferred --json - sensor",
    ] {
        assert_eq!(rigtomato(words, TYPED), rigtomato(words, FILE_A), "{words}");
    }
    assert_eq!(
        rigtomato("states -", TYPED),
        ran(0, "(state lamp dark)\n(total 1)\n", "")
    );
}

/// The line counts comments and blank lines; the rule is shown without what stands around it.
#[test]
fn broken_rules() {
    let first = "no model: line 8 is broken: (rule (head sensor lamp) (body)      (not))\n";
    assert_eq!(rigtomato("preferred -", TYPED), ran(0, first, ""));
    let second = "no model: line 9 is broken: (rule (head dark)        (body lamp) (not))\n";
    assert_eq!(rigtomato("preferred - lamp", TYPED), ran(0, second, ""));
    let json = Json::line(&rigtomato("preferred --json - lamp", TYPED).out);
    assert_eq!(
        (json.get("rule").number(), json.get("line").number()),
        (1, 9)
    );
    assert_eq!(
        json.get("text").text(),
        "(rule (head dark)        (body lamp) (not))"
    );
    let glued = "no model: line 6 is broken: (rule(head N.a)(body)(not a))\n";
    let plain = PLAIN.replace("(head a)  (body)  (not N.a)", "(head)  (body a)  (not)");
    assert_eq!(rigtomato("stable - b", &plain), ran(0, glued, ""));
    let last = "no model: line 8 is broken: (rule (head b)  (body a) (not))\n";
    assert_eq!(rigtomato("stable - a", PLAIN), ran(0, last, ""));
    assert_eq!(
        rigtomato("stable - a b", PLAIN),
        ran(0, "yes, 5 units\n", "")
    );
}

/// The examples, as their page tells of them.
#[test]
fn the_plain_example() {
    let file = example("switch.plain");
    let stable = |atoms: &[&str]| run(front().args(["stable", &file]).args(atoms), "");
    assert_eq!(stable(&["on", "lit"]), ran(0, "yes, 5 units\n", ""));
    assert_eq!(stable(&["off"]), ran(0, "yes, 4 units\n", ""));
    let broken = "no model: line 8 is broken: (rule (head lit) (body on) (not))\n";
    assert_eq!(stable(&["on"]), ran(0, broken, ""));
    let check = run(front().args(["check", &file]), "");
    assert!(check.out.starts_with("accepted: a plain program\n"));
}

/// `solve --check` names the broken line too.
#[test]
fn states_of_a_solver() {
    let file = Temporary::new("typed.pref", TYPED);
    let models = Temporary::new("typed.models", "holds(\"lamp\")\nSATISFIABLE\n");
    let solve = |models: &str| {
        let mut command = front();
        command
            .args(["solve", "--check", &file.path])
            .args(["--solver", &stored("solver")])
            .env("STAND_IN_OUTPUT", models)
            .env("STAND_IN_STATUS", "30");
        run(&mut command, "")
    };
    let wrong = solve(&models.path);
    assert_eq!((wrong.status, wrong.out.as_str()), (Some(4), ""));
    let line = "not preferred: (state lamp): no model: line 9 is broken: \
        (rule (head dark)        (body lamp) (not))\n";
    assert!(wrong.err.starts_with(line), "{}", wrong.err);
    let right = solve(&stored("file_a.models"));
    assert_eq!(right.out, "(state lamp dark)\n(total 1)\n");
}

#[test]
fn unused_atoms() {
    let typed = "; a catalogue\n(min  pad_1 sensor)\n\n(min lamp pad_2 )  ; pad_3\n\
        ( vary dark )\n( fix pad_4 )\n;\n\
        (rule(head sensor lamp)(body)(not))\n(rule(head dark)(body lamp)(not))\n";
    let check = rigtomato("check -", typed);
    assert_eq!((check.status, check.err.as_str()), (Some(0), ""));
    let left_out = "\nleft out      3           declared, but in no rule: pad_1 pad_2 pad_4\n";
    assert!(check.out.contains(left_out), "{}", check.out);
    let asked = |atom: &str| rigtomato(&format!("preferred - {atom}"), typed);
    let unusable = |words: &str| ran(2, "", &format!("rigtomato: standard-input: {words}\n"));
    assert_eq!(
        asked("pad_4"),
        unusable(
            "pad_4 is declared, but it stands in no rule, so it does not belong to the program"
        )
    );
    // What a comment says declares nothing.
    assert_eq!(asked("pad_3"), unusable("no atom is called pad_3"));
    assert_eq!(
        asked("lmap"),
        unusable("no atom is called lmap; the nearest is lamp")
    );
}

/// A name may be any of the form's words.
#[test]
fn names_that_are_words() {
    let typed = "(min rule)\n(vary  atoms)\n(fix not)\n\n(rule (head rule) (body atoms)(not))\n";
    let check = rigtomato("check -", typed);
    let left_out = "\nleft out      1           declared, but in no rule: not\n";
    assert!(check.out.contains(left_out), "{}", check.out);
    let broken = "no model: line 5 is broken: (rule (head rule) (body atoms)(not))\n";
    assert_eq!(rigtomato("preferred - atoms", typed), ran(0, broken, ""));
}

/// Refusals have the line as it is typed.
#[test]
fn refused_lines() {
    let undeclared = TYPED.replace("(body lamp)", "(body lmap)");
    let message = "standard-input:9: an atom is not declared (refusal 5)\n  \
        (rule (head dark)        (body lmap) (not))  ; a lamp at fault means dark\n";
    assert_eq!(
        rigtomato("states -", &undeclared),
        ran(1, "(refused 5 9)\n", message)
    );
    let twice = TYPED.replace("( min lamp   )", "( min lamp sensor )");
    let message = "standard-input:4: an atom is declared twice (refusal 4)\n\
        ( min lamp sensor )  ; the lesser fault\n";
    assert_eq!(
        rigtomato("translate -", &twice),
        ran(1, "(refused 4 4)\n", message)
    );
}
