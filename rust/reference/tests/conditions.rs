//! Document 02, W-208: conditions, each sentence by a case.

mod common;

use common::{accepted, many, refused, rules, states, stores, tautology, FILE_A};
use reference::lent;
use reference::pieces::strict;
use reference::refusal::Reason;
use reference::{programs, reader, writer};

/// The text that the writer gives for an accepted one.
fn written(text: &str) -> String {
    let (program, names) = reader::read(text.as_bytes()).expect("an accepted text");
    String::from_utf8(writer::write(&program, &names)).unwrap()
}

/// What is written of the file is the other one, which is read as it.
fn becomes(text: &str, expected: &str) {
    assert_eq!(written(text), expected, "{text}");
    assert_eq!(stores(text), stores(expected), "{text}");
    accepted(expected);
}

/// A file that declares these varying atoms, with this condition.
fn file(varying: &str, line: &str) -> String {
    format!("(vary {varying})\n(fix)\n{line}\n")
}

/// A file with varying atoms a to d, and this between `when` and `then`.
fn of(condition: &str) -> String {
    file("a b c d", &format!("(when {condition} (then d))"))
}

/// The rules that a condition becomes.
fn rules_of(condition: &str) -> Vec<String> {
    let text = written(&of(condition));
    let rules = text.lines().filter(|line| line.starts_with("(rule"));
    rules.map(str::to_string).collect()
}

fn and(made: &str, left: &str, right: &str) -> [String; 3] {
    let both = match left == right {
        true => left.to_string(),
        false => format!("{left} {right}"),
    };
    [
        format!("(rule (head {made}) (body {both}) (not))"),
        format!("(rule (head {left}) (body {made}) (not))"),
        format!("(rule (head {right}) (body {made}) (not))"),
    ]
}

fn or(made: &str, left: &str, right: &str) -> [String; 3] {
    let either = match left == right {
        true => left.to_string(),
        false => format!("{left} {right}"),
    };
    [
        format!("(rule (head {either}) (body {made}) (not))"),
        format!("(rule (head {made}) (body {left}) (not))"),
        format!("(rule (head {made}) (body {right}) (not))"),
    ]
}

fn not(made: &str, part: &str) -> [String; 2] {
    [
        format!("(rule (head {made} {part}) (body) (not))"),
        format!("(rule (head) (body {made} {part}) (not))"),
    ]
}

fn then(part: &str) -> [String; 1] {
    [format!("(rule (head d) (body {part}) (not))")]
}

#[test]
fn the_worked_example() {
    becomes(
        &of("not (a and b) or c"),
        "(vary a b c d T.1 T.2 T.3)\n(fix)\n\
        (rule (head T.1 T.2) (body) (not))\n\
        (rule (head) (body T.1 T.2) (not))\n\
        (rule (head T.2) (body a b) (not))\n\
        (rule (head a) (body T.2) (not))\n\
        (rule (head b) (body T.2) (not))\n\
        (rule (head T.1 c) (body T.3) (not))\n\
        (rule (head T.3) (body T.1) (not))\n\
        (rule (head T.3) (body c) (not))\n\
        (rule (head d) (body T.3) (not))\n",
    );
}

/// One name alone gets no atom.
#[test]
fn a_name_alone() {
    for condition in ["a", "(a)", "((a))", "( ( ( a ) ) )"] {
        becomes(
            &of(condition),
            "(vary a d)\n(fix)\n(rule (head d) (body a) (not))\n",
        );
    }
    // The same atom in head and body, as any rule may have it.
    becomes(
        &of("d"),
        "(vary d)\n(fix)\n(rule (head d) (body d) (not))\n",
    );
}

#[test]
fn each_connective() {
    let expected = [&and("T.1", "a", "b")[..], &then("T.1")].concat();
    assert_eq!(rules_of("a and b"), expected);
    let expected = [&or("T.1", "a", "b")[..], &then("T.1")].concat();
    assert_eq!(rules_of("a or b"), expected);
    let expected = [&not("T.1", "a")[..], &then("T.1")].concat();
    assert_eq!(rules_of("not a"), expected);
    // Left stands first, whatever was declared first.
    let expected = [&and("T.1", "b", "a")[..], &then("T.1")].concat();
    assert_eq!(rules_of("b and a"), expected);
}

/// An atom once in a list; still three rules.
#[test]
fn the_same_part_twice() {
    assert_eq!(
        rules_of("a and a"),
        [
            "(rule (head T.1) (body a) (not))",
            "(rule (head a) (body T.1) (not))",
            "(rule (head a) (body T.1) (not))",
            "(rule (head d) (body T.1) (not))",
        ]
    );
    assert_eq!(
        rules_of("(a) or ((a))"),
        [
            "(rule (head a) (body T.1) (not))",
            "(rule (head T.1) (body a) (not))",
            "(rule (head T.1) (body a) (not))",
            "(rule (head d) (body T.1) (not))",
        ]
    );
    // Equal parts that are no names have an atom each.
    let expected = [
        &and("T.1", "a", "b")[..],
        &or("T.2", "T.1", "T.3"),
        &and("T.3", "a", "b"),
        &then("T.2"),
    ]
    .concat();
    assert_eq!(rules_of("a and b or a and b"), expected);
}

#[test]
fn not_upon_not() {
    let expected = [&not("T.1", "T.2")[..], &not("T.2", "a"), &then("T.1")].concat();
    assert_eq!(rules_of("not not a"), expected);
    let expected = [
        &not("T.1", "T.2")[..],
        &not("T.2", "T.3"),
        &not("T.3", "a"),
        &then("T.1"),
    ]
    .concat();
    assert_eq!(rules_of("not not not a"), expected);
    assert_eq!(rules_of("not (not ((not a)))"), expected);
}

/// `not` binds before `and`, `and` before `or`.
#[test]
fn what_binds_before_what() {
    for (bare, bracketed) in [
        ("not a and b", "(not a) and b"),
        ("not a or b", "(not a) or b"),
        ("a and not b", "a and (not b)"),
        ("a or b and c", "a or (b and c)"),
        ("a and b or c", "(a and b) or c"),
        (
            "a or not b and c or not not d",
            "(a or ((not b) and c)) or (not (not d))",
        ),
        ("not a and not b or c", "((not a) and (not b)) or c"),
        ("a and b or c and d", "(a and b) or (c and d)"),
    ] {
        assert_eq!(rules_of(bare), rules_of(bracketed), "{bare}");
    }
    for (one, other) in [
        ("not a and b", "not (a and b)"),
        ("not a or b", "not (a or b)"),
        ("a or b and c", "(a or b) and c"),
        ("a and b or c", "a and (b or c)"),
    ] {
        assert_ne!(rules_of(one), rules_of(other), "{one}");
    }
}

#[test]
fn equals_group_to_the_left() {
    assert_eq!(rules_of("a and b and c"), rules_of("(a and b) and c"));
    assert_ne!(rules_of("a and b and c"), rules_of("a and (b and c)"));
    assert_eq!(
        rules_of("a or b or c or d"),
        rules_of("((a or b) or c) or d")
    );
    assert_ne!(rules_of("a or b or c"), rules_of("a or (b or c)"));
    let expected = [
        &and("T.1", "a", "b")[..],
        &and("T.2", "T.1", "c"),
        &then("T.2"),
    ]
    .concat();
    assert_eq!(rules_of("a and b and c"), expected);
}

/// Numbers by where a connective stands, not by what it joins.
#[test]
fn numbers_in_file_order() {
    let expected = [
        &or("T.1", "a", "T.2")[..],
        &and("T.2", "b", "c"),
        &then("T.1"),
    ]
    .concat();
    assert_eq!(rules_of("a or b and c"), expected);
    let expected = [
        &and("T.1", "a", "T.2")[..],
        &or("T.2", "b", "T.3"),
        &not("T.3", "c"),
        &then("T.1"),
    ]
    .concat();
    assert_eq!(rules_of("a and (b or not c)"), expected);
}

/// Through the whole file; each condition's rules stand in its place.
#[test]
fn numbers_go_on_from_line_to_line() {
    becomes(
        "(min a)\n(vary b)\n(fix c)\n\
        (rule (head a b) (body) (not))\n\
        (when b and c (then a))\n\
        (rule (head a) (body c) (not))\n\
        (when a (then b))\n\
        \n\
        (when not c (then b)) ; the last one\n\
        (rule (head) (body a b c) (not))\n",
        "(min a)\n(vary b T.1 T.2)\n(fix c)\n\
        (rule (head a b) (body) (not))\n\
        (rule (head T.1) (body b c) (not))\n\
        (rule (head b) (body T.1) (not))\n\
        (rule (head c) (body T.1) (not))\n\
        (rule (head a) (body T.1) (not))\n\
        (rule (head a) (body c) (not))\n\
        (rule (head b) (body a) (not))\n\
        (rule (head T.2 c) (body) (not))\n\
        (rule (head) (body T.2 c) (not))\n\
        (rule (head b) (body T.2) (not))\n\
        (rule (head) (body a b c) (not))\n",
    );
}

/// After the file's varying atoms, before the fixed ones, as words of the store too.
#[test]
fn where_the_new_atoms_stand() {
    let text = "(min m)\n(vary v)\n(fix f)\n(when v and f (then m))\n";
    assert_eq!(
        stores(text),
        (
            vec![
                1, 4, 1, 4, 1, 17, 17, 18, // m, v, T.1, f
                1, 2, 0, 2, 1, 3, //
                1, 1, 0, 1, 2, //
                1, 1, 0, 3, 2, //
                1, 1, 0, 0, 2,
            ],
            b"\x01m\x01v\x03T.1\x01f".to_vec()
        )
    );
    becomes(
        "(vary)\n(fix a)\n(when not a (then a))\n",
        "(vary T.1)\n(fix a)\n(rule (head T.1 a) (body) (not))\n\
        (rule (head) (body T.1 a) (not))\n(rule (head a) (body T.1) (not))\n",
    );
}

/// A declared atom that stands in a condition alone is used; one that stands nowhere is not.
#[test]
fn atoms_of_conditions_are_used() {
    becomes(
        "(min m x)\n(min y)\n(vary v z)\n(fix w f)\n(when v or f (then m))\n",
        "(min m)\n(min)\n(vary v T.1)\n(fix f)\n(rule (head v f) (body T.1) (not))\n\
        (rule (head T.1) (body v) (not))\n(rule (head T.1) (body f) (not))\n\
        (rule (head m) (body T.1) (not))\n",
    );
}

/// Brackets and words are those of any hand-typed line.
#[test]
fn spaces_comments_and_blank_lines() {
    let expected = written(&of("not (a and b) or c"));
    for line in [
        "(when not(a and b)or c(then d))",
        "(when not(a and b)or c(then d));a comment",
        "  (  when  not  (  a  and  b  )  or  c  (  then  d  )  )  ; x (then y))",
        "(when(not(a and b)or c)(then d))",
        "( when ( (not ((a) and (b))) or(c) ) (then d) )",
        "\n  \n; c\n(when not (a and b) or c (then d))\n\n",
    ] {
        assert_eq!(written(&file("a b c d", line)), expected, "{line}");
    }
    // The writer never gives a condition back.
    let text = of("a");
    assert_eq!(strict(text.as_bytes()), text.as_bytes());
    assert_ne!(written(&text), text);
    for line in [
        "(when a\t(then d))",
        "(when a (then d))\r",
        "(when a (then d)",
        "(when a (then d)))",
        "(when a (then d)) (when a (then d))",
        "(when a (then d))(fix)",
        "(when a; (then d))",
        "(whena (then d))",
        "(When a (then d))",
        "(when a (thend))",
        "(when a (Then d))",
        "when a (then d)",
        "((when a (then d)))",
        "(when a\n(then d))",
        "(if a (then d))",
        "(when a then d)",
        "(when a (then d) and b)",
        "(when a (then b d))",
        "(when a (then (d)))",
        "(when a (then))",
        "(when a ())",
        "(when a)",
        "(when)",
        "(when (a (then d))",
        "(when a) (then d))",
        "(when ) a ( (then d))",
        "(when a) and (b (then d))",
        "(when a and b) (then d)",
        "(then d)",
    ] {
        let text = file("a b c d", line);
        assert_eq!(refused(text.as_bytes()), (2, 3), "{line}");
    }
    // The last line has its byte 10 too.
    assert_eq!(refused(b"(vary a)\n(fix)\n(when a (then a))"), (2, 3));
}

/// Only behind the `fix` line of a preference file.
#[test]
fn where_a_condition_may_stand() {
    let line = "(when a (then a))\n";
    assert_eq!(refused(line.as_bytes()), (2, 1));
    for before in ["(min a)\n", "(vary a)\n"] {
        assert_eq!(refused(format!("{before}{line}").as_bytes()), (2, 2));
    }
    assert_eq!(
        refused(format!("(vary a)\n{line}(fix)\n").as_bytes()),
        (2, 2)
    );
    assert_eq!(refused(format!("(atoms a)\n{line}").as_bytes()), (2, 2));
    assert_eq!(refused(b"(atoms a)\n(when (then a))\n"), (2, 2));
    assert_eq!(refused(b"(vary a)\n(when (then a))\n(fix)\n"), (2, 2));
    // It ends the declarations as a rule does not.
    assert_eq!(
        refused(format!("(vary a)\n(fix)\n{line}(fix)\n").as_bytes()),
        (2, 4)
    );
}

const NO_CONDITIONS: [&str; 24] = [
    "",
    "()",
    "(a) ()",
    "a b",
    "(a) (b)",
    "a (b)",
    "(a) b",
    "not",
    "and",
    "or",
    "a and",
    "a or",
    "a not",
    "and a",
    "or a",
    "a and or b",
    "a and and b",
    "a not b",
    "a not and b",
    "not and a",
    "(not) a",
    "a (and) b",
    "(a and) b",
    "(then a)",
];

#[test]
fn no_condition_stands_there() {
    for condition in NO_CONDITIONS {
        assert_eq!(refused(of(condition).as_bytes()), (17, 3), "{condition}");
        let deeper = format!("not ({condition})");
        assert_eq!(refused(of(&deeper).as_bytes()), (17, 3), "{deeper}");
    }
    // Words that mean something elsewhere are names there.
    let text = "(vary when then rule head body)\n(fix)\n(when when and then (then rule))\n";
    assert_eq!(rules(text)[3], 4);
}

/// `not`, `and`, `or` are no names between `when` and `then`, and names elsewhere.
#[test]
fn the_barred_words() {
    for word in ["not", "and", "or"] {
        becomes(
            &format!("(vary a {word})\n(fix)\n(when a (then {word}))\n"),
            &format!("(vary a {word})\n(fix)\n(rule (head {word}) (body a) (not))\n"),
        );
        let text = format!("(vary a {word})\n(fix)\n(when {word} (then a))\n");
        assert_eq!(refused(text.as_bytes()), (17, 3));
        let text = format!("(vary a)\n(fix)\n(when a (then {word}))\n");
        assert_eq!(refused(text.as_bytes()), (5, 3));
    }
}

fn brackets(depth: usize, inside: &str) -> String {
    format!("{}{inside}{}", "(".repeat(depth), ")".repeat(depth))
}

#[test]
fn thirty_two_brackets() {
    let a = "(vary a d)\n(fix)\n(rule (head d) (body a) (not))\n";
    becomes(&of(&brackets(32, "a")), a);
    assert_eq!(refused(of(&brackets(33, "a")).as_bytes()), (18, 3));
    // The deepest place counts, not how many there are.
    let wide = format!("{} and {}", brackets(32, "a"), brackets(32, "b"));
    assert_eq!(rules_of(&wide), rules_of("a and b"));
    let wide = format!("{} and {}", brackets(32, "a"), brackets(33, "b"));
    assert_eq!(refused(of(&wide).as_bytes()), (18, 3));
    let nested = brackets(16, &format!("a or {}", brackets(16, "b")));
    assert_eq!(rules_of(&nested), rules_of("a or b"));
    let nested = brackets(16, &format!("a or {}", brackets(17, "b")));
    assert_eq!(refused(of(&nested).as_bytes()), (18, 3));
    // What is no condition counts first.
    for condition in [brackets(33, ""), brackets(33, "a b"), brackets(40, "not")] {
        assert_eq!(refused(of(&condition).as_bytes()), (17, 3), "{condition}");
    }
    assert_eq!(
        refused(of(&format!("({}", brackets(33, "a"))).as_bytes()),
        (2, 3)
    );
}

#[test]
fn names_of_both_kinds() {
    for name in [
        "T.1", "T.2", "T.9", "T.10", "T.99", "T.100", "T.255", "T.256",
    ] {
        accepted(&format!(
            "(min {name})\n(vary)\n(fix)\n{}",
            tautology(&format!(" {name}"))
        ));
        accepted(&format!(
            "(vary {name})\n(fix)\n{}",
            tautology(&format!(" {name}"))
        ));
        accepted(&format!(
            "(vary)\n(fix {name})\n{}",
            tautology(&format!(" {name}"))
        ));
        for prefix in ["", "N.", "S.", "D."] {
            accepted(&format!("(atoms {prefix}{name})\n"));
        }
        for prefix in ["N.", "S.", "D."] {
            let text = format!("(vary {prefix}{name})\n(fix)\n");
            assert_eq!(refused(text.as_bytes()), (3, 1), "{text}");
            let text = of(&format!("a and {prefix}{name}"));
            assert_eq!(refused(text.as_bytes()), (3, 3), "{text}");
        }
    }
    let long = "a".repeat(24);
    for name in [
        "T.",
        "T.0",
        "T.01",
        "T.00",
        "T.001",
        "T.257",
        "T.0256",
        "T.260",
        "T.300",
        "T.999",
        "T.1000",
        "T.2560",
        "T.65537",
        "T.4294967297",
        "T.18446744073709551617",
        "T.x",
        "T.a1",
        "T.1a",
        "T.1_",
        "T.1.",
        "T.-1",
        "T.+1",
        "T.T.1",
        "T",
        "T1",
        "t.1",
        "T..1",
        "T.N.1",
        "TT.1",
        "T.12345678901234567890123456789",
        &format!("T.{long}"),
    ] {
        for prefix in ["", "N.", "S.", "D.", "E.", "U", "U.", "T."] {
            for text in [
                format!("(vary {prefix}{name})\n(fix)\n"),
                format!("(atoms {prefix}{name})\n"),
            ] {
                assert_eq!(refused(text.as_bytes()), (2, 1), "{text}");
            }
            let text = of(&format!("a or {prefix}{name}"));
            assert_eq!(refused(text.as_bytes()), (2, 3), "{text}");
        }
    }
    // `E.` and `U` do not stand before them.
    for name in ["E.T.1", "U.T.1", "UT.1", "N.N.T.1", "N.S.T.1"] {
        assert_eq!(refused(format!("(atoms {name})\n").as_bytes()), (2, 1));
    }
}

/// The check of a name store goes by the same names.
#[test]
fn names_of_stores() {
    let check = |rules: &[u16], name: &str| {
        let bytes = [&[name.len() as u8], name.as_bytes()].concat();
        lent::write(rules, &bytes, &mut [0; 99]).err()
    };
    let (preference, plain): (&[u16], &[u16]) = (&[1, 1, 0, 0, 17], &[0, 1, 0, 0]);
    for name in ["T.1", "T.256"] {
        assert_eq!(check(preference, name), None);
        assert_eq!(check(plain, name), None);
        let generated = format!("N.{name}");
        assert_eq!(check(preference, &generated), Some(Reason::NameStore));
        assert_eq!(check(plain, &generated), None);
    }
    for name in [
        "T.", "T.0", "T.01", "T.257", "T.x", "N.T.257", "N.T.0", "E.T.1",
    ] {
        assert_eq!(check(preference, name), Some(Reason::NameStore), "{name}");
        assert_eq!(check(plain, name), Some(Reason::NameStore), "{name}");
    }
}

/// One declared makes the line of the condition that gets it 4; one not declared is 5, also where a
/// condition made it.
#[test]
fn typed_names_of_made_atoms() {
    for declaring in [
        "(min T.2)\n(vary a)\n(fix)\n",
        "(min)\n(vary a T.2)\n(fix)\n",
        "(min)\n(vary a)\n(fix T.2)\n",
    ] {
        let with = |lines: &str| format!("{declaring}{lines}");
        assert_eq!(
            refused(with("(when a and a or a (then a))\n").as_bytes()),
            (4, 4)
        );
        assert_eq!(
            refused(with("(when not a (then a))\n(when not a (then a))\n").as_bytes()),
            (4, 5)
        );
        // The others are not touched by it, and it may stand in rules and conditions.
        let text = with("(rule (head T.2) (body a) (not))\n(when a and T.2 (then T.2))\n");
        assert_eq!(rules(&text)[1], 3);
        assert!(written(&text).contains("(rule (head T.1) (body a T.2) (not))\n"));
    }
    // Past 256 numbers go on, but no name is that.
    let many_nots = format!("(when {}a (then a))\n", "not ".repeat(300));
    let declared = |name: &str| format!("(vary a {name})\n(fix)\n{many_nots}");
    assert_eq!(refused(declared("T.256").as_bytes()), (4, 3));
    assert_eq!(refused(declared("b").as_bytes()), (7, 3));
    for line in [
        "(when T.1 (then a))",
        "(when not T.1 (then a))",
        "(when a (then T.1))",
        "(rule (head T.1) (body) (not))",
        "(when a and T.2 (then a))",
    ] {
        assert_eq!(refused(file("a", line).as_bytes()), (5, 3), "{line}");
        let behind = format!("(when not a or a (then a))\n{line}");
        assert_eq!(refused(file("a", &behind).as_bytes()), (5, 4), "{line}");
    }
}

#[test]
fn names_too_long_or_not_declared() {
    let long = "b".repeat(25);
    for name in [&long[..], "N.a", "S.T.1", "E.3", "U"] {
        for line in [
            format!("(when {name} (then a))"),
            format!("(when a and not {name} (then a))"),
            format!("(when a (then {name}))"),
        ] {
            assert_eq!(refused(file("a", &line).as_bytes()), (3, 3), "{line}");
        }
    }
    for line in [
        "(when b (then a))",
        "(when a and (not b) (then a))",
        "(when a (then b))",
    ] {
        assert_eq!(refused(file("a", line).as_bytes()), (5, 3), "{line}");
    }
    for name in ["A", "_a", "a-b", "a.b", "E.17", "\u{e9}"] {
        for line in [
            format!("(when {name} (then a))"),
            format!("(when a or {name} (then a))"),
            format!("(when a (then {name}))"),
        ] {
            assert_eq!(refused(file("a", &line).as_bytes()), (2, 3), "{line}");
        }
    }
}

/// 2, 17, 18, 3, 4, 5, 7, wherever on the line they stand: each beside all that count after it.
#[test]
fn the_sequence_of_faults() {
    // 5 in every one, 4 by `not`, 7 by too many of them.
    let base = |line: &str| {
        let names = many("a", 255);
        format!("(vary{names})\n(fix T.2)\n{line}\n")
    };
    let nots = "not not not";
    let long = "b".repeat(25);
    let deep = brackets(33, "a1");
    for (line, number) in [
        (format!("(when A b ({deep}) {long} {nots} c (then a1))"), 2),
        (format!("(when a1 b ({deep}) {long} {nots} c (then A))"), 2),
        (
            format!("(when a1 b ({deep}) {long} {nots} c) (then a1))"),
            2,
        ),
        (
            format!("(when a1 b ({deep}) {long} {nots} c (then a1 a2))"),
            2,
        ),
        (
            format!("(when a1 b ({deep}) {long} {nots} c (then a1))"),
            17,
        ),
        (
            format!("(when {deep} and {long} or {nots} c (then a1))"),
            18,
        ),
        (format!("(when {deep} and c or {nots} c (then {long}))"), 18),
        (format!("(when a1 and {long} or {nots} c (then a1))"), 3),
        (format!("(when a1 and c or {nots} c (then U))"), 3),
        (format!("(when a1 and c or {nots} c (then a1))"), 4),
        ("(when a1 and a2 or a3 (then c))".to_string(), 4),
        ("(when a1 (then c))".to_string(), 5),
        ("(when not c (then a1))".to_string(), 5),
        ("(when not a1 (then a1))".to_string(), 7),
    ] {
        assert_eq!(refused(base(&line).as_bytes()), (number, 3), "{line}");
    }
    // The earliest faulty line, whatever its number.
    let two = base("(when not a1 (then a1))\n(when a1");
    assert_eq!(refused(two.as_bytes()), (7, 3));
    let two = base("(when a1 a1 (then a1))\n(rule (head A) (body) (not))");
    assert_eq!(refused(two.as_bytes()), (17, 3));
}

#[test]
fn the_limit_of_atoms() {
    let with = |declared: usize, condition: &str| {
        let names = many("a", declared);
        format!("(vary{names})\n(fix)\n(when {condition} (then a0))\n")
    };
    for (declared, connectives) in [(256, 0), (255, 1), (250, 6), (1, 255)] {
        let fits = with(declared, &format!("{}a0", "not ".repeat(connectives)));
        assert_eq!(usize::from(rules(&fits)[1]), connectives + 1);
        let over = with(declared, &format!("{}a0", "not ".repeat(connectives + 1)));
        assert_eq!(refused(over.as_bytes()), (7, 3));
    }
    // All of the file together, on the line that is one too many.
    let line = "(when a0 and a1 (then a0))\n";
    let lines = |count: usize| format!("(vary{})\n(fix)\n{}", many("a", 250), line.repeat(count));
    assert_eq!(rules(&lines(6))[1], 8);
    assert_eq!(refused(lines(7).as_bytes()), (7, 9));
    // A rule behind it is none.
    accepted_after(&lines(6), "(rule (head a0) (body a1) (not))\n");
    // Without a connective nothing is added.
    accepted_after(&lines(6), "(when a0 (then a1))\n");
}

/// The text with the lines behind it is accepted.
fn accepted_after(text: &str, lines: &str) {
    let whole = format!("{text}{lines}");
    assert!(reader::read(whole.as_bytes()).is_ok());
}

#[test]
fn the_limit_of_rules() {
    let before = |rules: usize| {
        let rule = "(rule (head) (body) (not))\n";
        format!("(vary a)\n(fix)\n{}", rule.repeat(rules))
    };
    for (line, rules) in [
        ("(when a (then a))\n", 1),
        ("(when not a (then a))\n", 3),
        ("(when a and a (then a))\n", 4),
        ("(when a or a (then a))\n", 4),
        ("(when not a and a (then a))\n", 6),
    ] {
        let fits = format!("{}{line}", before(1_024 - rules));
        assert_eq!(stores(&fits).0[3], 1_024);
        assert_eq!(refused(format!("{fits}{line}").as_bytes()).0, 7);
        let over = format!("{}{line}", before(1_025 - rules));
        assert_eq!(refused(over.as_bytes()), (7, 1_028 - rules as u64));
        let rule = format!("{fits}(rule (head) (body) (not))\n");
        assert_eq!(refused(rule.as_bytes()).0, 7);
    }
}

#[test]
fn the_limit_of_occurrences() {
    // 81 rules of 100 occurrences leave room for 92.
    let names = many("a", 50);
    let hundred = format!("(rule (head{names}) (body{names}) (not))\n");
    let start = format!("(vary{names})\n(fix)\n{}", hundred.repeat(81));
    let filled = |places: usize| {
        let names = many("a", places);
        format!("{start}(rule (head{names}) (body) (not))\n")
    };
    // Two for the rule of `then`; seven for a pair, one less where its parts are the same atom; four
    // for `not`.
    for (condition, places) in [
        ("a0", 2),
        ("not a0", 6),
        ("a0 and a1", 9),
        ("a0 or a1", 9),
        ("a0 and a0", 8),
        ("a0 or a0", 8),
        ("not a0 and a1", 13),
    ] {
        let line = format!("(when {condition} (then a2))\n");
        // 8,100 and `room` occurrences before it.
        let room = 92 - places;
        let (first, rest) = (room.min(50), room - room.min(50));
        let more = format!("(rule (head{}) (body) (not))\n", many("a", rest));
        let fits = format!("{}{more}{line}", filled(first));
        let (program, _) = reader::read(fits.as_bytes()).expect(condition);
        assert_eq!(program.occurrences(), 8_192, "{condition}");
        let more = format!("(rule (head{}) (body) (not))\n", many("a", rest + 1));
        let over = format!("{}{more}{line}", filled(first));
        assert_eq!(refused(over.as_bytes()), (7, 86), "{condition}");
        assert_eq!(
            refused(format!("{fits}(rule (head a0) (body) (not))\n").as_bytes()),
            (7, 87)
        );
    }
}

/// States, verdicts and translations go by the stores.
#[test]
fn answers_go_by_the_stores() {
    let text = format!("{FILE_A}(when not dark (then sensor))\n");
    // sensor, lamp, dark, T.1.
    assert_eq!(states(&text), [6]);
    let printed = |text: &str| String::from_utf8(programs::states(text.as_bytes())).unwrap();
    assert_eq!(printed(&text), "(state lamp dark)\n(total 1)\n");
    let text = "(min a)\n(vary b)\n(fix c)\n(when not b and c (then a))\n";
    assert_eq!(
        printed(text),
        "(state T.1)\n(state b)\n(state b c)\n(total 3)\n"
    );
    let delivered = programs::translate(text.as_bytes());
    let delivered = String::from_utf8(delivered).unwrap();
    let declared =
        "(atoms a b T.1 T.2 c N.a N.b N.T.1 N.T.2 N.c S.a S.b S.T.1 S.T.2 D.a E.0 E.1 U)\n";
    assert!(delivered.starts_with(declared), "{delivered}");
    accepted(&delivered);
}

/// Sixty atoms are listed with those that conditions make.
#[test]
fn sixty_atoms_with_the_made_ones() {
    let file = |declared: usize| {
        let facts: String = (0..declared)
            .map(|i| format!("(rule (head a{i}) (body) (not))\n"))
            .collect();
        let line = "(when not a0 or a1 (then a0))\n";
        format!("(vary{})\n(fix)\n{facts}{line}", many("a", declared))
    };
    let listed = programs::states(file(58).as_bytes());
    assert_eq!(
        String::from_utf8(listed).unwrap(),
        format!("(state{} T.2)\n(total 1)\n", many("a", 58))
    );
    assert_eq!(programs::states(file(59).as_bytes()), b"(refused 11 0)\n");
}

/// A line as long as the limit ends as any other, and needs no deep stack.
#[test]
fn the_longest_lines() {
    let file = |before: &str, part: &str, count: usize, inside: &str, after: &str| {
        let (part, after) = (part.repeat(count), after.repeat(count));
        format!("(vary a)\n(fix)\n{before}(when {part}{inside}{after} (then a))\n").into_bytes()
    };
    assert_eq!(refused(&file("", "not ", 229_000, "a", "")), (7, 3));
    assert_eq!(refused(&file("", "not ", 229_000, "", "")), (17, 3));
    assert_eq!(refused(&file("", "(", 450_000, "a", ")")), (18, 3));
    assert_eq!(refused(&file("", "(", 450_000, "", ")")), (17, 3));
    assert_eq!(refused(&file("", "(", 900_000, "a", "")), (2, 3));
    assert_eq!(refused(&file("", ")", 900_000, "a", "")), (2, 3));
    assert_eq!(refused(&file("", "not(", 180_000, "a", ")")), (18, 3));
    assert_eq!(refused(&file("", "a and ", 152_000, "a", "")), (7, 3));
    assert_eq!(refused(&file("", "(a or ", 128_000, "a", ")")), (18, 3));
    assert_eq!(refused(&file("", "a ", 450_000, "", "")), (17, 3));
    assert_eq!(refused(&file("", "N.a and ", 114_000, "a", "")), (3, 3));
}

/// The example, with what its page tells of it.
#[test]
fn the_example() {
    let typed = include_str!("../../../examples/conditions.pref");
    let listed = "(state bad_lamp visit T.6 T.7 T.8 T.9 touch night)\n(total 1)\n";
    assert_eq!(programs::states(typed.as_bytes()), listed.as_bytes());
    let direct = reader::read_directly(typed.as_bytes()).unwrap();
    let planner = direct.of_the_planner();
    assert_eq!(planner.conditions.len(), 2);
    // bad_pad, bad_lamp, visit, touch, lit, night
    assert_eq!(planner.preferred_sets(), [0b101110]);
}

/// The files of docs/FORMAT.md's section on conditions, each beside what is made of it.
#[test]
fn the_files_of_the_page() {
    const PAGE: &str = include_str!("../../../docs/FORMAT.md");
    const COLUMN: usize = 44;
    let start = PAGE.find("### Conditions\n").expect("the section");
    let section = &PAGE[start..];
    let section = &section[..section.find("### A plain program\n").expect("the next one")];
    let mut files = 0;
    for block in section
        .split("\n\n")
        .filter(|block| block.contains("(vary"))
    {
        let (mut typed, mut made) = (String::new(), String::new());
        for line in block.lines() {
            let (left, right) = line.split_at(COLUMN.min(line.len()));
            for (side, text) in [(left, &mut typed), (right, &mut made)] {
                if !side.trim().is_empty() {
                    *text += &format!("{}\n", side.trim());
                }
            }
        }
        becomes(&typed, &made);
        files += 1;
    }
    assert_eq!(files, 3);
}

/// The refusals that the page tells of conditions.
#[test]
fn the_refusals_of_the_page() {
    const PAGE: &str = include_str!("../../../docs/FORMAT.md");
    let mut number = 0;
    let mut rows = 0;
    for line in PAGE.lines().filter(|line| line.starts_with("| ")) {
        let cells: Vec<&str> = line.split('|').map(str::trim).collect();
        let [_, first, _, text, at, _] = cells[..] else {
            continue;
        };
        number = first.parse().unwrap_or(number);
        let (Ok(at), true) = (at.parse::<u64>(), text.contains("`(when")) else {
            continue;
        };
        // What stands in the text's own quotes, up to a remark behind it.
        let quoted: Vec<&str> = text.split('`').collect();
        let mut lines = String::new();
        for pair in quoted.chunks(2) {
            if let [between, line] = pair {
                if between.contains('(') || between.contains("with") {
                    break;
                }
                lines += &format!("{line}\n");
            }
        }
        let deep = format!("(when {} (then a))", brackets(33, "a"));
        let lines = lines.replace("(when ((..a..)) (then a))", &deep);
        assert_eq!(refused(lines.as_bytes()), (number, at), "{line}");
        rows += 1;
    }
    assert_eq!(rows, 10);
}
