//! Document 02, W-205: files as a person types them, each sentence by a case.

mod common;

use common::{accepted, many, refused, rules, states, stores, FILE_A};
use reference::canonical::canonical;
use reference::lent;
use reference::limits::TEXT_LIMIT;
use reference::pieces::strict;
use reference::verdicts::Verdict;
use reference::{programs, reader, writer};

/// The text that the writer gives for an accepted one.
fn written(text: &str) -> String {
    let (program, names) = reader::read(text.as_bytes()).expect("an accepted text");
    String::from_utf8(writer::write(&program, &names)).unwrap()
}

/// The typed text says what the strict one says, which is its own strict form and comes back.
fn says(typed: &str, expected: &str) {
    accepted(expected);
    assert_eq!(stores(typed), stores(expected), "{typed:?}");
    assert_eq!(written(typed), expected, "{typed:?}");
    assert_eq!(strict(typed.as_bytes()), expected.as_bytes(), "{typed:?}");
    assert_eq!(strict(expected.as_bytes()), expected.as_bytes());
}

const SMALL: &str = "(vary a b)\n(fix)\n(rule (head a) (body b) (not))\n";
const PLAIN: &str = "(atoms a N.a)\n(rule (head a) (body) (not N.a))\n";

/// The same text with one of its lines, from 1, in another form.
fn with_line(text: &str, number: usize, line: &str) -> String {
    let mut lines: Vec<&str> = text.lines().collect();
    lines[number - 1] = line;
    lines.iter().map(|line| format!("{line}\n")).collect()
}

#[test]
fn runs_of_spaces_anywhere() {
    for line in [
        "(vary  a b)",
        "(vary a   b)",
        " (vary a b)",
        "(vary a b) ",
        "( vary a b)",
        "(vary a b )",
        "    (   vary    a    b    )    ",
    ] {
        says(&with_line(SMALL, 1, line), SMALL);
    }
    for line in ["(fix )", "( fix)", "  (  fix  )  "] {
        says(&with_line(SMALL, 2, line), SMALL);
    }
    for line in [
        "(rule  (head a)  (body b)  (not))",
        "( rule (head a) (body b) (not) )",
        "(rule ( head a ) ( body b ) ( not ))",
        "  (  rule  (  head  a  )  (  body  b  )  (  not  )  )  ",
    ] {
        says(&with_line(SMALL, 3, line), SMALL);
    }
    says("  ( min   ) \n( vary)\n(fix )\n", "(min)\n(vary)\n(fix)\n");
    says(&with_line(PLAIN, 1, "  ( atoms  a  N.a )"), PLAIN);
    says(
        &with_line(PLAIN, 2, " (rule ( head a ) ( body ) ( not  N.a ) ) "),
        PLAIN,
    );
}

#[test]
fn no_space_is_needed_beside_a_bracket() {
    says(&with_line(SMALL, 3, "(rule(head a)(body b)(not))"), SMALL);
    says(&with_line(PLAIN, 2, "(rule(head a)(body)(not N.a))"), PLAIN);
    // Between two words one is needed.
    assert_eq!(refused(b"(varya b)\n(fix)\n"), (2, 1));
    assert_eq!(
        refused(b"(vary a)\n(fix)\n(rule(heada)(body)(not))\n"),
        (2, 3)
    );
}

/// Words that the brackets cut are other words.
#[test]
fn brackets_part_words() {
    for line in [
        "(min(a))",
        "(vary(a))",
        "(va(ry a)",
        "(vary a()b)",
        "(vary) a",
    ] {
        let text = format!("{line}\n(fix)\n");
        assert_eq!(refused(text.as_bytes()), (2, 1), "{line}");
    }
    for rule in [
        "(rule(head(a))(body)(not))",
        "(rule((head a)(body)(not)))",
        "((rule(head a)(body)(not)))",
        "(rule(head a)(body)(not)",
        "(rule(head a)(body)(not)))",
        "(rule(head a)(body)(not))b",
        "(rule(head a)b(body)(not))",
        "(rule b(head a)(body)(not))",
        "b(rule(head a)(body)(not))",
    ] {
        let text = format!("(vary a b)\n(fix)\n{rule}\n");
        assert_eq!(refused(text.as_bytes()), (2, 3), "{rule}");
    }
}

#[test]
fn blank_lines() {
    for blank in ["\n", " \n", "        \n", "\n\n   \n\n"] {
        let mut typed = blank.to_string();
        for line in SMALL.lines() {
            typed += &format!("{line}\n{blank}");
        }
        says(&typed, SMALL);
        says(&format!("{blank}{PLAIN}{blank}"), PLAIN);
    }
}

#[test]
fn comments_go_to_the_end_of_their_line() {
    for comment in [
        ";",
        "; what nobody knows",
        ";;; (vary c) ; )",
        ";\t\r\0\u{e9} (((",
        "      ; spaces before it",
    ] {
        for (number, line) in (1..).zip(SMALL.lines()) {
            says(
                &with_line(SMALL, number, &format!("{line}{comment}")),
                SMALL,
            );
            let above = format!("{comment}\n{line}");
            says(&with_line(SMALL, number, &above), SMALL);
        }
        says(&format!("{SMALL}{comment}\n"), SMALL);
        says(&format!("{comment}\n{PLAIN}"), PLAIN);
    }
}

/// Directly behind a word or a bracket, too; what it cuts off is then lacking.
#[test]
fn a_comment_needs_no_space_before_it() {
    for line in ["(vary a b;)", "(vary a;b)", "(vary;a b)", "(;vary a b)"] {
        let text = with_line(SMALL, 1, line);
        assert_eq!(refused(text.as_bytes()), (2, 1), "{line}");
    }
    for line in [
        "(rule (head a) (body b) (not);)",
        "(rule (head a) (body b;) (not))",
        "(rule (head a) (body ;b) (not))",
        "(rule;(head a) (body b) (not))",
    ] {
        let text = with_line(SMALL, 3, line);
        assert_eq!(refused(text.as_bytes()), (2, 3), "{line}");
    }
    // In front of a form it leaves a blank line.
    assert_eq!(refused(b"(vary)\n;(fix)\n"), (2, 3));
    assert_eq!(refused(b";(vary)\n(fix)\n"), (2, 2));
    says(";(min b)\n(vary)\n(fix)\n", "(vary)\n(fix)\n");
    says("(vary);(fix)\n(fix)\n", "(vary)\n(fix)\n");
}

/// A comment ends with its line and says nothing, whatever stands in it.
#[test]
fn a_comment_ends_with_its_line() {
    says("(vary) ; (\n(fix) ; \\\n", "(vary)\n(fix)\n");
    says("; (atoms a)\n; (min a)\n(vary)\n(fix)\n", "(vary)\n(fix)\n");
    assert_eq!(refused(b"(vary) ; one\n(fix) ; two\n) ; three\n"), (2, 3));
}

/// Only byte 32 is a space.
#[test]
fn other_bytes_belong_to_words() {
    for byte in ["\t", "\r", "\0", "\u{b}", "\u{c}", "\u{a0}", "\u{7f}"] {
        for line in [
            format!("(vary{byte}a b)"),
            format!("(vary a{byte}b)"),
            format!("(vary {byte} a b)"),
            format!("(vary a b{byte})"),
            format!("{byte}(vary a b)"),
            format!("(vary a b){byte}"),
            format!("({byte}vary a b)"),
        ] {
            let text = with_line(SMALL, 1, &line);
            assert_eq!(refused(text.as_bytes()), (2, 1), "{line:?}");
        }
        // A line of nothing else is not blank.
        let text = format!("(vary)\n{byte}\n(fix)\n");
        assert_eq!(refused(text.as_bytes()), (2, 2), "{byte:?}");
        let text = format!("(vary)\n(fix)\n  {byte} ; x\n");
        assert_eq!(refused(text.as_bytes()), (2, 3), "{byte:?}");
    }
    let windows = FILE_A.replace('\n', "\r\n");
    assert_eq!(refused(windows.as_bytes()), (2, 1));
    // In a comment they say nothing.
    says("(vary);\t\n(fix) ;\r\n", "(vary)\n(fix)\n");
}

#[test]
fn one_form_a_line() {
    for line in [
        "(vary) (fix)",
        "(vary)(fix)",
        "(vary)()",
        "(vary) )",
        "(vary))",
        "(vary) (",
    ] {
        assert_eq!(refused(format!("{line}\n").as_bytes()), (2, 1), "{line}");
    }
    let rule = "(rule (head) (body) (not))";
    for between in ["", " "] {
        let text = format!("(vary)\n(fix)\n{rule}{between}{rule}\n");
        assert_eq!(refused(text.as_bytes()), (2, 3));
    }
    // Nor does a form go over two lines.
    assert_eq!(refused(b"(vary\n)\n(fix)\n"), (2, 1));
    assert_eq!(refused(b"(vary)\n(fix\n)\n"), (2, 2));
    assert_eq!(
        refused(b"(vary)\n(fix)\n(rule (head) (body)\n  (not))\n"),
        (2, 3)
    );
    assert_eq!(refused(b"(vary ; a\n b)\n(fix)\n"), (2, 1));
}

/// Byte 10 ends every line, the last one too, blank or comment or not.
#[test]
fn the_last_line_ends_too() {
    for last in [
        "(rule (head) (body) (not))",
        ";",
        "; the end",
        " ",
        "    ",
        " ; the end",
        "(rule (head) (body) (not)) ; the end",
    ] {
        let text = format!("(vary)\n(fix)\n{last}");
        assert_eq!(refused(text.as_bytes()), (2, 3), "{last:?}");
        assert!(reader::read(format!("{text}\n").as_bytes()).is_ok());
        let plain = format!("(atoms)\n\n{last}");
        assert_eq!(refused(plain.as_bytes()), (2, 3), "{last:?}");
        assert!(reader::read(format!("{plain}\n").as_bytes()).is_ok());
    }
    assert_eq!(refused(b";"), (2, 1));
    assert_eq!(refused(b" "), (2, 1));
    assert_eq!(refused(b"\n;"), (2, 2));
    assert_eq!(refused(b"(vary)\n(fix)"), (2, 2));
    assert_eq!(refused(b"(vary)\n(fix) ;"), (2, 2));
}

/// Lines are counted as typed.
#[test]
fn blank_lines_are_counted() {
    let typed = "; a file\n\n(vary a) ; one\n\n   \n(fix)\n\n; rules\n";
    let rule = |rule: &str| refused(format!("{typed}{rule}\n").as_bytes());
    assert_eq!(rule("(rule"), (2, 9));
    assert_eq!(rule("(rule (head N.a) (body) (not))"), (3, 9));
    assert_eq!(rule("\n\n (rule (head b)(body)(not))"), (5, 11));
    assert_eq!(rule("(rule (head a a) (body) (not)) ; twice"), (6, 9));
    assert_eq!(rule(";\n(rule (head) (body) (not a))"), (8, 10));
    assert_eq!(refused(b"\n\n(vary a)\n\n(fix a)\n"), (4, 5));
    let many_rules = "\n(rule (head) (body) (not)) ;\n".repeat(1_025);
    let text = format!("(vary)\n(fix)\n{many_rules}");
    assert_eq!(refused(text.as_bytes()), (7, 2 + 2 * 1_025));
}

/// A missing line stands one past the last, whatever the last is.
#[test]
fn missing_lines() {
    assert_eq!(refused(b""), (2, 1));
    assert_eq!(refused(b"\n"), (2, 2));
    assert_eq!(refused(b"\n\n  \n"), (2, 4));
    assert_eq!(refused(b"; nothing\n"), (2, 2));
    assert_eq!(refused(b"; (vary)\n; (fix)\n"), (2, 3));
    assert_eq!(refused(b"; (atoms)\n"), (2, 2));
    assert_eq!(refused(b"(min a)\n\n"), (2, 3));
    assert_eq!(refused(b"(vary a)\n; no more\n\n"), (2, 4));
}

/// The kind is plain exactly when the first form's first word is `atoms`.
#[test]
fn the_kind() {
    for start in [
        "(atoms a U)",
        "( atoms a U )",
        "  (atoms a U)",
        "\n(atoms a U)",
        "; (min a)\n\n  ( atoms a U) ; (vary)",
    ] {
        says(&format!("{start}\n"), "(atoms a U)\n");
    }
    for start in [
        "(atomsx)",
        "(atomsx a)",
        "(atom)",
        "(Atoms)",
        "(atoms\ta)",
        "atoms",
        "(",
        "((atoms))",
        "( (atoms)",
        "()(atoms)",
        "(atoms",
        "(atoms a))",
        "(atoms(a))",
        "(atoms;a)",
    ] {
        assert_eq!(refused(format!("{start}\n").as_bytes()), (2, 1), "{start}");
    }
    // A name of a preference file, or a comment before its first form, makes no plain program.
    says(
        "; (atoms a)\n(min atoms)\n(vary)\n(fix)\n(rule(head atoms)(body)(not))\n",
        "(min atoms)\n(vary)\n(fix)\n(rule (head atoms) (body) (not))\n",
    );
    // In a plain program 257 atoms are few and a `not` list may be filled, wherever it starts.
    let names = many("a", 257);
    says(
        &format!("\n ( atoms{names} )\n(rule(head)(body)(not a7))\n"),
        &format!("(atoms{names})\n(rule (head) (body) (not a7))\n"),
    );
}

/// Words of the form match whole; a name may be any of them.
#[test]
fn whole_words() {
    for line in ["(minx)", "(mi)", "(min_)", "(min.)", "(minvary)"] {
        let text = format!("{line}\n(vary)\n(fix)\n");
        assert_eq!(refused(text.as_bytes()), (2, 1), "{line}");
    }
    for rule in [
        "(rulex(head)(body)(not))",
        "(rule(headx)(body)(not))",
        "(rule(head)(bod)(not))",
        "(rule(head)(body)(no t))",
    ] {
        let text = format!("(vary)\n(fix)\n{rule}\n");
        assert_eq!(refused(text.as_bytes()), (2, 3), "{rule}");
    }
    says(
        "(vary  rule head)\n(fix not)\n(rule(head rule)(body head not)(not))\n",
        "(vary rule head)\n(fix not)\n(rule (head rule) (body head not) (not))\n",
    );
}

/// Names, lists and limits are as in a strict file, and the lowest number on the earliest line counts.
#[test]
fn faults_are_those_of_the_words() {
    let long = "a".repeat(25);
    assert_eq!(refused(format!("(vary {long} )\n").as_bytes()), (3, 1));
    assert_eq!(refused(b" ( vary a  a ) ; twice\n"), (4, 1));
    assert_eq!(refused(b"\n(vary  a  A )\n"), (2, 2));
    let file = |rule: &str| refused(format!("\n(vary a b)\n(fix) ;\n{rule}\n(\n").as_bytes());
    assert_eq!(file("(rule(head c)(body A)(not))"), (2, 4));
    assert_eq!(file(&format!("(rule(head c)(body {long})(not))")), (3, 4));
    assert_eq!(file("(rule(head a a)(body)(not c))"), (5, 4));
    assert_eq!(file("(rule(head)(body)(not b  b))"), (6, 4));
    assert_eq!(file("(rule(head)(body)(not  b ))"), (8, 4));
    assert_eq!(file("(rule(head)(body)(not))"), (2, 5));
    // A `(` behind the comment sign is none.
    assert_eq!(file("(rule(head)(body)(not));(rule"), (2, 5));
    let names = many("a", 257).replace(' ', "   ");
    assert_eq!(refused(format!(" (vary{names} )\n").as_bytes()), (7, 1));
}

/// Unused names are left out as before.
#[test]
fn unused_atoms() {
    let typed = "; a catalogue\n(min pad1  sensor)\n\n(min lamp) ; lamps\n( vary dark pad2 )\n\
        (fix)\n(rule(head sensor lamp)(body)(not))\n(rule(head dark)(body lamp)(not))\n";
    assert_eq!(written(typed), FILE_A);
    assert_eq!(states(typed), states(FILE_A));
}

/// The writer gives an accepted text back exactly when it is strict and has no unused atom.
#[test]
fn only_strict_text_comes_back() {
    for text in [FILE_A, SMALL, PLAIN, "(atoms)\n", "(min)\n(vary)\n(fix)\n"] {
        accepted(text);
        for at in 0..=text.len() {
            for inserted in [" ", "\n", ";", "; x\n", "  "] {
                let typed = format!("{}{inserted}{}", &text[..at], &text[at..]);
                if reader::read(typed.as_bytes()).is_ok() {
                    assert_ne!(written(&typed), typed);
                    assert_ne!(strict(typed.as_bytes()), typed.as_bytes());
                    let spaced = strict(typed.as_bytes());
                    assert_eq!(reader::read(&spaced), reader::read(typed.as_bytes()));
                }
            }
        }
    }
}

/// The two programs take such files too.
#[test]
fn the_programs() {
    let typed = "; file A\n\n(min  sensor)\n(min  lamp)\n(vary dark)\n(fix)\n\n\
        (rule (head sensor lamp) (body)      (not))\n\
        (rule (head dark)        (body lamp) (not))  ; no light\n";
    assert_eq!(
        programs::states(typed.as_bytes()),
        programs::states(FILE_A.as_bytes())
    );
    assert_eq!(
        programs::translate(typed.as_bytes()),
        programs::translate(FILE_A.as_bytes())
    );
    assert_eq!(programs::states(b"\n ( atoms )\n"), b"(refused 10 0)\n");
    assert_eq!(programs::states(b"\n\n"), b"(refused 2 3)\n");
}

/// The examples that are typed as a person does, with what their page tells of them.
#[test]
fn the_examples() {
    for (typed, listed) in [
        (
            include_str!("../../../examples/touch.pref"),
            "(state bad_lamp visit touch)\n(total 1)\n",
        ),
        (
            include_str!("../../../examples/inverters_by_rank.pref"),
            "(state ab3 b)\n(total 1)\n",
        ),
        (
            include_str!("../../../examples/file_a_typed.pref"),
            "(state lamp dark)\n(total 1)\n",
        ),
    ] {
        assert_ne!(strict(typed.as_bytes()), typed.as_bytes());
        assert_eq!(programs::states(typed.as_bytes()), listed.as_bytes());
    }
    let strict_file = include_str!("../../../examples/file_a.pref");
    accepted(strict_file);
    let typed = include_str!("../../../examples/file_a_typed.pref");
    let (program, names) = reader::read(typed.as_bytes()).unwrap();
    assert_eq!(
        writer::write(&canonical(&program), &names),
        strict_file.as_bytes()
    );
    let plain = rules(include_str!("../../../examples/switch.plain"));
    let yes = |set: &u64| matches!(lent::stable(&plain, *set, 99), Ok(Verdict::Yes { .. }));
    assert!((0..8).filter(yes).eq([2, 5]));
}

/// A text as long as the limit is read, whatever it is made of; the length is tested first.
#[test]
fn the_longest_texts() {
    let lines = |line: &str| line.repeat(TEXT_LIMIT / line.len());
    let fill = |start: &str, byte: u8| {
        let mut text = start.as_bytes().to_vec();
        text.resize(TEXT_LIMIT, byte);
        text
    };
    // Spaces: one line without its end, ended, and behind a form.
    assert_eq!(refused(&fill("", b' ')), (2, 1));
    let mut spaces = fill("", b' ');
    spaces[TEXT_LIMIT - 1] = b'\n';
    assert_eq!(refused(&spaces), (2, 2));
    let mut spaces = fill("(vary)\n(fix)", b' ');
    spaces[TEXT_LIMIT - 1] = b'\n';
    assert_eq!(reader::read(&spaces), reader::read(b"(vary)\n(fix)\n"));
    let mut spaces = fill("(atoms", b' ');
    spaces.splice(TEXT_LIMIT - 2.., *b")\n");
    assert_eq!(reader::read(&spaces), reader::read(b"(atoms)\n"));
    // Comment lines, and one long comment.
    let comments = lines(";\n");
    assert_eq!(refused(comments.as_bytes()), (2, 458_753));
    let comments = lines("; fifteen bytes\n");
    assert_eq!((comments.len(), comments.len() % 16), (TEXT_LIMIT, 0));
    assert_eq!(refused(comments.as_bytes()), (2, 57_345));
    assert_eq!(refused(&fill("", b';')), (2, 1));
    let mut comment = fill("(atoms)", b';');
    comment[TEXT_LIMIT - 1] = b'\n';
    assert!(reader::read(&comment).is_ok());
    // Brackets on one line, and blank lines.
    assert_eq!(refused(&fill("", b'(')), (2, 1));
    assert_eq!(refused(&fill("(vary", b')')), (2, 1));
    assert_eq!(refused(&fill("", b'\n')), (2, TEXT_LIMIT as u64 + 1));
    assert!(reader::read(&fill("(vary)\n(fix)\n", b'\n')).is_ok());
    // With one byte more each is too long.
    for byte in [b' ', b';', b'\n', b'('] {
        let mut text = fill("(vary)\n(fix)\n", byte);
        text.push(b'\n');
        assert_eq!(refused(&text), (1, 0));
    }
}
