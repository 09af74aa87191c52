//! Document 02, W-205, through the binding: files as a person types them, and the canonical text.

use rigtomato::{lent, Kind, Program, Refusal, LARGEST_BUDGET};

const FILE_A: &str = "(min sensor)\n(min lamp)\n(vary dark)\n(fix)\n\
    (rule (head sensor lamp) (body) (not))\n(rule (head dark) (body lamp) (not))\n";

/// File A with comments, blank lines and aligned lists.
const TYPED: &str = "; one of two parts is at fault\n\n\
    ( min sensor )\n(min lamp)      ; the lesser fault\n(vary  dark)\n(fix)\n\n\
    (rule (head sensor lamp) (body)      (not))\n\
    (rule (head dark)        (body lamp) (not))  ; no light\n";

/// The same rules in another sequence, one of them twice, and a name that no rule has.
const REARRANGED: &str = "(min sensor)\n(min lamp pad)\n(vary dark)\n(fix)\n\
    (rule(head dark)(body lamp)(not))\n(rule(head lamp sensor)(body)(not))\n\
    (rule(head sensor lamp)(body)(not))\n";

fn read(text: &str) -> Program {
    Program::read(text.as_bytes()).unwrap()
}

fn refused(text: &str) -> (Refusal, Option<u64>) {
    let refused = Program::read(text.as_bytes()).unwrap_err();
    (refused.refusal, refused.line)
}

#[test]
fn spacing_says_nothing() {
    assert_eq!(read(TYPED), read(FILE_A));
    assert_eq!(read(TYPED).write(), FILE_A.as_bytes());
    let plain = read("\n ( atoms a N.a ) ; two\n(rule(head a)(body)(not N.a))\n");
    assert_eq!(plain.kind(), Kind::Plain);
    let strict = "(atoms a N.a)\n(rule (head a) (body) (not N.a))\n";
    assert_eq!(plain.write(), strict.as_bytes());
}

#[test]
fn lines_are_counted_as_typed() {
    let form = |line| (Refusal::Form, Some(line));
    assert_eq!(refused("; no form\n\n"), form(3));
    assert_eq!(refused("\n(vary)\n\n(fix) (fix)\n"), form(4));
    assert_eq!(refused("(vary)\n(fix)\n; the end"), form(3));
    assert_eq!(refused("(vary\ta)\n(fix)\n"), form(1));
    assert_eq!(refused("(vary)\r\n(fix)\r\n"), form(1));
    assert_eq!(
        refused("\n(vary a) ; one\n(fix a)\n"),
        (Refusal::DeclaredTwice, Some(3))
    );
    assert_eq!(
        refused("(vary)\n\n(fix)\n;\n(rule(head a)(body)(not))\n"),
        (Refusal::NotDeclared, Some(5))
    );
}

#[test]
fn canonical_texts() {
    for text in [FILE_A, TYPED, REARRANGED] {
        assert_eq!(read(text).write_canonical(), FILE_A.as_bytes());
    }
    let again = read(std::str::from_utf8(&read(REARRANGED).write_canonical()).unwrap());
    assert_eq!(again.write_canonical(), FILE_A.as_bytes());
    let states = |text| -> Vec<u64> {
        let states: Result<_, _> = read(text).states(LARGEST_BUDGET).collect();
        states.unwrap()
    };
    assert_eq!(states(REARRANGED), states(FILE_A));
    // Another sequence of declarations is another file.
    let other = FILE_A.replace("(min sensor)\n(min lamp)", "(min lamp)\n(min sensor)");
    assert_ne!(read(&other).write_canonical(), FILE_A.as_bytes());
    let plain =
        read("(atoms b a)\n(rule (head a b) (body) (not))\n(rule (head) (body a) (not b))\n");
    let expected = "(atoms b a)\n(rule (head) (body a) (not b))\n(rule (head b a) (body) (not))\n";
    assert_eq!(plain.write_canonical(), expected.as_bytes());
}

/// A list that ends first stands before, and heads count before bodies, bodies before `not` lists.
#[test]
fn the_order_of_rules() {
    let text = "(atoms a b)\n\
        (rule (head) (body) (not))\n(rule (head) (body) (not a))\n(rule (head) (body a) (not))\n\
        (rule (head a) (body) (not b))\n(rule (head a) (body a b) (not))\n\
        (rule (head a) (body b) (not))\n(rule (head a b) (body) (not))\n\
        (rule (head b) (body) (not))\n";
    let mut lines: Vec<&str> = text.split_inclusive('\n').collect();
    assert_eq!(read(text).write_canonical(), text.as_bytes());
    lines[1..].reverse();
    assert_eq!(read(&lines.concat()).write_canonical(), text.as_bytes());
}

/// In stores handed in `a`, `v` and `f`, which no rule has, stay; of two equal rules one is kept.
#[test]
fn stores_handed_in() {
    let rules = [1, 4, 2, 2, 1, 2, 17, 18, 1, 0, 0, 1, 1, 0, 0, 1];
    let names = b"\x01a\x01b\x01v\x01f";
    let expected = b"(min a)\n(min b)\n(vary v)\n(fix f)\n(rule (head b) (body) (not))\n";
    let write = |rules: &[u16], names: &[u8], room: usize| {
        let mut out = vec![7; room];
        (lent::write_canonical(rules, names, &mut out), out)
    };
    let (written, out) = write(&rules, names, expected.len() + 2);
    assert_eq!(written, Ok(expected.len()));
    assert_eq!(out, [&expected[..], &[7, 7]].concat());
    let refusals = [
        (
            write(&rules, names, expected.len() - 1),
            Refusal::OutputShort,
        ),
        (write(&rules, b"\x01a", 0), Refusal::NameStore),
        (write(&rules[1..], b"\x01a", 0), Refusal::RuleStore),
    ];
    for ((refused, out), refusal) in refusals {
        assert_eq!(refused, Err(refusal));
        assert!(out.iter().all(|byte| *byte == 7));
    }
}

/// The most rules on a thread of the ordinary size.
#[test]
fn an_ordinary_thread_is_enough() {
    let names: String = (0..1_100).map(|i| format!(" a{i}")).collect();
    let rule = |i: usize| format!("(rule (head a{}) (body a{}) (not))\n", i % 1_100, i / 1_100);
    let rules: String = (0..4_200).rev().map(rule).collect();
    let text = format!("(atoms{names})\n{rules}");
    let work = move || {
        let plain = read(&text);
        let canonical = plain.write_canonical();
        assert_eq!(canonical.len(), text.len());
        let again = Program::read(&canonical).unwrap();
        assert_eq!(again.rules(), 4_200);
        assert_eq!(again.write_canonical(), canonical);
    };
    std::thread::spawn(work).join().unwrap();
}
