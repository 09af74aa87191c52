//! Document 02, W-203, through the binding: what is left out, and stores that are taken as they stand.

use rigtomato::{lent, Next, Program, Refusal, Role, TextRefusal, Verdict, LARGEST_BUDGET};

/// File A with names before, between and behind those that stand in a rule, and an emptied class.
const CATALOGUE: &str =
    "(min pad1 sensor pad2)\n(min pad3)\n(min lamp)\n(vary pad4 dark pad5)\n(fix pad6)\n";
const RULES: &str =
    "(rule (head sensor lamp) (body) (not))\n(rule (head dark) (body lamp) (not))\n";

fn catalogue() -> String {
    format!("{CATALOGUE}{RULES}")
}

#[test]
fn what_remains() {
    let file = Program::read(catalogue().as_bytes()).unwrap();
    assert_eq!((file.atoms(), file.classes()), (3, 3));
    assert_eq!(file.names().collect::<Vec<_>>(), ["sensor", "lamp", "dark"]);
    let roles = [Role::Minimised(1), Role::Minimised(3), Role::Varying];
    assert_eq!(file.roles().collect::<Vec<_>>(), roles);
    let expected = format!("(min sensor)\n(min)\n(min lamp)\n(vary dark)\n(fix)\n{RULES}");
    assert_eq!(file.write(), expected.as_bytes());
    let states: Result<Vec<u64>, _> = file.states(LARGEST_BUDGET).collect();
    assert_eq!(states, Ok(vec![6]));
    assert_eq!(file.preferred(8, 0), Err(Refusal::SetTooLarge));
    let plain = Program::read(&file.translate().unwrap()).unwrap();
    // 3n - f + p + k + 2
    assert_eq!(plain.atoms(), 16);
    assert!(plain.names().all(|name| !name.contains("pad")));
}

#[test]
fn a_plain_program_keeps_its_atoms() {
    let text = "(atoms a b U)\n(rule (head b) (body) (not))\n";
    let plain = Program::read(text.as_bytes()).unwrap();
    assert_eq!(plain.atoms(), 3);
    assert_eq!(plain.write(), text.as_bytes());
}

#[test]
fn unused_names_are_checked() {
    let refused = |declared: &str| {
        let refused = Program::read(format!("{declared}{RULES}").as_bytes()).unwrap_err();
        (refused.refusal, refused.line)
    };
    let declared = "(min sensor lamp)\n(vary dark";
    let long = "a".repeat(25);
    assert_eq!(
        refused(&format!("{declared} {long})\n(fix)\n")),
        (Refusal::Name, Some(2))
    );
    assert_eq!(
        refused(&format!("{declared} a)\n(fix a)\n")),
        (Refusal::DeclaredTwice, Some(3))
    );
    let many: String = (0..254).map(|i| format!(" a{i}")).collect();
    assert_eq!(
        refused(&format!("{declared})\n(fix{many})\n")),
        (Refusal::Limit, Some(3))
    );
}

#[test]
fn room_for_what_remains() {
    let text = catalogue();
    let file = Program::read(text.as_bytes()).unwrap();
    let (words, bytes) = (file.rule_store().len(), file.name_store().len());
    assert_eq!((words, bytes), (17, 17));
    let read = |words, bytes| {
        let (mut rules, mut names) = (vec![0; words], vec![0; bytes]);
        lent::read(text.as_bytes(), &mut rules, &mut names)
    };
    assert!(read(words, bytes).is_ok());
    let short = Err(TextRefusal {
        refusal: Refusal::OutputShort,
        line: None,
    });
    assert_eq!(read(words - 1, bytes), short);
    assert_eq!(read(words, bytes - 1), short);
}

/// The text of the stores in which `a`, `v` and `f` stand in no rule.
const TEXT: &str = "(min a)\n(min b)\n(vary v)\n(fix f)\n(rule (head b) (body) (not))\n";

/// In stores handed in they count.
#[test]
fn stores_handed_in() {
    let rules = [1, 4, 2, 1, 1, 2, 17, 18, 1, 0, 0, 1];
    let names = b"\x01a\x01b\x01v\x01f";
    let mut out = vec![0; 4_096];
    let length = lent::write(&rules, names, &mut out).unwrap();
    assert_eq!(out[..length], *TEXT.as_bytes());
    let length = lent::translate(&rules, names, &mut out).unwrap();
    let plain = Program::read(&out[..length]).unwrap();
    assert_eq!(plain.atoms(), 17);
    let yes = |set| {
        matches!(
            lent::preferred(&rules, set, 1 << 20),
            Ok(Verdict::Yes { .. })
        )
    };
    assert!((0..16).filter(|&set| yes(set)).eq([2, 6, 10, 14]));
    let next = lent::next_state(&rules, 5, 1 << 20);
    assert!(matches!(next, Ok(Next::State { set: 10, .. })));
    assert_eq!(lent::place(&rules, 14), Ok(7));
}

#[test]
fn their_text_read_again() {
    let read = Program::read(TEXT.as_bytes()).unwrap();
    assert_eq!(read.rule_store(), [1, 1, 2, 1, 2, 1, 0, 0, 0]);
    assert_eq!(read.name_store(), b"\x01b");
}
