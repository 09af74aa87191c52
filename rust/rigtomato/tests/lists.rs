//! What the binding reads from a rule store: roles, lists, counts.

use rigtomato::{Kind, Program, Refusal, Role, HOUSE_NAME_LIMIT};

const TEXT: &str = "(min a b)\n(min)\n(min c)\n(vary d)\n(fix e)\n\
    (rule (head a d) (body b e) (not))\n(rule (head) (body) (not))\n(rule (head) (body c) (not))\n";

fn lists(program: &Program) -> Vec<[Vec<u16>; 3]> {
    let rules = program.rule_lists();
    rules
        .map(|rule| [rule.head.to_vec(), rule.body.to_vec(), rule.not.to_vec()])
        .collect()
}

#[test]
fn a_preference_file() {
    let file = Program::read(TEXT.as_bytes()).unwrap();
    assert_eq!((file.classes(), file.atoms(), file.rules()), (3, 5, 3));
    let roles = [
        Role::Minimised(1),
        Role::Minimised(1),
        Role::Minimised(3),
        Role::Varying,
        Role::Fixed,
    ];
    assert_eq!(file.roles().collect::<Vec<_>>(), roles);
    let expected = [
        [vec![0, 3], vec![1, 4], vec![]],
        [vec![], vec![], vec![]],
        [vec![], vec![2], vec![]],
    ];
    assert_eq!(lists(&file), expected);
    assert_eq!(file.occurrences(), 5);
}

#[test]
fn a_plain_program() {
    let text = "(atoms a b)\n(rule (head a) (body) (not b))\n(rule (head b) (body a) (not b a))\n";
    let plain = Program::read(text.as_bytes()).unwrap();
    assert_eq!((plain.classes(), plain.roles().count()), (0, 0));
    let expected = [[vec![0], vec![], vec![1]], [vec![1], vec![0], vec![1, 0]]];
    assert_eq!(lists(&plain), expected);
    assert_eq!(plain.occurrences(), 6);
}

/// Document 01's sums for a translation, as document 02, W-214, has them.
#[test]
fn a_translation_has_the_counts_that_are_promised() {
    let text = "(min sensor)\n(vary dark)\n(fix)\n(rule (head sensor dark) (body) (not))\n";
    let file = Program::read(text.as_bytes()).unwrap();
    let plain = Program::read(&file.translate().unwrap()).unwrap();
    assert_eq!(
        (plain.atoms(), plain.rules(), plain.occurrences()),
        (10, 18, 44)
    );
}

/// The limits are those at which the reader turns a text back.
#[test]
fn limits() {
    let names = |count: usize| (0..count).map(|i| format!(" a{i}")).collect::<String>();
    let read = |text: String| Program::read(text.as_bytes()).map_err(|refused| refused.refusal);
    for (kind, head, tail) in [
        (Kind::Plain, "(atoms", ""),
        (Kind::Preference, "(min", "(vary)\n(fix)\n"),
    ] {
        let limits = kind.limits();
        let atoms = |count| {
            let names = names(count);
            let rule = format!("(rule (head{names}) (body) (not))\n");
            read(format!("{head}{names})\n{tail}{rule}"))
        };
        assert_eq!(atoms(limits.atoms).unwrap().atoms(), limits.atoms);
        assert_eq!(atoms(limits.atoms + 1), Err(Refusal::Limit));

        let rule = "(rule (head) (body) (not))\n";
        let rules = |count| read(format!("{head})\n{tail}{}", rule.repeat(count)));
        assert_eq!(rules(limits.rules).unwrap().rules(), limits.rules);
        assert_eq!(rules(limits.rules + 1), Err(Refusal::Limit));

        let rule = format!("(rule (head{0}) (body{0}) (not))\n", names(32));
        let places = |more: &str| {
            let rules = rule.repeat(limits.occurrences / 64);
            read(format!("{head}{})\n{tail}{rules}{more}", names(32)))
        };
        assert_eq!(places("").unwrap().occurrences(), limits.occurrences);
        let one_more = places("(rule (head a1) (body) (not))\n");
        assert_eq!(one_more, Err(Refusal::Limit));
    }
    let classes = |count| read(format!("{}(vary)\n(fix)\n", "(min)\n".repeat(count)));
    let most = Kind::Preference.limits().classes;
    assert_eq!(classes(most).unwrap().classes(), most);
    assert_eq!(classes(most + 1), Err(Refusal::Limit));

    let named = |length: usize| read(format!("(vary {})\n(fix)\n", "a".repeat(length)));
    assert!(named(HOUSE_NAME_LIMIT).is_ok());
    assert_eq!(named(HOUSE_NAME_LIMIT + 1), Err(Refusal::Name));
}
