//! Each refusal of document 01, with its line, and which one counts where there are several.

mod common;

use common::{accepted, many, refused, stores, tautology, FILE_A};
use reference::lent;
use reference::refusal::Reason;

#[test]
fn form_of_a_line() {
    let lines = [
        "(",
        ")",
        "()",
        "(vary",
        "vary)",
        "( )",
        "(vary a))",
        "((vary a)",
        "(vary (a))",
        "(vary\ta)",
        "(vary a)\r",
        "(Vary)",
        "(varya)",
        "(rule)",
        "(vary A)",
        "(vary _a)",
        "(vary _1)",
        "(vary _)",
        "(vary 1-a)",
        "(vary a-b)",
        "(vary a.b)",
        "(vary N.)",
        "(vary E.17)",
        "(vary E.00)",
        "(vary E.01)",
        "(vary E.)",
        "(vary N.N.a)",
        "(vary U.)",
        "(vary UU)",
        "(vary u.a)",
        "(vary T.0)",
        "(vary \u{e9})",
        "(vary a\0)",
        "(vary a) (fix)",
        "(vary a)(fix)",
        "(atom)",
    ];
    for line in lines {
        assert_eq!(
            refused(format!("{line}\n(fix)\n").as_bytes()),
            (2, 1),
            "{line:?}"
        );
    }
    let rules = [
        "(rule)",
        "(rule (head) (body))",
        "(rule (head) (body) (not)",
        "(rule (head) (body) (not)))",
        "(rule (head) (not) (body))",
        "(rule (body) (head) (not))",
        "(rules (head) (body) (not))",
        "(rule (head) (body) (not) (not))",
        "(fact a)",
        "(rule a (head) (body) (not))",
        "(rule (heads) (body) (not))",
        "(rule (head (a)) (body) (not))",
        "(when)",
        "(when a)",
        "(when a (then))",
        "(when a (then a)",
    ];
    for rule in rules {
        let preference = format!("(vary a)\n(fix)\n{rule}\n");
        assert_eq!(refused(preference.as_bytes()), (2, 3), "{rule:?}");
        let plain = format!("(atoms a)\n{rule}\n");
        assert_eq!(refused(plain.as_bytes()), (2, 2), "{rule:?}");
    }
}

#[test]
fn line_order_and_missing_lines() {
    assert_eq!(refused(b""), (2, 1));
    assert_eq!(refused(b"(min a)\n"), (2, 2));
    assert_eq!(refused(b"(vary a)\n"), (2, 2));
    assert_eq!(refused(b"(vary a)\n(fix)"), (2, 2));
    assert_eq!(refused(b"(fix)\n"), (2, 1));
    assert_eq!(refused(b"(fix)\n(vary)\n"), (2, 1));
    assert_eq!(refused(b"(vary)\n(vary)\n(fix)\n"), (2, 2));
    assert_eq!(refused(b"(vary)\n(min)\n(fix)\n"), (2, 2));
    assert_eq!(refused(b"(vary)\n(fix)\n(fix)\n"), (2, 3));
    assert_eq!(refused(b"(vary)\n(fix)\n(min)\n"), (2, 3));
    assert_eq!(refused(b"(rule (head) (body) (not))\n"), (2, 1));
    assert_eq!(refused(b"(vary)\n(rule (head) (body) (not))\n"), (2, 2));
    assert_eq!(refused(b"(vary)\n(atoms)\n"), (2, 2));
    // The kind is plain exactly when the first form's first word is `atoms`.
    assert_eq!(refused(b"(atoms"), (2, 1));
    assert_eq!(refused(b"(atomsx)\n"), (2, 1));
    assert_eq!(refused(b"(atoms)"), (2, 1));
    assert_eq!(refused(b"(atoms)\n(atoms)\n"), (2, 2));
    assert_eq!(refused(b"(atoms)\n(vary)\n"), (2, 2));
    assert_eq!(refused(b"(atom)\n"), (2, 1));
    accepted("(atoms)\n");
    accepted("(vary)\n(fix)\n");
    accepted("(min)\n(min)\n(vary)\n(fix)\n");
}

#[test]
fn names() {
    for name in ["N.a", "S.a", "D.a", "E.0", "E.9", "E.10", "E.16", "U"] {
        accepted(&format!("(atoms {name})\n"));
        assert_eq!(
            refused(format!("(vary {name})\n(fix)\n").as_bytes()),
            (3, 1)
        );
        let in_rule = format!("(vary a)\n(fix)\n(rule (head {name}) (body) (not))\n");
        assert_eq!(refused(in_rule.as_bytes()), (3, 3));
    }
    // Catalogue numbers.
    for name in ["7", "0", "1999_12", "00", "1a", "17", "e0"] {
        let rule = tautology(&format!(" {name}"));
        accepted(&format!("(vary {name})\n(fix)\n{rule}"));
        for prefix in ["", "N.", "S.", "D."] {
            accepted(&format!("(atoms {prefix}{name})\n"));
        }
    }
    let long = "a".repeat(25);
    for prefix in ["N.", "S.", "D."] {
        assert_eq!(
            refused(format!("(vary {prefix}{long})\n(fix)\n").as_bytes()),
            (3, 1)
        );
    }
    for name in [
        "N.", "N.A", "N._1", "N.N.a", "E.17", "E.00", "E.016", "E.a", "E.", "T.0", "U1", "Ua",
    ] {
        assert_eq!(
            refused(format!("(atoms {name})\n").as_bytes()),
            (2, 1),
            "{name}"
        );
        assert_eq!(
            refused(format!("(vary {name})\n(fix)\n").as_bytes()),
            (2, 1),
            "{name}"
        );
    }
    // The words of the form are house names too.
    accepted(
        "(atoms atoms rule head body not min vary fix)\n(rule (head not) (body head) (not body))\n",
    );
    accepted("(vary rule head a_b9 z)\n(fix)\n(rule (head rule head) (body z a_b9) (not))\n");
}

#[test]
fn declared_twice() {
    assert_eq!(refused(b"(vary a a)\n(fix)\n"), (4, 1));
    assert_eq!(refused(b"(min a)\n(vary a)\n(fix)\n"), (4, 2));
    assert_eq!(refused(b"(min a)\n(vary)\n(fix b a)\n"), (4, 3));
    assert_eq!(refused(b"(atoms U U)\n"), (4, 1));
}

#[test]
fn not_declared() {
    assert_eq!(
        refused(b"(vary a)\n(fix)\n(rule (head b) (body) (not))\n"),
        (5, 3)
    );
    assert_eq!(
        refused(b"(atoms a)\n(rule (head) (body) (not N.a))\n"),
        (5, 2)
    );
}

#[test]
fn twice_in_a_list() {
    assert_eq!(
        refused(b"(vary a)\n(fix)\n(rule (head a a) (body) (not))\n"),
        (6, 3)
    );
    accepted("(vary a)\n(fix)\n(rule (head a) (body a) (not))\n");
    assert_eq!(
        refused(b"(atoms a b)\n(rule (head) (body) (not a b a))\n"),
        (6, 2)
    );
    accepted("(atoms a)\n(rule (head a) (body a) (not a))\n");
}

#[test]
fn filled_not() {
    assert_eq!(
        refused(b"(vary a)\n(fix)\n(rule (head) (body) (not a))\n"),
        (8, 3)
    );
}

/// The earliest faulty line counts; on it, the lowest number.
#[test]
fn which_fault_counts() {
    let file = |rule: &str| format!("(vary a b)\n(fix)\n(rule {rule})\n(rule\n").into_bytes();
    let long = "a".repeat(25);
    assert_eq!(
        refused(&file(&format!("(head {long}) (body A) (not)"))),
        (2, 3)
    );
    assert_eq!(
        refused(&file(&format!("(head c) (body {long}) (not)"))),
        (3, 3)
    );
    assert_eq!(refused(&file("(head a a) (body) (not c)")), (5, 3));
    assert_eq!(refused(&file("(head) (body) (not b b)")), (6, 3));
    assert_eq!(refused(&file("(head) (body) (not b)")), (8, 3));
    assert_eq!(refused(&file("(head) (body) (not)")), (2, 4));
    // A long name and a second declaration; a second declaration past the limit of atoms.
    assert_eq!(
        refused(format!("(vary {long} {long})\n(fix)\n").as_bytes()),
        (3, 1)
    );
    assert_eq!(
        refused(format!("(vary{} a0)\n(fix)\n", many("a", 256)).as_bytes()),
        (4, 1)
    );
    // A 17th class, with and without a lower fault.
    let classes = "(min)\n".repeat(16);
    assert_eq!(refused(format!("{classes}(min a a)\n").as_bytes()), (4, 17));
    assert_eq!(refused(format!("{classes}(min\n").as_bytes()), (2, 17));
    assert_eq!(refused(format!("{classes}(min)\n").as_bytes()), (7, 17));
    // Past the limit of rules, or of places, with a filled `not` list.
    let rules = "(rule (head) (body) (not))\n".repeat(1_024);
    let text = format!("(vary a)\n(fix)\n{rules}(rule (head) (body) (not a))\n");
    assert_eq!(refused(text.as_bytes()), (7, 1_027));
    let text = format!("(vary a)\n(fix)\n{rules}(rule (head a a) (body) (not a))\n");
    assert_eq!(refused(text.as_bytes()), (6, 1_027));
    let names = many("a", 256);
    let full = format!("(rule (head{names}) (body{names}) (not))\n").repeat(16);
    let text = format!("(vary{names})\n(fix)\n{full}(rule (head) (body) (not a0))\n");
    assert_eq!(refused(text.as_bytes()), (7, 19));
}

#[test]
fn rule_stores() {
    let (a, names) = stores(FILE_A);
    assert_eq!(a, [1, 3, 2, 2, 1, 2, 17, 2, 0, 0, 0, 1, 1, 1, 0, 2, 1]);
    let mut out = [0; 4096];
    assert!(lent::write(&a, &names, &mut out).is_ok());
    let ten = Err(Reason::RuleStore);
    // Cut anywhere, or with a word more, it is no store.
    for length in 0..a.len() {
        assert_eq!(lent::write(&a[..length], &names, &mut out), ten);
    }
    assert_eq!(
        lent::write(&[a.as_slice(), &[0]].concat(), &names, &mut out),
        ten
    );
    let spoiled = [
        (0, 2),
        (0, 0),
        (1, 2),
        (1, 4),
        (1, 257),
        (2, 1),
        (2, 17),
        (3, 1),
        (3, 3),
        (4, 0),
        (4, 19),
        (4, 17),
        (5, 3),
        (6, 1),
        (6, 16),
        (6, 0),
        (7, 1),
        (7, 3),
        (9, 1),
        (10, 3),
        (10, 1),
        (15, 3),
        (16, 7),
    ];
    for (place, word) in spoiled {
        let mut store = a.clone();
        store[place] = word;
        assert_eq!(
            lent::write(&store, &names, &mut out),
            ten,
            "word {place} as {word}"
        );
        assert_eq!(lent::preferred(&store, 0, 0), Err(Reason::RuleStore));
        assert_eq!(lent::place(&store, 0), Err(Reason::RuleStore));
    }
    for (place, word) in [(2, 16), (2, 3), (5, 1), (5, 17), (6, 18), (10, 2), (16, 0)] {
        let mut store = a.clone();
        store[place] = word;
        assert!(
            lent::write(&store, &names, &mut out).is_ok(),
            "word {place} as {word}"
        );
    }
    // Of the other kind.
    let (plain, plain_names) = stores("(atoms a)\n");
    assert_eq!(plain, [0, 1, 0, 0]);
    assert_eq!(lent::translate(&plain, &plain_names, &mut out), ten);
    assert_eq!(lent::preferred(&plain, 0, 0), Err(Reason::RuleStore));
    assert_eq!(lent::next_state(&plain, 0, 0), Err(Reason::RuleStore));
    assert_eq!(lent::place(&plain, 0), Err(Reason::RuleStore));
    assert_eq!(lent::stable(&a, 0, 0), Err(Reason::RuleStore));
    assert_eq!(lent::write(&[0, 1, 1, 0], &plain_names, &mut out), ten);
}

#[test]
fn name_stores() {
    let (rules, names) = stores(&format!("(vary a bc)\n(fix)\n{}", tautology(" a bc")));
    assert_eq!(names, b"\x01a\x02bc");
    let mut out = [0; 4096];
    let bad: [&[u8]; 13] = [
        b"",
        b"\x01a",
        b"\x01a\x02b",
        b"\x01a\x02bcd",
        b"\x01a\x02bc\x00",
        b"\x01a\x01a",
        b"\x00\x02bc",
        b"\x01a\x01U",
        b"\x01a\x03N.a",
        b"\x01a\x02BC",
        b"\x01a\xffbc",
        b"\x01a\x19abcdefghijklmnopqrstuvwxy",
        b"\x01a\x02_7",
    ];
    for names in bad {
        assert_eq!(lent::write(&rules, names, &mut out), Err(Reason::NameStore));
        assert_eq!(
            lent::translate(&rules, names, &mut out),
            Err(Reason::NameStore)
        );
    }
    let good: [&[u8]; 4] = [
        b"\x01a\x01b",
        b"\x01b\x01a",
        b"\x01a\x017",
        b"\x01a\x18abcdefghijklmnopqrstuvwx",
    ];
    for names in good {
        assert!(lent::write(&rules, names, &mut out).is_ok());
    }
    // A plain store takes generated names, and a preference store does not.
    assert!(lent::write(&[0, 2, 0, 0], b"\x01U\x04E.16", &mut out).is_ok());
    assert_eq!(
        lent::write(&[0, 2, 0, 0], b"\x01U\x04E.17", &mut out),
        Err(Reason::NameStore)
    );
}

/// 10, 14, 11, 12, 13 and 9 are tested in this order.
#[test]
fn the_order_of_the_callers_refusals() {
    let names = many("a", 61);
    let sixty_one = format!("(vary{names})\n(fix)\n{}", tautology(&names));
    let sixty_one = stores(&sixty_one).0;
    let a = stores(FILE_A).0;
    let over = (1 << 40) + 1;
    assert_eq!(lent::preferred(&[], 1 << 60, over), Err(Reason::RuleStore));
    assert_eq!(
        lent::preferred(&sixty_one, u64::MAX, over),
        Err(Reason::TooManyAtoms)
    );
    assert_eq!(lent::preferred(&a, 8, over), Err(Reason::SetTooLarge));
    assert_eq!(lent::preferred(&a, 7, over), Err(Reason::BudgetTooLarge));
    assert_eq!(lent::next_state(&a, 9, over), Err(Reason::SetTooLarge));
    assert_eq!(lent::next_state(&a, 8, over), Err(Reason::BudgetTooLarge));
    assert!(lent::next_state(&a, 8, over - 1).is_ok());
    assert_eq!(lent::place(&[], u64::MAX), Err(Reason::RuleStore));
    assert_eq!(lent::place(&sixty_one, u64::MAX), Err(Reason::TooManyAtoms));
    assert_eq!(lent::place(&a, 8), Err(Reason::SetTooLarge));
    assert_eq!(lent::place(&a, 7), Ok(7));
    assert_eq!(lent::write(&[9], b"", &mut []), Err(Reason::RuleStore));
    assert_eq!(lent::write(&a, b"", &mut []), Err(Reason::NameStore));
    assert_eq!(
        lent::write(&a, &stores(FILE_A).1, &mut []),
        Err(Reason::OutputShort)
    );
    // The reader's refusal 9 comes after 1 to 8.
    let refusal = lent::read(b"(vary a a)\n(fix)\n", &mut [], &mut []).unwrap_err();
    assert_eq!((refusal.number(), refusal.line), (4, 1));
    let refusal = lent::read(b"(vary a)\n(fix)\n", &mut [], &mut []).unwrap_err();
    assert_eq!((refusal.number(), refusal.line), (9, 0));
}
