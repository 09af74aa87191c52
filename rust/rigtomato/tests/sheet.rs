//! Document 01's sheet through the binding, with places and order by document 02, W-206, and units by
//! W-207.

use rigtomato::{Kind, Next, Program, Refusal, Stopped, TextRefusal, Verdict, LARGEST_BUDGET};

const RULES: &str =
    "(rule (head sensor lamp) (body) (not))\n(rule (head dark) (body lamp) (not))\n";

fn file(declarations: &str) -> Program {
    Program::read(format!("{declarations}{RULES}").as_bytes()).unwrap()
}

fn states(program: &Program) -> Vec<u64> {
    program
        .states(LARGEST_BUDGET)
        .collect::<Result<_, _>>()
        .unwrap()
}

#[test]
fn file_a() {
    let a = file("(min sensor)\n(min lamp)\n(vary dark)\n(fix)\n");
    assert_eq!((a.kind(), a.atoms(), a.rules()), (Kind::Preference, 3, 2));
    assert_eq!(a.names().collect::<Vec<_>>(), ["sensor", "lamp", "dark"]);
    assert_eq!(states(&a), [6]);
    let verdict = |set, budget| a.preferred(set, budget).unwrap();
    assert_eq!(verdict(6, LARGEST_BUDGET), Verdict::Yes { units: 13 });
    assert_eq!(
        verdict(1, LARGEST_BUDGET),
        Verdict::Beaten { set: 6, units: 6 }
    );
    assert_eq!(verdict(0, LARGEST_BUDGET), Verdict::Broken { rule: 0 });
    assert_eq!(verdict(2, LARGEST_BUDGET), Verdict::Broken { rule: 1 });
    assert_eq!(verdict(1, 5), Verdict::Spent);
    assert_eq!(verdict(1, 6), Verdict::Beaten { set: 6, units: 6 });
    assert_eq!(a.next_state(0, 19), Ok(Next::State { set: 6, units: 19 }));
    assert_eq!(a.next_state(4, 26), Ok(Next::None { units: 26 }));
    assert_eq!(a.next_state(8, 0), Ok(Next::None { units: 0 }));
    assert_eq!(a.next_state(9, 0), Err(Refusal::SetTooLarge));
    assert_eq!(a.states(18).collect::<Vec<_>>(), [Err(Stopped::Spent)]);
    // The state comes with 19 units; that there is no other takes 26.
    assert_eq!(
        a.states(25).collect::<Vec<_>>(),
        [Ok(6), Err(Stopped::Spent)]
    );
    assert_eq!(a.stable(0, 0), Err(Refusal::RuleStore));
    assert_eq!(a.preferred(8, 0), Err(Refusal::SetTooLarge));
    assert_eq!(
        a.preferred(7, LARGEST_BUDGET + 1),
        Err(Refusal::BudgetTooLarge)
    );
}

#[test]
fn file_a_declared_otherwise() {
    assert_eq!(
        states(&file("(min sensor lamp)\n(vary dark)\n(fix)\n")),
        [6, 1, 5]
    );
    assert_eq!(
        states(&file("(min lamp)\n(min sensor)\n(vary dark)\n(fix)\n")),
        [2, 6]
    );
    let fixed = file("(min sensor)\n(min lamp)\n(vary)\n(fix dark)\n");
    assert_eq!(states(&fixed), [6, 1]);
    assert_eq!(fixed.preferred(1, 10), Ok(Verdict::Yes { units: 10 }));
}

#[test]
fn stable_sets() {
    let text = "(atoms a b c)\n(rule (head a b) (body) (not c))\n(rule (head b) (body a) (not))\n";
    let plain = Program::read(text.as_bytes()).unwrap();
    let verdict = |set, budget| plain.stable(set, budget).unwrap();
    assert_eq!(verdict(2, 4), Verdict::Yes { units: 4 });
    assert_eq!(verdict(2, 3), Verdict::Spent);
    assert_eq!(verdict(3, 5), Verdict::Beaten { set: 2, units: 5 });
    assert_eq!(verdict(4, 4), Verdict::Beaten { set: 0, units: 4 });
    let empty = Program::read(b"(atoms)\n").unwrap();
    assert_eq!(empty.stable(0, 0), Ok(Verdict::Yes { units: 0 }));
}

#[test]
fn places() {
    let a = file("(min sensor)\n(min lamp)\n(vary dark)\n(fix)\n");
    for (place, set) in (0..).zip([0, 4, 2, 6, 1, 5, 3, 7]) {
        assert_eq!(a.place(set), Ok(place));
    }
    assert_eq!(a.place(8), Err(Refusal::SetTooLarge));
    let empty = Program::read(b"(vary)\n(fix)\n").unwrap();
    assert_eq!(empty.place(0), Ok(0));
    assert_eq!(empty.place(1), Err(Refusal::SetTooLarge));
    let plain = Program::read(b"(atoms a)\n").unwrap();
    assert_eq!(plain.place(0), Err(Refusal::RuleStore));
    let many = |count: usize| {
        let names: String = (0..count).map(|i| format!(" a{i}")).collect();
        let rule = format!("(rule (head{names}) (body{names}) (not))\n");
        Program::read(format!("(vary)\n(fix{names})\n{rule}").as_bytes()).unwrap()
    };
    assert_eq!(many(60).place(1), Ok(1 << 59));
    assert_eq!(many(60).place(1 << 60), Err(Refusal::SetTooLarge));
    assert_eq!(many(61).place(0), Err(Refusal::TooManyAtoms));
    // The rule holds in all sets, so all are states: they come in the order of their places.
    let five = many(5);
    let order = states(&five).into_iter().map(|set| five.place(set));
    assert!(order.eq((0..32).map(Ok)));
}

#[test]
fn texts() {
    let text = "(vary)\n(fix)\n";
    let empty = Program::read(text.as_bytes()).unwrap();
    assert_eq!(empty.write(), text.as_bytes());
    let plain = Program::read(&empty.translate().unwrap()).unwrap();
    assert_eq!(
        (plain.kind(), plain.atoms(), plain.rules()),
        (Kind::Plain, 2, 4)
    );
    assert_eq!(plain.names().collect::<Vec<_>>(), ["E.0", "U"]);
    assert_eq!(plain.translate(), Err(Refusal::RuleStore));
    let refused = |refusal, line| Err(TextRefusal { refusal, line });
    assert_eq!(Program::read(b""), refused(Refusal::Form, Some(1)));
    assert_eq!(
        Program::read(b"(vary a a)\n(fix)\n"),
        refused(Refusal::DeclaredTwice, Some(1))
    );
    assert_eq!(
        Program::read(&[b'a'; 917_505]),
        refused(Refusal::TextTooLong, None)
    );
}

/// The largest file on a thread of the ordinary size.
#[test]
fn an_ordinary_thread_is_enough() {
    let names: String = (0..256)
        .map(|i| format!(" abcdefghijklmnopqrstu{i:03}"))
        .collect();
    let rule = "(rule (head abcdefghijklmnopqrstu000) (body abcdefghijklmnopqrstu001) (not))\n";
    let all = format!("(rule (head{names}) (body) (not))\n");
    let text = format!("(min{names})\n(vary)\n(fix)\n{all}{}", rule.repeat(1_023));
    let work = move || {
        let file = Program::read(text.as_bytes()).unwrap();
        assert_eq!(file.write(), text.as_bytes());
        let plain = Program::read(&file.translate().unwrap()).unwrap();
        assert_eq!(plain.atoms(), 4 * 256 + 1 + 2);
        assert_eq!(plain.stable(0, 0), Err(Refusal::TooManyAtoms));
    };
    std::thread::spawn(work).join().unwrap();
}
