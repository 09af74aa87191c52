//! Document 02, W-208, through the binding: conditions among a preference file's rules.

use rigtomato::{lent, Program, Refusal, Role, LARGEST_BUDGET};

fn read(text: &str) -> Program {
    Program::read(text.as_bytes()).unwrap()
}

fn refused(text: &str) -> (Refusal, Option<u64>) {
    let refused = Program::read(text.as_bytes()).unwrap_err();
    (refused.refusal, refused.line)
}

const TYPED: &str =
    "(vary a b c)\n(fix d)\n(when not (a and b) or c (then d)) ; as planners speak\n";

const WRITTEN: &str = "(vary a b c T.1 T.2 T.3)\n(fix d)\n\
    (rule (head T.1 T.2) (body) (not))\n\
    (rule (head) (body T.1 T.2) (not))\n\
    (rule (head T.2) (body a b) (not))\n\
    (rule (head a) (body T.2) (not))\n\
    (rule (head b) (body T.2) (not))\n\
    (rule (head T.1 c) (body T.3) (not))\n\
    (rule (head T.3) (body T.1) (not))\n\
    (rule (head T.3) (body c) (not))\n\
    (rule (head d) (body T.3) (not))\n";

#[test]
fn a_condition_becomes_rules() {
    let program = read(TYPED);
    assert_eq!(program.write(), WRITTEN.as_bytes());
    assert_eq!(program, read(WRITTEN));
    assert_eq!((program.atoms(), program.rules()), (7, 9));
    let names: Vec<&str> = program.names().collect();
    assert_eq!(names, ["a", "b", "c", "T.1", "T.2", "T.3", "d"]);
    let fixed = program.roles().filter(|role| *role == Role::Fixed).count();
    assert_eq!(fixed, 1);
}

/// States name the new atoms; cut to the planner's, each of them stands once.
#[test]
fn states() {
    let program = read("(min a)\n(vary b)\n(fix c)\n(when not b and c (then a))\n");
    let states: Result<Vec<u64>, _> = program.states(LARGEST_BUDGET).collect();
    let named = |set| program.names_in(set).collect::<Vec<_>>().join(" ");
    let states: Vec<String> = states.unwrap().into_iter().map(named).collect();
    assert_eq!(states, ["T.1", "b", "b c"]);
}

#[test]
fn the_two_refusals() {
    let file = |condition: &str| format!("(vary a b)\n(fix)\n(when {condition} (then b))\n");
    let deep = |depth: usize| format!("{}a{}", "(".repeat(depth), ")".repeat(depth));
    assert_eq!(read(&file(&deep(32))).rules(), 1);
    assert_eq!(refused(&file(&deep(33))), (Refusal::DeepBrackets, Some(3)));
    for condition in ["", "a b", "a and", "not", "()"] {
        let broken = (Refusal::BrokenCondition, Some(3));
        assert_eq!(refused(&file(condition)), broken, "{condition}");
    }
    assert_eq!(refused(&file("(a")), (Refusal::Form, Some(3)));
    let refused = Program::read(file("a or").as_bytes()).unwrap_err();
    assert_eq!(
        refused.to_string(),
        "line 3: no condition stands between `(when` and its `(then ..)` (refusal 17)"
    );
    let refused = Program::read(file(&deep(33)).as_bytes()).unwrap_err();
    assert_eq!(
        refused.to_string(),
        "line 3: a condition's brackets are deeper than 32 (refusal 18)"
    );
    assert_eq!(Refusal::BrokenCondition as u64, 17);
    assert_eq!(Refusal::DeepBrackets as u64, 18);
}

#[test]
fn names_of_made_atoms() {
    let condition = "(when not a (then a))\n";
    assert_eq!(
        refused(&format!("(vary a T.1)\n(fix)\n{condition}")),
        (Refusal::DeclaredTwice, Some(3))
    );
    assert_eq!(
        refused(&format!(
            "(vary a)\n(fix)\n{condition}(when T.1 (then a))\n"
        )),
        (Refusal::NotDeclared, Some(4))
    );
    assert_eq!(
        refused("(vary a)\n(fix)\n(when N.T.1 (then a))\n"),
        (Refusal::Name, Some(3))
    );
    assert_eq!(refused("(vary T.257)\n(fix)\n"), (Refusal::Form, Some(1)));
    let plain = "(atoms T.1 N.T.256 S.T.1 D.T.9)\n";
    assert_eq!(read(plain).write(), plain.as_bytes());
    // Of stores handed in, too.
    let mut out = [0; 50];
    let written = lent::write(&[1, 1, 0, 0, 17], b"\x05T.256", &mut out);
    assert_eq!(written, Ok("(vary T.256)\n(fix)\n".len()));
    let refused = lent::write(&[1, 1, 0, 0, 17], b"\x05T.257", &mut out);
    assert_eq!(refused, Err(Refusal::NameStore));
}

/// The longest and the deepest lines on a thread with a stack of one megabyte.
#[test]
fn a_megabyte_of_stack_is_enough() {
    let work = || {
        let file = |condition: String| format!("(vary a)\n(fix)\n(when {condition} (then a))\n");
        let nots = file(format!("{}a", "not ".repeat(229_000)));
        assert_eq!(refused(&nots), (Refusal::Limit, Some(3)));
        let brackets = file(format!("{}a{}", "(".repeat(450_000), ")".repeat(450_000)));
        assert_eq!(refused(&brackets), (Refusal::DeepBrackets, Some(3)));
        let open = file("(".repeat(900_000));
        assert_eq!(refused(&open), (Refusal::Form, Some(3)));
        // The deepest that is taken: 255 connectives, the brackets 32 deep.
        let nested = |depth: usize| format!("{}a{}", "not (".repeat(depth), ")".repeat(depth));
        let deepest = format!("{}{}", "not ".repeat(223), nested(32));
        assert_eq!(read(&file(deepest)).atoms(), 256);
    };
    let thread = std::thread::Builder::new().stack_size(1 << 20);
    thread.spawn(work).unwrap().join().unwrap();
}
