//! Document 02, W-202, through the binding: clause files.

use rigtomato::{lent, Kind, Program, Refusal, Role, TextRefusal, LARGEST_BUDGET};

fn read(text: &str) -> Program {
    Program::read_clauses(text.as_bytes()).unwrap()
}

fn refused(text: &str) -> (Refusal, Option<u64>) {
    let refused = Program::read_clauses(text.as_bytes()).unwrap_err();
    (refused.refusal, refused.line)
}

#[test]
fn a_preference_file_of_one_class() {
    let file = read("c of nine atoms three remain\np cnf 9 2\n7 -2 0 -7 9\n-7 0\n");
    assert_eq!((file.kind(), file.atoms()), (Kind::Preference, 3));
    assert_eq!((file.classes(), file.rules()), (1, 2));
    assert_eq!(file.names().collect::<Vec<_>>(), ["v2", "v7", "v9"]);
    assert!(file.roles().all(|role| role == Role::Minimised(1)));
    let text = "(min v2 v7 v9)\n(vary)\n(fix)\n\
        (rule (head v7) (body v2) (not))\n(rule (head v9) (body v7) (not))\n";
    assert_eq!(file.write(), text.as_bytes());
    assert_eq!(Program::read(text.as_bytes()), Ok(file));
    assert_eq!(read("p cnf 0 0\n").write(), b"(min)\n(vary)\n(fix)\n");
}

/// The preferred states are the least of the sets that satisfy the clauses.
#[test]
fn minimal_sets() {
    let states = |text: &str| -> Vec<u64> {
        let file = read(text);
        let states: Result<_, _> = file.states(LARGEST_BUDGET).collect();
        states.unwrap()
    };
    let text = "p cnf 4 4\n1 2 0\n3 4 0\n-1 -2 0\n-1 -3 0\n";
    assert_eq!(states(text), [0b1010, 0b0110, 0b1001]);
    assert_eq!(states("p cnf 2 2\n-1 0\n-2 1 0\n"), [0]);
    assert_eq!(states("p cnf 1 2\n1 0\n-1 0\n"), [0; 0]);
    assert_eq!(states("p cnf 9 0\n"), [0]);
    assert_eq!(states("p cnf 9 1\n0\n"), [0; 0]);
}

#[test]
fn refusals() {
    assert_eq!(refused(""), (Refusal::BrokenClauses, Some(1)));
    assert_eq!(refused("p cnf 1 1\n1"), (Refusal::BrokenClauses, Some(2)));
    assert_eq!(refused("p cnf 1 1\n1\n"), (Refusal::BrokenClauses, Some(3)));
    assert_eq!(
        refused("p cnf 1 1\n2 0\n"),
        (Refusal::LiteralBeyond, Some(2))
    );
    assert_eq!(refused("p cnf 257 1\n"), (Refusal::Limit, Some(1)));
    let long = "c".repeat(917_505);
    assert_eq!(refused(&long), (Refusal::TextTooLong, None));
    let words = |text: &str| {
        Program::read_clauses(text.as_bytes())
            .unwrap_err()
            .to_string()
    };
    assert_eq!(
        words("p cnf 1 1\n1 -0\n"),
        "line 2: the header, a clause or a line's end is broken, or the count of clauses differs \
         (refusal 15)"
    );
    assert_eq!(
        words("p cnf 1 1\n2 0\n"),
        "line 2: a literal is beyond the header's atoms (refusal 16)"
    );
    // A preference file is none of clauses, and the other way round.
    assert_eq!(
        refused("(vary)\n(fix)\n"),
        (Refusal::BrokenClauses, Some(1))
    );
    let read = Program::read(b"p cnf 0 0\n").unwrap_err();
    assert_eq!((read.refusal, read.line), (Refusal::Form, Some(1)));
}

#[test]
fn lent_outputs() {
    let text = b"p cnf 3 2\n1 -3 0\n-1 0\n";
    let read = |words: usize, bytes: usize| {
        let (mut rules, mut names) = (vec![7; words], vec![7; bytes]);
        let read = lent::read_clauses(text, &mut rules, &mut names);
        (read.map(|read| (read.words, read.bytes)), rules, names)
    };
    let (done, rules, names) = read(17, 8);
    assert_eq!(done, Ok((15, 6)));
    assert_eq!(rules, [1, 2, 1, 2, 1, 1, 1, 1, 0, 0, 1, 0, 1, 0, 0, 7, 7]);
    assert_eq!(names, b"\x02v1\x02v3\x07\x07");
    let short = TextRefusal {
        refusal: Refusal::OutputShort,
        line: None,
    };
    for (words, bytes) in [(14, 6), (15, 5), (0, 0)] {
        let (refused, rules, names) = read(words, bytes);
        assert_eq!(refused, Err(short));
        assert!(rules.iter().all(|word| *word == 7) && names.iter().all(|byte| *byte == 7));
    }
}

/// The largest clause file on a thread of the ordinary size.
#[test]
fn an_ordinary_thread_is_enough() {
    let clause = |i: usize| {
        let literals = (0..8).map(|j| (8 * i + 31 * j) % 256 + 1);
        let signs = ["", "-"];
        let items: String = literals
            .map(|atom| format!("{}{atom} ", signs[atom % 2]))
            .collect();
        format!("{items}0\n")
    };
    let text = format!(
        "p cnf 256 1024\n{}",
        (0..1_024).map(clause).collect::<String>()
    );
    let work = move || {
        let file = read(&text);
        assert_eq!((file.atoms(), file.rules()), (256, 1_024));
        assert_eq!(file.occurrences(), 8_192);
        assert_eq!(Program::read(&file.write()), Ok(file));
    };
    std::thread::spawn(work).join().unwrap();
}
