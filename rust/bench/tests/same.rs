//! What is timed has to answer as the second implementation does.

use bench::{clauses, inputs, twin, walks};
use compare::clause_files::{self, damage, damage_text, soup};
use compare::clause_kit;
use compare::conditions;
use compare::engine::{Engine, Reference, VerdictAnswer};
use compare::generate::{either, partly_used, plain, preference, Size};
use compare::hand_typed;
use compare::random::Random;
use compare::spoil;
use reference::program::{Names, Program};
use reference::stores::{name_store, rule_store};
use reference::{lent, reader, writer};

/// Holds the fast reader to the second implementation; gives its stores, if it has some.
fn hold_reading(text: &[u8]) -> Option<twin::Stores> {
    let expected = reader::read(text)
        .map(|(program, names)| twin::Stores {
            rules: rule_store(&program),
            names: name_store(&names),
        })
        .map_err(|refusal| (refusal.number(), refusal.line));
    let read = twin::read(text);
    assert_eq!(read, expected, "{}", String::from_utf8_lossy(text));
    read.ok()
}

/// Holds the fast writers and the fast translator to the second implementation.
fn hold_writing(stores: &twin::Stores) {
    type Slow = fn(&[u16], &[u8], &mut [u8]) -> Result<usize, reference::refusal::Reason>;
    type Fast = fn(&twin::Stores) -> Result<Vec<u8>, u64>;
    let pairs: [(Slow, Fast); 3] = [
        (lent::write, twin::write),
        (lent::write_canonical, twin::write_canonical),
        (lent::translate, twin::translate),
    ];
    let mut out = vec![0; 917_504];
    for (slow, fast) in pairs {
        let expected = slow(&stores.rules, &stores.names, &mut out)
            .map(|length| out[..length].to_vec())
            .map_err(|reason| reason as u64);
        assert_eq!(fast(stores), expected, "{stores:?}");
    }
}

#[test]
fn the_fast_reader_writers_and_translator() {
    let mut random = Random::new(3);
    for turn in 0..6_000 {
        let (program, names) = match turn / 6 % 3 {
            0 => partly_used(&mut random, Size::SMALL),
            _ => either(&mut random, Size::SMALL),
        };
        let mut text = writer::write(&program, &names);
        for _ in 0..turn % 3 {
            if random.once_in(2) {
                spoil::text(&mut random, &mut text);
            } else {
                spoil::names_of_text(&mut random, &mut text);
            }
        }
        let read = hold_reading(&text);
        let mut stores = read.unwrap_or_else(|| twin::Stores {
            rules: rule_store(&program),
            names: name_store(&names),
        });
        if turn % 2 == 0 {
            spoil::rules(&mut random, &mut stores.rules);
            spoil::names(&mut random, &mut stores.names);
        }
        hold_writing(&stores);
    }
}

#[test]
fn the_fast_reader_of_hand_typed_files() {
    let mut random = Random::new(7);
    for turn in 0..20_000 {
        let (program, names) = either(&mut random, Size::SMALL);
        let mut text = writer::write(&program, &names);
        if turn % 4 == 1 {
            spoil::text(&mut random, &mut text);
        }
        text = match turn % 50 {
            0 => spoil::soup(&mut random, 20),
            _ => hand_typed::loosened(&mut random, &text),
        };
        for _ in 0..turn % 3 {
            hand_typed::damage(&mut random, &mut text);
        }
        hold_reading(&text);
    }
    let mut texts = vec![String::new()];
    for _ in 0..=5 {
        texts.iter().for_each(|text| {
            hold_reading(text.as_bytes());
        });
        let longer = |text: &String| {
            let text = text.clone();
            let pieces = ["(", ")", "atoms", "a", " ", ";", "\n"];
            pieces.map(move |piece| format!("{text}{piece}"))
        };
        texts = texts.iter().flat_map(longer).collect();
    }
}

#[test]
fn the_fast_reader_of_conditions() {
    let mut random = Random::new(9);
    let names = [b"a".to_vec(), b"b".to_vec()];
    for turn in 0..20_000 {
        let mut text = conditions::file(&mut random);
        for _ in 0..turn % 4 {
            conditions::damage(&mut random, &mut text);
        }
        if turn % 3 == 0 {
            text = hand_typed::loosened(&mut random, &text);
        }
        if turn % 9 == 0 {
            hand_typed::damage(&mut random, &mut text);
        }
        hold_reading(&text);
        let line = match turn % 2 {
            0 => conditions::soup(&mut random, 9),
            _ => conditions::nearly(&mut random, &names),
        };
        let before = *random.pick(&["(vary a b)\n(fix)\n", "(vary a T.2)\n(fix b)\n"]);
        hold_reading(&[before.as_bytes(), &line].concat());
    }
    // Up to the limits and past them.
    for turn in 0..400 {
        let atoms = random.within(1, 256);
        let names: Names = (0..atoms).map(|i| format!("a{i}").into_bytes()).collect();
        let mut text = [b"(vary ", &names.join(&b' ')[..], b")\n(fix)\n"].concat();
        let full = b"(rule (head) (body) (not))\n".repeat(turn % 2 * random.within(0, 900));
        text.extend(full);
        let mut left = 256 - atoms + random.below(3);
        while left > 0 {
            let here = random.within(1, left);
            left -= here;
            let condition = conditions::condition(&mut random, &names, here);
            text.extend([b"(when ", &condition[..], b" (then a0))\n"].concat());
        }
        hold_reading(&text);
    }
}

/// The inputs of the rows of conditions are what they say.
#[test]
fn the_file_of_conditions() {
    let text = inputs::conditions_file();
    let stores = hold_reading(&text).expect("an accepted text");
    assert_eq!(stores.rules[1], 256);
    assert!(
        (900..=1_024).contains(&stores.rules[3]),
        "{}",
        stores.rules[3]
    );
    assert_eq!(hold_reading(&inputs::typed(&text)), Some(stores));
}

/// Rules of which many repeat or begin alike, past the words that the key has.
#[test]
fn the_fast_canonical_writer() {
    let mut random = Random::new(8);
    for (atoms, list) in [(1, 1), (2, 2), (3, 3), (9, 9), (1_100, 3)] {
        for _ in 0..300 {
            let size = Size {
                atoms,
                rules: 200,
                list,
            };
            let (program, names) = either_of(&mut random, size);
            let rules = rule_store(&program);
            let names = name_store(&names);
            hold_writing(&twin::Stores { rules, names });
        }
    }
}

fn either_of(random: &mut Random, size: Size) -> (Program, Names) {
    match random.once_in(2) {
        true => plain(random, size),
        false => preference(
            random,
            Size {
                atoms: size.atoms.min(256),
                ..size
            },
        ),
    }
}

/// The inputs of the canonical writer's rows have as many rules as they say.
#[test]
fn the_many_rules() {
    for atoms in [1_100, 60, 3] {
        let stores = inputs::many_rules(atoms);
        assert_eq!((stores.rules[1], stores.rules[3]), (atoms as u16, 4_200));
        hold_writing(&stores);
    }
}

/// A typed file says what the strict one says, with much that says nothing.
#[test]
fn the_typed_file() {
    let strict = inputs::long_file(1);
    let typed = inputs::typed(&strict);
    assert!(typed.len() > strict.len() * 4 / 3);
    assert_eq!(hold_reading(&typed), hold_reading(&strict));
}

/// The longest texts are as long as the limit, and refused as is said.
#[test]
fn the_longest_texts() {
    for (what, text, refused) in inputs::longest_texts() {
        assert_eq!(text.len(), 917_504, "{what}");
        assert_eq!(hold_reading(&text), None, "{what}");
        assert_eq!(twin::read(&text), Err(refused), "{what}");
    }
}

/// Holds the fast reader of clauses to the second implementation, with outputs of several sizes.
fn hold_clauses(text: &[u8], lengths: (usize, usize)) {
    let lend = || (vec![7u16; lengths.0], vec![7u8; lengths.1]);
    let (mut ours, mut theirs) = (lend(), lend());
    let expected = lent::read_clauses(text, &mut ours.0, &mut ours.1)
        .map(|read| (read.words, read.bytes))
        .map_err(|refusal| (refusal.number(), refusal.line));
    let read = clauses::read(text, &mut theirs.0, &mut theirs.1);
    assert_eq!(read, expected, "{}", String::from_utf8_lossy(text));
    assert!(ours == theirs, "{}", String::from_utf8_lossy(text));
}

#[test]
fn the_fast_reader_of_clauses() {
    let mut random = Random::new(6);
    for case in clause_kit::cases() {
        hold_clauses(&case.text, (14_000, 2_000));
    }
    for turn in 0..20_000 {
        let size = clause_files::Size {
            atoms: *random.pick(&[3, 6, 256]),
            ..clause_files::SMALL
        };
        let mut file = clause_files::right(&mut random, size);
        for _ in 0..turn % 4 {
            damage(&mut random, &mut file);
        }
        let mut text = match turn % 10 {
            0 => soup(&mut random, 16),
            _ => clause_files::text(&mut random, &file),
        };
        if turn % 3 == 0 {
            damage_text(&mut random, &mut text);
        }
        let lengths = (random.within(0, 80), random.within(0, 80));
        hold_clauses(&text, lengths);
        hold_clauses(&text, (400, 400));
    }
}

#[test]
fn the_clause_files() {
    for (spaces, comments) in [(1, 0), (3, 2)] {
        let text = inputs::clause_file(spaces, comments);
        let (file, names) = reference::clauses::read(&text).expect("an accepted text");
        assert_eq!((file.atoms, names.len()), (256, 256));
        assert_eq!((file.rules.len(), file.occurrences()), (1_024, 8_192));
        let (words, bytes) = (rule_store(&file).len(), name_store(&names).len());
        hold_clauses(&text, (words, bytes));
        hold_clauses(&text, (words - 1, bytes));
        hold_clauses(&text, (words, bytes - 1));
        let mut more = text.clone();
        more.extend_from_slice(b"1 0\n");
        hold_clauses(&more, (words, bytes));
        let end = text.iter().rposition(|byte| *byte == b'0').unwrap();
        for item in ["1 2 3 4 5 6 7 8 9 0", "257 1 -1 0", "x 257 1 -1 0", "300 0"] {
            let mut more = text[..end].to_vec();
            more.extend_from_slice(item.as_bytes());
            more.push(b'\n');
            hold_clauses(&more, (14_000, 2_000));
        }
    }
}

type Call = fn(&[u16], u64, u64) -> walks::Answer;

/// Holds C and Rust to the second implementation: with budgets around the units that it needs, and
/// with small ones.
fn hold(expected: impl Fn(u64) -> VerdictAnswer, calls: [Call; 2], words: &[u16], number: u64) {
    let needed = expected(1 << 40).units;
    for budget in [0, 3, 40, needed.saturating_sub(1), needed, needed + 1] {
        let expected = expected(budget);
        let expected = (expected.kind, expected.value, expected.units);
        for call in calls {
            let given = call(words, number, budget);
            let given = (given.kind, given.value, given.units);
            assert_eq!(given, expected, "{number}, budget {budget}: {words:?}");
        }
    }
}

fn hold_preferred(words: &[u16], set: u64) {
    let calls = [walks::preferred, walks::c::preferred];
    hold(
        |budget| Reference.preferred(words, set, budget),
        calls,
        words,
        set,
    );
}

fn hold_next_state(words: &[u16], start: u64) {
    let calls = [walks::next_state, walks::c::next_state];
    hold(
        |budget| Reference.next_state(words, start, budget),
        calls,
        words,
        start,
    );
}

#[test]
fn the_walks() {
    let mut random = Random::new(4);
    for _ in 0..300 {
        let (file, _) = preference(&mut random, Size::SMALL);
        let words = rule_store(&file);
        for set in 0..1 << file.atoms {
            hold_preferred(&words, set);
        }
        for start in [0, 1, random.any(), random.any(), u64::MAX] {
            hold_next_state(&words, start % ((1 << file.atoms) + 1));
        }
        hold_next_state(&words, 1 << file.atoms);
        let (plain, _) = plain(&mut random, Size::SMALL);
        let words = rule_store(&plain);
        let calls = [walks::stable, walks::c::stable];
        for set in 0..1 << plain.atoms {
            hold(
                |budget| Reference.stable(&words, set, budget),
                calls,
                &words,
                set,
            );
        }
    }
}

#[test]
fn the_walks_on_rows_of_inverters() {
    for count in 1..=7 {
        let row = inputs::one_fault(count);
        hold_preferred(&row.rules, row.number);
        hold_next_state(&row.rules, 0);
    }
    for count in [9, 19, 29] {
        let row = inputs::all_at_fault(count);
        hold_preferred(&row.rules, row.number);
    }
}

/// Unless one is spent, the full walk has the same verdict and better set.
#[test]
fn the_full_walk() {
    let mut random = Random::new(5);
    for _ in 0..300 {
        let (file, _) = preference(&mut random, Size::SMALL);
        let words = rule_store(&file);
        for set in 0..1 << file.atoms {
            let full = walks::c::full_preferred(&words, set, 1 << 40);
            let short = walks::c::preferred(&words, set, 1 << 40);
            assert_eq!((full.kind, full.value), (short.kind, short.value));
        }
    }
}

#[test]
fn the_inputs_are_what_they_say() {
    for (walk, kind, call) in [
        (inputs::preferred(12, 20), 0, walks::c::preferred as Call),
        (inputs::stable(16, 160), 0, walks::c::stable),
        (inputs::listing(12, 20), 1, walks::c::next_state),
        (inputs::inverters_listing(5), 1, walks::c::next_state),
        (inputs::one_fault(9), 0, walks::c::preferred),
        (inputs::all_at_fault(29), 2, walks::c::preferred),
    ] {
        assert_eq!(walk.answer.kind, kind);
        assert_eq!(call(&walk.rules, walk.number, 1 << 40), walk.answer);
    }
}

/// Reading gives the two stores, of the file with all atoms in rules and of the one with half.
#[test]
fn the_long_files() {
    for (every, remaining) in [(1, 256), (2, 128)] {
        let text = inputs::long_file(every);
        let (typed, _) = reader::read_lines(&text).expect("an accepted text");
        let (file, names) = reader::read(&text).expect("an accepted text");
        assert_eq!((typed.atoms, file.atoms), (256, remaining));
        assert_eq!((file.rules.len(), file.occurrences()), (1_024, 8_192));
        let expected = twin::Stores {
            rules: rule_store(&file),
            names: name_store(&names),
        };
        assert_eq!(twin::read(&text), Ok(expected));
    }
}
