//! What documents 01 and 02 say of every file, held against the second implementation itself: the
//! text comes back from the stores, the stores from the text, both without the atoms that no rule of
//! a preference file has; these atoms change no state; of hand-typed texts only strict ones without a
//! condition come back, and a condition's rules are read as they are written;
//! canonical texts are equal where the files say the same; the three sums count the delivered text, its
//! stable sets pair with the file's states, and a class cut in two brings in no state.

use compare::canonical_cases::rearranged;
use compare::conditions;
use compare::generate::{either, mixed, partly_used, preference, Size};
use compare::hand_typed::{damage, loosened};
use compare::random::Random;
use reference::canonical::canonical;
use reference::limits::{Kind, BUDGET_LIMIT};
use reference::pieces::strict;
use reference::program::{Program, Role};
use reference::stores::{check_names, check_rules, name_store, rule_store};
use reference::used_atoms::{restricted, used_atoms, without_unused};
use reference::verdicts::{holds, preferred, stable, Verdict};
use reference::{reader, translator, writer};

const LARGE: Size = Size {
    atoms: 256,
    rules: 300,
    list: 9,
};

#[test]
fn texts_and_stores() {
    let mut random = Random::new(11);
    for turn in 0..900 {
        let size = if turn % 20 == 0 { LARGE } else { Size::SMALL };
        let (program, names) = match turn % 3 {
            0 => partly_used(&mut random, size),
            _ => either(&mut random, size),
        };
        let checked = check_rules(&rule_store(&program));
        assert_eq!(checked.as_ref(), Ok(&program));
        assert_eq!(
            check_names(&program, &name_store(&names)).as_ref(),
            Ok(&names)
        );
        let text = writer::write(&program, &names);
        let read = reader::read(&text).expect("a written text is accepted");
        let remaining = match program.kind {
            Kind::Plain => (program.clone(), names.clone()),
            Kind::Preference => without_unused(&program, &names),
        };
        assert_eq!(read, remaining);
        // The text itself comes back exactly where nothing was left out.
        let again = writer::write(&read.0, &read.1);
        let nothing_left_out = read == (program, names);
        assert_eq!(again == text, nothing_left_out);
        assert_eq!(reader::read(&again), Ok(read));
    }
}

/// A typed text says what its strict form says. It comes back exactly where it is strict, no line is a
/// condition and, in a preference file, every declared atom stands in a rule.
fn hold_typed(text: &[u8]) -> Option<bool> {
    let (read, names) = reader::read(text).ok()?;
    assert_eq!(
        reader::read(&strict(text)).as_ref(),
        Ok(&(read.clone(), names.clone()))
    );
    let (typed, _) = reader::read_lines(text).expect("an accepted text");
    let direct = reader::read_directly(text).expect("an accepted text");
    let all_stay = read.atoms == typed.atoms && direct.conditions.is_empty();
    let written = writer::write(&read, &names);
    assert_eq!(written == text, strict(text) == text && all_stay);
    // Whatever it was, what is written is read as it, and canonically too.
    assert_eq!(reader::read(&written), Ok((read.clone(), names.clone())));
    let sorted = canonical(&read);
    let canonical_text = writer::write(&sorted, &names);
    assert_eq!(reader::read(&canonical_text), Ok((sorted, names)));
    Some(written == text)
}

#[test]
fn texts_with_conditions() {
    let mut random = Random::new(19);
    let mut accepted = 0;
    for turn in 0..6_000 {
        let mut text = conditions::file(&mut random);
        if turn % 3 == 1 {
            conditions::damage(&mut random, &mut text);
        }
        if turn % 2 == 1 {
            text = loosened(&mut random, &text);
        }
        accepted += usize::from(hold_typed(&text).is_some());
    }
    assert!(accepted > 3_000, "{accepted} texts are accepted");
}

#[test]
fn hand_typed_texts() {
    let mut random = Random::new(18);
    let mut back = 0;
    for turn in 0..9_000 {
        let size = if turn % 60 == 0 { LARGE } else { Size::SMALL };
        let (program, names) = match turn % 3 {
            0 => partly_used(&mut random, size),
            _ => either(&mut random, size),
        };
        let mut text = writer::write(&program, &names);
        if turn % 4 > 0 {
            text = loosened(&mut random, &text);
        }
        if turn % 4 > 1 {
            damage(&mut random, &mut text);
        }
        back += usize::from(hold_typed(&text) == Some(true));
    }
    assert!(back > 500, "{back} texts come back");
}

/// Another program: with a rule less, a rule more or an atom more or less in a list.
fn changed(random: &mut Random, program: &Program) -> Program {
    let mut other = program.clone();
    if other.rules.is_empty() || random.once_in(4) {
        other.rules.push(Default::default());
        return other;
    }
    let place = random.below(other.rules.len());
    match (random.below(3), other.atoms) {
        (0, _) | (_, 0) => {
            other.rules.remove(place);
        }
        (1, _) => {
            other.rules[place].head.pop();
        }
        (_, atoms) => {
            let (atom, body) = (random.below(atoms), &mut other.rules[place].body);
            match body.iter().position(|known| *known == atom) {
                Some(known) => {
                    body.remove(known);
                }
                None => body.push(atom),
            }
        }
    }
    other
}

/// The rules as sets of triples of sets, as sorted lists without repetitions.
fn as_sets(program: &Program) -> Vec<[Vec<usize>; 3]> {
    let set = |list: &[usize]| {
        let mut list = list.to_vec();
        list.sort_unstable();
        list
    };
    let mut rules: Vec<_> = program
        .rules
        .iter()
        .map(|rule| rule.lists().map(set))
        .collect();
    rules.sort_unstable();
    rules.dedup();
    rules
}

/// Equal exactly where the rules are the same as sets; the same when read and written again.
#[test]
fn canonical_texts() {
    let mut random = Random::new(19);
    let mut equal = 0;
    for turn in 0..3_000 {
        let size = if turn % 60 == 0 { LARGE } else { Size::SMALL };
        let (program, names) = either(&mut random, size);
        let text = |program: &Program| writer::write(&canonical(program), &names);
        let other = rearranged(&mut random, &program);
        assert_eq!(text(&other), text(&program));
        let other = changed(&mut random, &other);
        let same = as_sets(&other) == as_sets(&program);
        assert_eq!(
            text(&other) == text(&program),
            same,
            "{program:?} {other:?}"
        );
        equal += usize::from(same);
        let (read, read_names) = reader::read(&text(&program)).expect("a written text");
        let again = writer::write(&canonical(&read), &read_names);
        assert_eq!(again, writer::write(&read, &read_names));
        if read.atoms == program.atoms {
            assert_eq!(again, text(&program));
        }
    }
    assert!(equal > 10, "{equal} changes change nothing");
}

#[test]
fn the_three_sums() {
    let mut random = Random::new(12);
    for turn in 0..600 {
        let (file, names) = match turn % 40 {
            0 => preference(&mut random, LARGE),
            1..=20 => preference(&mut random, Size::SMALL),
            _ => mixed(&mut random, 3),
        };
        let (plain, plain_names) = translator::translate(&file, &names);
        let delivered = writer::write(&plain, &plain_names);
        let (again, again_names) = reader::read(&delivered).expect("a delivered text is accepted");
        assert_eq!((&again, &again_names), (&plain, &plain_names));
        assert_eq!(again.kind, Kind::Plain);
        assert_eq!(again_names[..file.atoms], names);
        let (n, k, r, l) = (
            file.atoms,
            file.classes,
            file.rules.len(),
            file.occurrences(),
        );
        let p = file.minimised().len();
        let f = n - file.unfixed().len();
        assert_eq!(again.atoms, 3 * n - f + p + k + 2);
        assert_eq!(again.rules.len(), 3 * n - f + 2 * r + 4 * p + 2 * k + 4);
        assert_eq!(
            again.occurrences(),
            6 * n - 2 * f + 2 * l + r + 15 * p + 5 * k + 7
        );
    }
}

/// The sets of so many atoms, by rising number, with which the verdict is yes.
fn sets(atoms: usize, verdict: impl Fn(u64) -> Verdict) -> Vec<u64> {
    (0..1 << atoms)
        .filter(|&set| matches!(verdict(set), Verdict::Yes { .. }))
        .collect()
}

fn states(file: &Program) -> Vec<u64> {
    sets(file.atoms, |set| preferred(file, set, BUDGET_LIMIT))
}

/// The members of the set among these atoms, as a set of their places.
fn cut_to(atoms: &[usize], set: u64) -> u64 {
    let members = (0..atoms.len()).filter(|&place| holds(set, atoms[place]));
    members.map(|place| 1 << place).sum()
}

/// The states of what remains are those of all declared atoms, cut down to what remains; there each
/// comes once for every choice of the varying and fixed atoms that are left out.
#[test]
fn unused_atoms_change_no_state() {
    let mut random = Random::new(17);
    let mut doubled = 0;
    for _ in 0..600 {
        let (file, _) = partly_used(&mut random, Size::SMALL);
        let used = used_atoms(&file);
        let of_all = states(&file);
        let left = states(&restricted(&file, &used));
        let mut cut: Vec<u64> = of_all.iter().map(|&set| cut_to(&used, set)).collect();
        cut.sort_unstable();
        cut.dedup();
        assert_eq!(cut, left, "{file:?}");
        let free = |a: &usize| !used.contains(a) && file.class(*a).is_none();
        let free = (0..file.atoms).filter(free).count();
        assert_eq!(of_all.len(), left.len() << free, "{file:?}");
        doubled += of_all.len() - left.len();
    }
    assert!(doubled > 0, "some list is longer with unused atoms");
}

#[test]
fn the_pairing() {
    let mut random = Random::new(13);
    let mut files = 0;
    while files < 200 {
        let (file, names) = mixed(&mut random, 2);
        let (plain, _) = translator::translate(&file, &names);
        // Few enough that all sets can be tried.
        if plain.atoms > 14 {
            continue;
        }
        files += 1;
        let models = sets(plain.atoms, |set| stable(&plain, set, BUDGET_LIMIT));
        let mut cut: Vec<u64> = models.iter().map(|set| set % (1 << file.atoms)).collect();
        cut.sort_unstable();
        assert_eq!(cut, states(&file), "{file:?}");
    }
}

/// The file with one of its classes cut in two, one part directly before the other. Its class
/// words need not rise.
fn cut_class(random: &mut Random, file: &Program) -> Program {
    let mut cut = file.clone();
    let place = random.within(1, file.classes);
    cut.classes += 1;
    for role in &mut cut.roles {
        if let Role::Minimised(class) = role {
            if *class > place || (*class == place && random.once_in(2)) {
                *class += 1;
            }
        }
    }
    cut
}

#[test]
fn cutting_a_class() {
    let mut random = Random::new(14);
    let mut lost = 0;
    for _ in 0..600 {
        let (file, _) = mixed(&mut random, 3);
        if file.classes == 0 {
            continue;
        }
        let cut = cut_class(&mut random, &file);
        let (before, after) = (states(&file), states(&cut));
        assert!(
            after.iter().all(|state| before.contains(state)),
            "{file:?} {cut:?}"
        );
        lost += before.len() - after.len();
    }
    assert!(lost > 0, "some cut takes a state away");
}
