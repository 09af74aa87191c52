//! The family of clause files.

use crate::checker::{Checked, Checker};
use crate::clause_files::{self as files, damage, damage_text, soup, Size, SMALL};
use crate::random::Random;
use reference::clauses;
use reference::limits::TEXT_LIMIT;
use reference::stores::{name_store, rule_store};

/// Reads the text with outputs of every size around what is needed; where it is refused, with some
/// outputs.
fn read(check: &mut Checker, random: &mut Random, text: &[u8]) -> Checked {
    let Ok((program, names)) = clauses::read(text) else {
        let (rules_len, names_len) = *random.pick(&[(0, 0), (40, 40), (400, 400), (0, 999)]);
        return check.read_clauses(text, rules_len, names_len);
    };
    let words = rule_store(&program).len();
    let bytes = name_store(&names).len();
    check.read_clauses(text, words, bytes)?;
    check.read_clauses(text, words - 1, bytes)?;
    check.read_clauses(
        text,
        words + random.within(0, 9),
        bytes + random.within(0, 9),
    )?;
    check.read_clauses(text, random.within(0, words), random.within(0, bytes))?;
    if bytes > 0 {
        check.read_clauses(text, words, bytes - 1)?;
        check.read_clauses(text, words + 1, random.below(bytes))?;
    }
    // Room for all that the header counts.
    check.read_clauses(text, words + 256, bytes + 1_024)
}

/// A right clause file, the same with one to three damages, and no clause file at all.
pub fn clause_files(check: &mut Checker, random: &mut Random) -> Checked {
    let size = match random.below(6) {
        0 => Size {
            atoms: 256,
            ..SMALL
        },
        1 => Size {
            atoms: 2,
            literals: 2,
            ..SMALL
        },
        _ => SMALL,
    };
    let right = files::right(random, size);
    let text = files::text(random, &right);
    read(check, random, &text)?;
    for turn in 0..30 {
        let mut file = right.clone();
        for _ in 0..random.within(0, 3) {
            damage(random, &mut file);
        }
        let mut text = files::text(random, &file);
        for _ in 0..random.below(1 + turn % 3) {
            damage_text(random, &mut text);
        }
        read(check, random, &text)?;
    }
    let text = soup(random, 16);
    read(check, random, &text)
}

/// ` 1 2 3 ..`, with any signs: different literals of so many atoms.
fn row(random: &mut Random, atoms: usize) -> Vec<String> {
    let signs = *random.pick(&[1, 2, 3]);
    (1..=atoms)
        .map(|atom| match random.below(signs) {
            1 => format!("-{atom}"),
            _ => atom.to_string(),
        })
        .collect()
}

/// Clauses with so many occurrences in all: rows of different literals.
fn rows(random: &mut Random, atoms: usize, occurrences: usize) -> Vec<Vec<String>> {
    let mut clauses = Vec::new();
    let mut left = occurrences;
    while left > 0 {
        let length = left.min(atoms);
        left -= length;
        let mut clause = row(random, length);
        if random.once_in(4) {
            clause.push(random.pick(&clause).clone());
        }
        clause.push("0".to_string());
        clauses.push(clause);
    }
    clauses
}

/// A clause of a few literals, of which some are wrong, beyond or repeated.
fn last_clause(random: &mut Random, atoms: usize) -> Vec<String> {
    const ODD: [&str; 8] = ["257", "-300", "x", "-0", "0", "01", "7", "7"];
    let length = random.within(1, 6);
    let item = |_| match random.once_in(4) {
        true => random.pick(&ODD).to_string(),
        false => random.within(1, atoms).to_string(),
    };
    let mut items: Vec<String> = (0..length).map(item).collect();
    items.push("0".to_string());
    items
}

/// Around 8,192 occurrences, with what else may be wrong on the line where they are passed or beside
/// it.
fn occurrences(check: &mut Checker, random: &mut Random) -> Checked {
    let atoms = *random.pick(&[256, 255, 100]);
    let before = random.within(8_188, 8_192);
    let clauses = rows(random, atoms, before);
    for _ in 0..8 {
        let last = last_clause(random, atoms);
        let clauses = [clauses.as_slice(), &[last]].concat();
        let mut file = files::of_clauses(random, atoms, clauses);
        if random.once_in(8) {
            damage(random, &mut file);
        }
        let text = files::text(random, &file);
        read(check, random, &text)?;
    }
    Ok(())
}

/// Around 1,024 clauses: what the header counts, and how many there are.
fn counts(check: &mut Checker, random: &mut Random) -> Checked {
    let counted = *random.pick(&[1_023, 1_024, 1_024, 1_025]);
    let there = counted + random.below(3) - 1;
    let clauses = vec!["1 0\n", "0\n", "2 -1 0\n"];
    let lines: String = (0..there).map(|_| *random.pick(&clauses)).collect();
    for atoms in [2, 255, 256, 257] {
        let text = format!("p cnf {atoms} {counted}\n{lines}");
        read(check, random, text.as_bytes())?;
    }
    Ok(())
}

/// Files near the limits, and past them.
pub fn large_clause_files(check: &mut Checker, random: &mut Random) -> Checked {
    occurrences(check, random)?;
    counts(check, random)?;
    let size = Size {
        atoms: 256,
        clauses: 300,
        literals: 9,
    };
    let mut file = files::right(random, size);
    let text = files::text(random, &file);
    read(check, random, &text)?;
    damage(random, &mut file);
    let text = files::text(random, &file);
    read(check, random, &text)
}

/// The longest text, met and passed by one, and numbers as long as a text. Done once a run.
pub fn limits(check: &mut Checker) -> Checked {
    for length in [TEXT_LIMIT - 1, TEXT_LIMIT, TEXT_LIMIT + 1, TEXT_LIMIT + 9] {
        for start in [
            "",
            "p cnf 0 0\n",
            "p cnf 1 1\n1 0\n",
            "p cnf 1 1\n1",
            "c",
            "p cnf 1",
        ] {
            for fill in [b'\n', b' ', b'1', b'0', b'c', b'x'] {
                let mut text = start.as_bytes().to_vec();
                text.resize(length, fill);
                check.read_clauses(&text, 50, 50)?;
                text.pop();
                text.push(b'\n');
                check.read_clauses(&text, 50, 50)?;
                text.splice(length - 3.., *b" 0\n");
                check.read_clauses(&text, 50, 50)?;
            }
        }
    }
    Ok(())
}

/// Every short text of the bytes that mean something, behind a header. Done once a run.
pub fn short_texts(check: &mut Checker) -> Checked {
    const BYTES: &[u8] = b"012-c \n";
    const MOST: usize = 5;
    let mut texts = vec![b"p cnf 1 1\n".to_vec()];
    for _ in 0..=MOST {
        for text in &texts {
            check.read_clauses(text, 20, 20)?;
        }
        let longer = |text: &Vec<u8>| {
            let text = text.clone();
            BYTES
                .iter()
                .map(move |byte| [text.as_slice(), &[*byte]].concat())
        };
        texts = texts.iter().flat_map(longer).collect();
    }
    Ok(())
}
