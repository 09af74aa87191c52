//! Random files with conditions, and what goes wrong in them.

use crate::generate::{partly_used, preference, Size};
use crate::random::Random;
use reference::conditions::DEPTH_LIMIT;
use reference::names::made_name;
use reference::pieces::{pieces, Piece};
use reference::writer;

/// So many brackets around it.
pub fn bracketed(depth: usize, inside: &[u8]) -> Vec<u8> {
    let around = |bracket: &[u8]| bracket.repeat(depth);
    [around(b"("), inside.to_vec(), around(b")")].concat()
}

fn joined(parts: &[&[u8]]) -> Vec<u8> {
    parts.join(&b' ')
}

/// A condition with exactly so many connectives over these names, of which there is one.
pub fn condition(random: &mut Random, names: &[Vec<u8>], connectives: usize) -> Vec<u8> {
    let whole = match connectives.checked_sub(1) {
        None => random.pick(names).clone(),
        Some(left) => match random.below(3) {
            0 => joined(&[b"not", &condition(random, names, left)]),
            which => {
                let word: &[u8] = if which == 1 { b"and" } else { b"or" };
                // Mostly short on one side, so that rows of equals come often.
                let first = match random.below(3) {
                    0 => 0,
                    1 => left,
                    _ => random.within(0, left),
                };
                let one = condition(random, names, first);
                joined(&[&one, word, &condition(random, names, left - first)])
            }
        },
    };
    let depth = match random.below(12) {
        0..=2 => 1,
        3 => 2,
        _ => 0,
    };
    bracketed(depth, &whole)
}

fn line(condition: &[u8], then: &[u8]) -> Vec<u8> {
    [b"(when ", condition, b" (then ", then, b"))\n"].concat()
}

/// Some names are those of made atoms, far from the numbers that conditions get or among them.
fn with_made_names(random: &mut Random, names: &mut [Vec<u8>]) {
    for place in 0..names.len() {
        if random.once_in(12) {
            let number = match random.below(4) {
                0 => random.within(1, 3),
                1 => *random.pick(&[255, 256]),
                _ => random.within(20, 200),
            };
            let name = made_name(number);
            if !names.contains(&name) {
                names[place] = name;
            }
        }
    }
}

/// A small file with up to three conditions among its rules, mostly accepted.
pub fn file(random: &mut Random) -> Vec<u8> {
    let size = Size {
        atoms: 6,
        rules: 4,
        list: 3,
    };
    let (program, mut names) = match random.once_in(2) {
        true => preference(random, size),
        false => partly_used(random, size),
    };
    with_made_names(random, &mut names);
    let text = writer::write(&program, &names);
    if names.is_empty() {
        return text;
    }
    let mut lines: Vec<Vec<u8>> = text
        .split_inclusive(|byte| *byte == b'\n')
        .map(<[u8]>::to_vec)
        .collect();
    let behind = lines.len() - program.rules.len();
    let mut left = 6;
    for _ in 0..random.within(0, 3) {
        let connectives = random.below(5).min(left);
        left -= connectives;
        let condition = condition(random, &names, connectives);
        let then = random.pick(&names).clone();
        let place = random.within(behind, lines.len());
        lines.insert(place, line(&condition, &then));
    }
    lines.concat()
}

/// What may stand in a condition's line, rightly or not.
const PIECES: [&str; 24] = [
    "(",
    "(",
    ")",
    ")",
    "not",
    "not",
    "and",
    "and",
    "or",
    "or",
    "a",
    "b",
    "zz",
    "then",
    "when",
    "T.1",
    "T.2",
    "T.256",
    "T.257",
    "T.01",
    "N.a",
    "N.T.1",
    "bbbbbbbbbbbbbbbbbbbbbbbbb",
    "A",
];

/// A line of so many such pieces between `when` and `then`, the frame at times broken.
pub fn soup(random: &mut Random, most: usize) -> Vec<u8> {
    // Half of them without what is refused first.
    let bound = *random.pick(&[12, 12, 16, PIECES.len()]);
    let count = random.within(0, most);
    let mut between = Vec::new();
    for _ in 0..count {
        between.extend_from_slice(random.pick(&PIECES[..bound]).as_bytes());
        between.push(b' ');
    }
    let then = *random.pick(&["a", "a", "a", "b", "or", "zz", "T.1"]);
    let mut line = [b"(when ", &between[..], b"(then ", then.as_bytes(), b"))"].concat();
    if random.once_in(10) {
        let at = random.below(line.len());
        match random.below(3) {
            0 => line[at] = *random.pick(b"() a\t;"),
            1 => line.insert(at, *random.pick(b"() a\t;")),
            _ => {
                line.remove(at);
            }
        }
    }
    line.push(b'\n');
    line
}

/// A right row of parts and connectives, in brackets that pair, with one piece put in, taken out or
/// exchanged: what a scan for the next piece has to tell.
pub fn nearly(random: &mut Random, names: &[Vec<u8>]) -> Vec<u8> {
    let connectives = random.within(0, 4);
    let right = condition(random, names, connectives);
    let mut words = words_of(&right);
    change(random, &mut words);
    let then = random.pick(names);
    line(&words.join(&b' '), then)
}

fn words_of(line: &[u8]) -> Vec<Vec<u8>> {
    let word = |piece: &Piece| match piece {
        Piece::Open => b"(".to_vec(),
        Piece::Close => b")".to_vec(),
        Piece::Word(word) => word.to_vec(),
    };
    pieces(line).iter().map(word).collect()
}

/// Changes a line's words and brackets in one way.
fn change(random: &mut Random, words: &mut Vec<Vec<u8>>) {
    let length = words.len();
    let piece = random.pick(&PIECES).as_bytes().to_vec();
    match random.below(8) {
        0 | 1 => words.insert(random.within(0, length), piece),
        2 | 3 if length > 0 => {
            words.remove(random.below(length));
        }
        4 if length > 0 => words[random.below(length)] = piece,
        5 if length > 1 => {
            let (one, other) = (random.below(length), random.below(length));
            words.swap(one, other);
        }
        6 if length > 0 => {
            let at = random.below(length);
            let again = words[at].clone();
            words.insert(at, again);
        }
        // Brackets around a run of them, one or near the limit.
        _ => {
            let depth = match random.below(4) {
                0 => random.within(DEPTH_LIMIT - 2, DEPTH_LIMIT + 2),
                _ => 1,
            };
            let from = random.within(0, length);
            let to = random.within(from, length);
            words.splice(to..to, vec![b")".to_vec(); depth]);
            words.splice(from..from, vec![b"(".to_vec(); depth]);
        }
    }
}

/// Damages one of the text's conditions, or where it stands. At times the text stays right.
pub fn damage(random: &mut Random, text: &mut Vec<u8>) {
    let mut lines: Vec<Vec<u8>> = text
        .split_inclusive(|byte| *byte == b'\n')
        .map(<[u8]>::to_vec)
        .collect();
    let is_condition = |line: &Vec<u8>| line.starts_with(b"(when");
    let places: Vec<usize> = (0..lines.len())
        .filter(|&at| is_condition(&lines[at]))
        .collect();
    if places.is_empty() {
        let at = random.within(0, lines.len());
        lines.insert(at, soup(random, 6));
        *text = lines.concat();
        return;
    }
    let at = *random.pick(&places);
    match random.below(12) {
        // Elsewhere, also before the `fix` line.
        0 => {
            let line = lines.remove(at);
            lines.insert(random.within(0, lines.len()), line);
        }
        // Once more, so that numbers go on.
        1 => {
            let line = lines[at].clone();
            lines.insert(random.within(at, lines.len()), line);
        }
        _ => {
            let mut words = words_of(&lines[at]);
            change(random, &mut words);
            lines[at] = [words.join(&b' '), b"\n".to_vec()].concat();
        }
    }
    *text = lines.concat();
}

#[cfg(test)]
mod tests {
    use super::*;
    use reference::conditions;
    use reference::reader;

    /// The connectives are as many as asked for, and it is a condition.
    #[test]
    fn conditions_are_right() {
        let mut random = Random::new(1);
        let names = [b"a".to_vec(), b"b".to_vec()];
        for connectives in [0, 1, 2, 3, 5, 9, 30] {
            for _ in 0..50 {
                let text = condition(&mut random, &names, connectives);
                let pieces = pieces(&text);
                let read = conditions::condition(&pieces).expect("a condition");
                assert_eq!(read.connectives.len(), connectives);
            }
        }
    }

    /// Most files are accepted, with conditions of many numbers of connectives.
    #[test]
    fn files_are_mostly_accepted() {
        let mut random = Random::new(1);
        let (mut accepted, mut with) = (0, 0);
        for _ in 0..1_000 {
            if let Ok(direct) = reader::read_directly(&file(&mut random)) {
                accepted += 1;
                with += usize::from(!direct.conditions.is_empty());
            }
        }
        assert!(accepted > 700 && with > 400, "{accepted} {with}");
    }
}
