//! Texts as a person types them: the same brackets and words with other spacing, comments and blank
//! lines, and what goes wrong where somebody types.

use crate::random::Random;
use reference::pieces::{pieces, Piece};

/// How somebody types: how often, in ten, there is more than is needed.
struct Habit {
    spaces: usize,
    glued: usize,
    comments: usize,
    lines: usize,
}

fn habit(random: &mut Random) -> Habit {
    let mut often = || *random.pick(&[0, 0, 1, 4, 9]);
    Habit {
        spaces: often(),
        glued: often(),
        comments: often(),
        lines: often(),
    }
}

fn in_ten(random: &mut Random, often: usize) -> bool {
    random.below(10) < often
}

/// So many spaces or more, at times past a block of bytes that a reader may look at at once.
fn spaces(random: &mut Random, habit: &Habit, least: usize, text: &mut Vec<u8>) {
    let more = match in_ten(random, habit.spaces) {
        true if random.once_in(20) => random.within(1, 70),
        true => random.within(1, 5),
        false => 0,
    };
    text.resize(text.len() + least + more, b' ');
}

/// From `;` on; it may look like anything.
fn comment(random: &mut Random) -> Vec<u8> {
    const COMMENTS: [&str; 20] = [
        ";",
        "; ",
        ";;",
        "; what nobody knows",
        ";(atoms a b)",
        "; (atoms)",
        ";(vary)",
        "; (vary) (fix)",
        "; (rule (head a) (body b) (not))",
        ";)",
        "; ))",
        ";(",
        "; x ; y",
        "; a b c",
        ";\t",
        "; \r",
        ";\r",
        ";\0\x0b\x7f",
        "; caf\u{e9}",
        ";\\",
    ];
    const BYTES: &[u8] = b"ab ();;\t\r\0\x7f\x80\xff";
    let mut comment = random.pick(&COMMENTS).as_bytes().to_vec();
    if random.once_in(4) {
        let most = *random.pick(&[70, 70, 70, 400]);
        for _ in 0..random.within(0, most) {
            comment.push(*random.pick(BYTES));
        }
    }
    comment
}

/// A line that says nothing.
fn blank(random: &mut Random, text: &mut Vec<u8>) {
    let most = *random.pick(&[0, 0, 3, 70]);
    let indented = random.within(0, most);
    text.resize(text.len() + indented, b' ');
    if random.once_in(2) {
        text.extend(comment(random));
    }
    text.push(b'\n');
}

fn blanks(random: &mut Random, habit: &Habit, text: &mut Vec<u8>) {
    while in_ten(random, habit.lines) {
        blank(random, text);
    }
}

/// The line's brackets and words, typed with this habit.
fn line(random: &mut Random, habit: &Habit, line: &[u8], text: &mut Vec<u8>) {
    spaces(random, habit, 0, text);
    let mut before = None;
    for piece in pieces(line) {
        let least = match (before, piece) {
            (None | Some(Piece::Open), _) | (_, Piece::Close) => 0,
            (Some(Piece::Word(_)), Piece::Word(_)) => 1,
            _ => usize::from(!in_ten(random, habit.glued)),
        };
        spaces(random, habit, least, text);
        match piece {
            Piece::Open => text.push(b'('),
            Piece::Close => text.push(b')'),
            Piece::Word(word) => text.extend_from_slice(word),
        }
        before = Some(piece);
    }
    spaces(random, habit, 0, text);
    if in_ten(random, habit.comments) {
        text.extend(comment(random));
    }
}

/// The text typed otherwise. Its lines stay lines, ended or not, and others come between them.
pub fn loosened(random: &mut Random, text: &[u8]) -> Vec<u8> {
    let habit = habit(random);
    let mut typed = Vec::new();
    for strict in text.split_inclusive(|byte| *byte == b'\n') {
        blanks(random, &habit, &mut typed);
        match strict.strip_suffix(b"\n") {
            Some(strict) => {
                line(random, &habit, strict, &mut typed);
                typed.push(b'\n');
            }
            None => line(random, &habit, strict, &mut typed),
        }
    }
    if text.is_empty() || text.ends_with(b"\n") {
        blanks(random, &habit, &mut typed);
    }
    typed
}

/// The place of some byte of these, where the text has one.
fn place_of(random: &mut Random, text: &[u8], wanted: &[u8]) -> Option<usize> {
    let has = |at: &usize| wanted.contains(&text[*at]);
    let places: Vec<usize> = (0..text.len()).filter(has).collect();
    (!places.is_empty()).then(|| *random.pick(&places))
}

/// Damages the text in one way in which typing goes wrong. At times it stays right.
pub fn damage(random: &mut Random, text: &mut Vec<u8>) {
    const ODD: &[u8] = b"\t\r;;;() \n\x0b\x0c\0\x7f\xa0\xffax";
    const LINES: [&str; 18] = [
        "()\n",
        "( )\n",
        "(\n",
        ")\n",
        "x\n",
        "\t\n",
        "\r\n",
        " \t ; x\n",
        "(atoms)\n",
        "( atoms a )\n",
        "(min)\n",
        "(vary)(fix)\n",
        "(vary) (fix)\n",
        "(rule(head)(body)(not))(rule(head)(body)(not))\n",
        "(min(a))\n",
        "(minx)\n",
        "(when)\n",
        "( when a(then a) )\n",
    ];
    const ENDS: [&str; 9] = [
        ";", "; end", " ", "   ", " ; end", "\t", "(", "(fix)", "\n ",
    ];
    let length = text.len();
    match random.below(16) {
        0 | 1 => text.insert(random.within(0, length), *random.pick(ODD)),
        // Another byte for a space, as a tab.
        2 | 3 => {
            if let Some(at) = place_of(random, text, b" ") {
                text[at] = *random.pick(b"\t\t\r\n;x\xa0");
            }
        }
        // Two words as one.
        4 => {
            if let Some(at) = place_of(random, text, b" ") {
                text.remove(at);
            }
        }
        // Two lines as one, or a comment that has the next line too.
        5 | 6 => {
            if let Some(at) = place_of(random, text, b"\n") {
                match random.once_in(2) {
                    true => text[at] = b' ',
                    false => {
                        text.remove(at);
                    }
                }
            }
        }
        // A form over two lines.
        7 => {
            if let Some(at) = place_of(random, text, b" ()") {
                text.insert(at, b'\n');
            }
        }
        // A comment that is none, or one that begins at a bracket, at a word or within it.
        8 => {
            if let Some(at) = place_of(random, text, b";") {
                match random.once_in(2) {
                    true => text[at] = b' ',
                    false => {
                        text.remove(at);
                    }
                }
            }
        }
        9 => text.insert(random.within(0, length), b';'),
        10 => {
            if let Some(at) = place_of(random, text, b"()") {
                let bracket = *random.pick(b"()");
                match random.below(3) {
                    0 => text.insert(at, bracket),
                    1 => text[at] = bracket,
                    _ => {
                        text.remove(at);
                    }
                }
            }
        }
        11 => {
            text.pop();
        }
        12 => text.extend_from_slice(random.pick(&ENDS).as_bytes()),
        // The line ends of another system.
        13 => {
            let all = random.once_in(2);
            let mut ended = Vec::new();
            for byte in text.iter() {
                if *byte == b'\n' && (all || random.once_in(6)) {
                    ended.push(b'\r');
                }
                ended.push(*byte);
            }
            *text = ended;
        }
        _ => {
            let starts = (0..=length).filter(|&at| at == 0 || text[at - 1] == b'\n');
            let starts: Vec<usize> = starts.collect();
            let line = match random.once_in(2) {
                true => random.pick(&LINES).as_bytes().to_vec(),
                false => {
                    let mut line = Vec::new();
                    blank(random, &mut line);
                    line
                }
            };
            let at = *random.pick(&starts);
            text.splice(at..at, line);
        }
    }
}

#[cfg(test)]
mod tests {
    use super::*;
    use crate::generate::{either, Size};
    use reference::pieces::strict;
    use reference::writer;

    /// Loosened, the text has the same brackets and words, and mostly other bytes.
    #[test]
    fn loosened_texts_say_the_same() {
        let mut random = Random::new(1);
        let mut loose = 0;
        for _ in 0..1_000 {
            let (program, names) = either(&mut random, Size::SMALL);
            let text = writer::write(&program, &names);
            let typed = loosened(&mut random, &text);
            assert_eq!(strict(&typed), text);
            loose += usize::from(typed != text);
        }
        assert!(loose > 900, "{loose}");
    }
}
