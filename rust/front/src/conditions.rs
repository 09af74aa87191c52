//! Lines `(when COND (then a))` as they are typed: how many rules and atoms they give, and what is
//! wrong where no condition stands.

use crate::file::words;

/// Has the line a condition, or is it meant to have one?
pub fn is_condition(line: &[u8]) -> bool {
    words(line).next() == Some(b"when")
}

/// What each connective of a condition gives: an atom, and so many rules.
fn rules_of_connective(word: &[u8]) -> Option<usize> {
    match word {
        b"not" => Some(2),
        b"and" | b"or" => Some(3),
        _ => None,
    }
}

/// The words between `when` and the last two, `then` and its name.
fn between(line: &[u8]) -> Vec<&[u8]> {
    let all: Vec<&[u8]> = words(line).collect();
    match &all[..] {
        [_, inside @ .., _, _] => inside.to_vec(),
        _ => Vec::new(),
    }
}

/// How many connectives the condition has; each has an atom of its own.
pub fn connectives(line: &[u8]) -> usize {
    let words = between(line).into_iter();
    words.filter_map(rules_of_connective).count()
}

/// How many rules the condition gives, that of its `then` included.
pub fn rules(line: &[u8]) -> usize {
    let words = between(line).into_iter();
    words.filter_map(rules_of_connective).sum::<usize>() + 1
}

/// What may come next.
#[derive(Clone, Copy, PartialEq, Eq)]
enum Next {
    Part,
    Connective,
}

/// Where the words between `when` and `then` are no condition: what may stand at the first such place,
/// and what stands there. The line's brackets pair.
pub fn broken_at(line: &[u8]) -> Option<String> {
    // Without `( when` in front and `( then a ) )` behind.
    let pieces = pieces(line);
    let inside = pieces.get(2..pieces.len().checked_sub(5)?)?;
    let mut next = Next::Part;
    let mut before = "(when".to_string();
    for piece in inside {
        let after = match (next, *piece) {
            (Next::Part, b"not" | b"(") => Next::Part,
            (Next::Part, b"and" | b"or" | b")") => return Some(expected(next, &before, piece)),
            (Next::Part, _) => Next::Connective,
            (Next::Connective, b"and" | b"or") => Next::Part,
            (Next::Connective, b")") => Next::Connective,
            (Next::Connective, _) => return Some(expected(next, &before, piece)),
        };
        next = after;
        before = shown(piece);
    }
    (next == Next::Part).then(|| expected(next, &before, b"(then ..)"))
}

fn expected(next: Next, before: &str, piece: &[u8]) -> String {
    let may_stand = match next {
        Next::Part => "a name, `not` or an opening bracket",
        Next::Connective => "`and`, `or`, a closing bracket or the last `(then ..)`",
    };
    format!(
        "Behind `{before}` may stand {may_stand}, but there stands `{}`.",
        shown(piece)
    )
}

/// The most bytes of a word that a message shows.
const SHOWN: usize = 30;

fn shown(piece: &[u8]) -> String {
    let cut = &piece[..piece.len().min(SHOWN)];
    String::from_utf8_lossy(cut).into()
}

/// The line's words and brackets.
fn pieces(line: &[u8]) -> Vec<&[u8]> {
    let mut found = Vec::new();
    let mut left = crate::file::form(line);
    while !left.is_empty() {
        let length = match left[0] {
            b' ' | b'(' | b')' => 1,
            _ => {
                let end = left
                    .iter()
                    .position(|byte| matches!(byte, b' ' | b'(' | b')'));
                end.unwrap_or(left.len())
            }
        };
        if left[0] != b' ' {
            found.push(&left[..length]);
        }
        left = &left[length..];
    }
    found
}

#[cfg(test)]
mod tests {
    use super::*;

    #[test]
    fn what_a_line_gives() {
        for (line, atoms, made) in [
            ("(when a (then b))\n", 0, 1),
            ("( when(not a)(then b)) ; and or\n", 1, 3),
            ("(when not (a and b) or c (then d))\n", 3, 9),
            ("(when a (then or))\n", 0, 1),
            ("(when a or then (then and))\n", 1, 4),
        ] {
            let line = line.as_bytes();
            assert!(is_condition(line));
            assert_eq!((connectives(line), rules(line)), (atoms, made));
        }
        assert!(!is_condition(b"(rule (head when) (body) (not))\n"));
        assert!(!is_condition(b"; (when a (then b))\n"));
        for line in ["(when", "(when)", "(when a)", "when"] {
            assert_eq!(connectives(line.as_bytes()), 0, "{line}");
        }
    }

    #[test]
    fn where_it_is_broken() {
        let at = |condition: &str| broken_at(format!("(when {condition} (then d))").as_bytes());
        let behind = |before: &str, may_stand: &str, piece: &str| {
            Some(format!(
                "Behind `{before}` may stand {may_stand}, but there stands `{piece}`."
            ))
        };
        let part = "a name, `not` or an opening bracket";
        let connective = "`and`, `or`, a closing bracket or the last `(then ..)`";
        assert_eq!(at(""), behind("(when", part, "(then ..)"));
        assert_eq!(at("a b"), behind("a", connective, "b"));
        assert_eq!(at("a and"), behind("and", part, "(then ..)"));
        assert_eq!(at("a and or b"), behind("and", part, "or"));
        assert_eq!(at("a not b"), behind("a", connective, "not"));
        assert_eq!(at("(a) (b)"), behind(")", connective, "("));
        assert_eq!(at("a or ()"), behind("(", part, ")"));
        assert_eq!(at("not (a or b) and not c"), None);
        assert_eq!(broken_at(b"(when)"), None);
    }
}
