//! Conditions (document 02, W-208): the form of a line `(when COND (then a))`, what COND says, and
//! the rules that it becomes. Nothing here recurses, so a text of any depth can be read.

use crate::pieces::Piece;

/// The deepest brackets of a condition.
pub const DEPTH_LIMIT: usize = 32;

#[derive(Clone, Copy, Debug, PartialEq, Eq)]
pub enum Connective {
    Not,
    And,
    Or,
}

impl Connective {
    /// The connective of a word inside COND; any other word is a name there.
    pub fn of_word(word: &[u8]) -> Option<Connective> {
        match word {
            b"not" => Some(Connective::Not),
            b"and" => Some(Connective::And),
            b"or" => Some(Connective::Or),
            _ => None,
        }
    }
}

/// A line whose form stands. Its words are not yet looked at.
#[derive(Clone, Copy, Debug)]
pub struct Line<'a, 'p> {
    /// What stands between `when` and the last `(then a))`.
    pub between: &'p [Piece<'a>],
    pub then: &'a [u8],
}

/// How deep the brackets nest, where they pair.
pub fn depth(pieces: &[Piece]) -> Option<usize> {
    let (mut open, mut deepest) = (0usize, 0);
    for piece in pieces {
        match piece {
            Piece::Open => open += 1,
            Piece::Close => open = open.checked_sub(1)?,
            Piece::Word(_) => {}
        }
        deepest = deepest.max(open);
    }
    (open == 0).then_some(deepest)
}

/// The line's form: one bracket with `when`, some pieces whose brackets pair in themselves, and
/// `(then a)` at its end.
pub fn line<'a, 'p>(pieces: &'p [Piece<'a>]) -> Option<Line<'a, 'p>> {
    use Piece::{Close, Open, Word};
    let [Open, Word(b"when"), between @ .., Open, Word(b"then"), Word(then), Close, Close] = pieces
    else {
        return None;
    };
    depth(between)?;
    Some(Line { between, then })
}

impl<'a> Line<'a, '_> {
    fn words(&self) -> impl Iterator<Item = &'a [u8]> + '_ {
        self.between.iter().filter_map(|piece| match piece {
            Piece::Word(word) => Some(*word),
            _ => None,
        })
    }

    /// The names of COND, as often as they stand there, and the name behind `then`.
    pub fn names(&self) -> Vec<&'a [u8]> {
        let names = self.words().filter(|w| Connective::of_word(w).is_none());
        names.chain([self.then]).collect()
    }

    pub fn connectives(&self) -> usize {
        self.words().filter_map(Connective::of_word).count()
    }
}

/// A part of a condition: a name, or what a connective joins. A connective is meant by its place
/// among those of the condition, from 0, as they stand in the text.
#[derive(Clone, Copy, Debug, PartialEq, Eq)]
pub enum Part<N> {
    Name(N),
    Joined(usize),
}

/// A condition: its connectives in the text's order, each with its one or two parts, and the part
/// that is the whole.
#[derive(Clone, Debug, PartialEq, Eq)]
pub struct Condition<N> {
    pub connectives: Vec<(Connective, Vec<Part<N>>)>,
    pub whole: Part<N>,
}

/// What is not joined yet: a part, or a connective with its place.
#[derive(Clone, Copy)]
enum Item<'a> {
    Part(Part<&'a [u8]>),
    Connective(Connective, usize),
}

/// Joins what stands between two brackets to one part, where it is one.
struct Joiner<'a> {
    joined: Vec<(Connective, Vec<Part<&'a [u8]>>)>,
}

impl<'a> Joiner<'a> {
    fn join(&mut self, place: usize, parts: &[Part<&'a [u8]>]) -> Item<'a> {
        self.joined[place].1 = parts.to_vec();
        Item::Part(Part::Joined(place))
    }

    /// Each `not` with the part behind it, the last `not` first.
    fn negations(&mut self, items: &[Item<'a>]) -> Vec<Item<'a>> {
        let mut left: Vec<Item<'a>> = Vec::new();
        for item in items.iter().rev() {
            let joined = match (item, left.last()) {
                (Item::Connective(Connective::Not, place), Some(Item::Part(part))) => {
                    Some(self.join(*place, &[*part]))
                }
                _ => None,
            };
            if joined.is_some() {
                left.pop();
            }
            left.push(joined.unwrap_or(*item));
        }
        left.reverse();
        left
    }

    /// Each of these connectives with the parts beside it, the first one first.
    fn pairs(&mut self, connective: Connective, items: &[Item<'a>]) -> Vec<Item<'a>> {
        let mut left: Vec<Item<'a>> = Vec::new();
        for item in items {
            let joined = match (&left[..], item) {
                ([.., Item::Part(first), Item::Connective(found, place)], Item::Part(second))
                    if *found == connective =>
                {
                    Some(self.join(*place, &[*first, *second]))
                }
                _ => None,
            };
            if joined.is_some() {
                left.truncate(left.len() - 2);
            }
            left.push(joined.unwrap_or(*item));
        }
        left
    }

    /// `not` binds before `and`, `and` before `or`, and equals group to the left.
    fn whole(&mut self, items: &[Item<'a>]) -> Option<Part<&'a [u8]>> {
        let items = self.negations(items);
        let items = self.pairs(Connective::And, &items);
        let items = self.pairs(Connective::Or, &items);
        match items[..] {
            [Item::Part(part)] => Some(part),
            _ => None,
        }
    }
}

/// What the pieces, whose brackets pair, say as COND, or nothing where they are none.
pub fn condition<'a>(pieces: &[Piece<'a>]) -> Option<Condition<&'a [u8]>> {
    let mut joiner = Joiner { joined: Vec::new() };
    let mut open = vec![Vec::new()];
    for piece in pieces {
        let item = match piece {
            Piece::Open => {
                open.push(Vec::new());
                continue;
            }
            Piece::Close => Item::Part(joiner.whole(&open.pop()?)?),
            Piece::Word(word) => match Connective::of_word(word) {
                None => Item::Part(Part::Name(*word)),
                Some(connective) => {
                    joiner.joined.push((connective, Vec::new()));
                    Item::Connective(connective, joiner.joined.len() - 1)
                }
            },
        };
        open.last_mut()?.push(item);
    }
    let whole = joiner.whole(&open.pop()?)?;
    Some(Condition {
        connectives: joiner.joined,
        whole,
    })
}

/// Head and body of a rule that a condition becomes.
pub type MadeRule = (Vec<usize>, Vec<usize>);

/// The two atoms as a list, an atom once.
fn list(first: usize, second: usize) -> Vec<usize> {
    match first == second {
        true => vec![first],
        false => vec![first, second],
    }
}

impl Condition<usize> {
    /// The rules of the connectives, in their order, and the rule of `then`. The atom of the
    /// connective at a place is the first one's and the place.
    pub fn rules(&self, first: usize, then: usize) -> Vec<MadeRule> {
        let atom = |part: &Part<usize>| match part {
            Part::Name(name) => *name,
            Part::Joined(place) => first + place,
        };
        let mut rules = Vec::new();
        for (place, (connective, parts)) in self.connectives.iter().enumerate() {
            let made = first + place;
            let (left, right) = (atom(&parts[0]), atom(&parts[parts.len() - 1]));
            match connective {
                Connective::And => {
                    rules.push((vec![made], list(left, right)));
                    rules.push((vec![left], vec![made]));
                    rules.push((vec![right], vec![made]));
                }
                Connective::Or => {
                    rules.push((list(left, right), vec![made]));
                    rules.push((vec![made], vec![left]));
                    rules.push((vec![made], vec![right]));
                }
                Connective::Not => {
                    rules.push((list(made, left), vec![]));
                    rules.push((vec![], list(made, left)));
                }
            }
        }
        rules.push((vec![then], vec![atom(&self.whole)]));
        rules
    }

    /// Does a set satisfy the condition, read as and, or, not? Only for conditions of a file that was
    /// accepted, whose connectives are few.
    pub fn holds(&self, has: &dyn Fn(usize) -> bool) -> bool {
        self.part_holds(&self.whole, has)
    }

    fn part_holds(&self, part: &Part<usize>, has: &dyn Fn(usize) -> bool) -> bool {
        let place = match part {
            Part::Name(name) => return has(*name),
            Part::Joined(place) => *place,
        };
        let (connective, parts) = &self.connectives[place];
        let mut values = parts.iter().map(|part| self.part_holds(part, has));
        match connective {
            Connective::Not => !values.all(|value| value),
            Connective::And => values.all(|value| value),
            Connective::Or => values.any(|value| value),
        }
    }
}

impl<N: Copy> Condition<N> {
    /// The same with other names, where each has one.
    pub fn renamed<M>(&self, name: impl Fn(N) -> Option<M>) -> Option<Condition<M>> {
        let part = |part: &Part<N>| -> Option<Part<M>> {
            Some(match part {
                Part::Name(old) => Part::Name(name(*old)?),
                Part::Joined(place) => Part::Joined(*place),
            })
        };
        let connectives = self.connectives.iter().map(|(connective, parts)| {
            let parts: Option<Vec<Part<M>>> = parts.iter().map(part).collect();
            Some((*connective, parts?))
        });
        Some(Condition {
            connectives: connectives.collect::<Option<_>>()?,
            whole: part(&self.whole)?,
        })
    }
}
