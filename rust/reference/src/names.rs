//! Which names are allowed to which kind of file.

use crate::limits::{Kind, HOUSE_NAME_LIMIT, MADE_LIMIT};
use crate::refusal::Reason;

/// What the bytes of an item are, as a name.
#[derive(Clone, Copy, Debug, PartialEq, Eq)]
enum Shape {
    /// Or `T.` before 1 to 256.
    House,
    /// A house name but for its length, alone or after `N.`, `S.` or `D.`.
    TooLong,
    /// `N.`, `S.` or `D.` before one of these, `E.` before 0 to 16, or `U`.
    Generated,
    Other,
}

/// Is it a letter a to z or a digit and then letters a to z, digits or `_`, of any length?
fn house_bytes(name: &[u8]) -> bool {
    match name.split_first() {
        None => false,
        Some((first, rest)) => {
            (first.is_ascii_lowercase() || first.is_ascii_digit())
                && rest
                    .iter()
                    .all(|b| b.is_ascii_lowercase() || b.is_ascii_digit() || *b == b'_')
        }
    }
}

/// The name of the atom that the connective of this number gets, from 1.
pub fn made_name(number: usize) -> Vec<u8> {
    format!("T.{number}").into_bytes()
}

/// The number of a name `T.1` to `T.256`.
pub fn made_number(name: &[u8]) -> Option<usize> {
    let digits = name.strip_prefix(b"T.")?;
    (1..=MADE_LIMIT).find(|number| number.to_string().as_bytes() == digits)
}

fn house_shape(name: &[u8]) -> Shape {
    if made_number(name).is_some() {
        Shape::House
    } else if !house_bytes(name) {
        Shape::Other
    } else if name.len() > HOUSE_NAME_LIMIT {
        Shape::TooLong
    } else {
        Shape::House
    }
}

fn shape(name: &[u8]) -> Shape {
    if name == b"U" {
        return Shape::Generated;
    }
    if let Some(number) = name.strip_prefix(b"E.") {
        let known = (0..=16).any(|i: u32| i.to_string().as_bytes() == number);
        return if known {
            Shape::Generated
        } else {
            Shape::Other
        };
    }
    for prefix in [b"N.", b"S.", b"D."] {
        if let Some(rest) = name.strip_prefix(prefix) {
            return match house_shape(rest) {
                Shape::House => Shape::Generated,
                other => other,
            };
        }
    }
    house_shape(name)
}

/// The fault of a name in a text of this kind, if it has one: refusal 3 for a house name that is
/// too long and for a generated name in a preference file, refusal 2 for any other.
pub fn name_fault(kind: Kind, name: &[u8]) -> Option<Reason> {
    match (shape(name), kind) {
        (Shape::House, _) => None,
        (Shape::Generated, Kind::Plain) => None,
        (Shape::Generated, Kind::Preference) => Some(Reason::Name),
        (Shape::TooLong, _) => Some(Reason::Name),
        (Shape::Other, _) => Some(Reason::Form),
    }
}

/// Is the name allowed to this kind?
pub fn allowed(kind: Kind, name: &[u8]) -> bool {
    name_fault(kind, name).is_none()
}
