//! The public functions over slices: inputs handed in, outputs lent. On a refusal no element of
//! an output is written; after success what lies past the written part keeps its content.
//!
//! Of two sets, the earlier is the one lacking the first declared atom on which they differ. Walks
//! go in this order, and a start is a place in it: see [`place`].

use crate::refusal::{Refusal, TextRefusal};
use crate::sys;

/// How much of its two outputs the reader wrote.
#[derive(Clone, Copy, Debug, PartialEq, Eq)]
pub struct Accepted {
    pub words: usize,
    pub bytes: usize,
}

/// How much of its two outputs [`add_rule`] wrote.
#[derive(Clone, Copy, Debug, PartialEq, Eq)]
pub struct Grown {
    pub words: usize,
    pub index_words: usize,
}

/// What is said about a set.
#[derive(Clone, Copy, Debug, PartialEq, Eq)]
pub enum Verdict {
    /// It is preferred, or stable; the walk took these units.
    Yes { units: u64 },
    /// It is no model; this is the number, from 0, of the first rule that it breaks.
    Broken { rule: u64 },
    /// It is a model; this is the first better set in the walk, found with these units.
    Beaten { set: u64, units: u64 },
    /// More units are needed than the budget.
    Spent,
}

/// What is said about the states at or after a start.
#[derive(Clone, Copy, Debug, PartialEq, Eq)]
pub enum Next {
    /// The first of them.
    State { set: u64, units: u64 },
    /// There is none.
    None { units: u64 },
    /// More units are needed than the budget.
    Spent,
}

/// Reads a text of either kind into a rule store and a name store. One bracket form stands on a line;
/// spaces may stand around its words and brackets, a comment goes from `;` to the line's end, and
/// lines may be blank.
///
/// A preference file's atoms that stand in no rule are checked with the others and then left out of
/// both stores: atoms are numbered among those that remain, and the outputs need room for these
/// alone. Classes stay, emptied ones too. A plain program keeps all its atoms.
///
/// The other functions take stores as they stand, atoms that no rule has included.
pub fn read(text: &[u8], rules: &mut [u16], names: &mut [u8]) -> Result<Accepted, TextRefusal> {
    // SAFETY: each pointer and length is one slice, and the outputs are borrowed for us alone.
    let answer = unsafe {
        sys::rigtomato_read(
            text.as_ptr(),
            text.len(),
            rules.as_mut_ptr(),
            rules.len(),
            names.as_mut_ptr(),
            names.len(),
        )
    };
    accepted(answer)
}

/// Reads a clause file (DIMACS CNF) into the rule store and the name store of its preference file:
/// atom i is called `v` and its number, all atoms that some clause has are one class, and each clause
/// is a rule with its positive literals as the head and its negative ones as the body.
pub fn read_clauses(
    text: &[u8],
    rules: &mut [u16],
    names: &mut [u8],
) -> Result<Accepted, TextRefusal> {
    // SAFETY: as in `read`.
    accepted(unsafe {
        sys::rigtomato_read_clauses(
            text.as_ptr(),
            text.len(),
            rules.as_mut_ptr(),
            rules.len(),
            names.as_mut_ptr(),
            names.len(),
        )
    })
}

fn accepted(answer: sys::ReadAnswer) -> Result<Accepted, TextRefusal> {
    match answer.refusal {
        0 => Ok(Accepted {
            words: answer.words as usize,
            bytes: answer.bytes as usize,
        }),
        number => Err(TextRefusal {
            refusal: Refusal::of_number(number),
            line: (answer.line != 0).then_some(answer.line),
        }),
    }
}

fn written(answer: sys::TextAnswer) -> Result<usize, Refusal> {
    match answer.refusal {
        0 => Ok(answer.bytes as usize),
        number => Err(Refusal::of_number(number)),
    }
}

/// Writes the text of the stores in its strict form, one space between items and no other spacing;
/// gives its length.
pub fn write(rules: &[u16], names: &[u8], out: &mut [u8]) -> Result<usize, Refusal> {
    // SAFETY: as in `read`.
    written(unsafe {
        sys::rigtomato_write(
            rules.as_ptr(),
            rules.len(),
            names.as_ptr(),
            names.len(),
            out.as_mut_ptr(),
            out.len(),
        )
    })
}

/// Writes the canonical text of the stores; gives its length. The atoms inside each list are sorted by
/// number, then the rules by the first difference of their heads, bodies and `not` lists, a list that
/// ends first before those that go on, and one of equal rules is kept. The declarations stay, atoms
/// that no rule has included.
pub fn write_canonical(rules: &[u16], names: &[u8], out: &mut [u8]) -> Result<usize, Refusal> {
    // SAFETY: as in `read`.
    written(unsafe {
        sys::rigtomato_write_canonical(
            rules.as_ptr(),
            rules.len(),
            names.as_ptr(),
            names.len(),
            out.as_mut_ptr(),
            out.len(),
        )
    })
}

/// Writes the text of a preference file's plain program; gives its length.
pub fn translate(rules: &[u16], names: &[u8], out: &mut [u8]) -> Result<usize, Refusal> {
    // SAFETY: as in `read`.
    written(unsafe {
        sys::rigtomato_translate(
            rules.as_ptr(),
            rules.len(),
            names.as_ptr(),
            names.len(),
            out.as_mut_ptr(),
            out.len(),
        )
    })
}

fn verdict(answer: sys::VerdictAnswer) -> Result<Verdict, Refusal> {
    let (value, units) = (answer.value, answer.units);
    match answer.kind {
        0 => Ok(Verdict::Yes { units }),
        1 => Ok(Verdict::Broken { rule: value }),
        2 => Ok(Verdict::Beaten { set: value, units }),
        3 => Ok(Verdict::Spent),
        _ => Err(Refusal::of_number(value)),
    }
}

/// Is the set preferred in the preference store?
pub fn preferred(rules: &[u16], set: u64, budget: u64) -> Result<Verdict, Refusal> {
    // SAFETY: the pointer and the length are one slice.
    verdict(unsafe { sys::rigtomato_preferred(rules.as_ptr(), rules.len(), set, budget) })
}

/// Is the set stable in the plain store?
pub fn stable(rules: &[u16], set: u64, budget: u64) -> Result<Verdict, Refusal> {
    // SAFETY: the pointer and the length are one slice.
    verdict(unsafe { sys::rigtomato_stable(rules.as_ptr(), rules.len(), set, budget) })
}

/// The first preferred set at or after the start, which is a place from 0 to 2^n.
pub fn next_state(rules: &[u16], start: u64, budget: u64) -> Result<Next, Refusal> {
    // SAFETY: the pointer and the length are one slice.
    let answer = unsafe { sys::rigtomato_next_state(rules.as_ptr(), rules.len(), start, budget) };
    let (value, units) = (answer.value, answer.units);
    match answer.kind {
        0 => Ok(Next::State { set: value, units }),
        1 => Ok(Next::None { units }),
        3 => Ok(Next::Spent),
        _ => Err(Refusal::of_number(value)),
    }
}

/// The set's place, from 0, in the order of all sets of the preference store's atoms. One more is
/// the start from which the sets after it follow.
pub fn place(rules: &[u16], set: u64) -> Result<u64, Refusal> {
    // SAFETY: the pointer and the length are one slice.
    value(unsafe { sys::rigtomato_place(rules.as_ptr(), rules.len(), set) })
}

fn value(answer: sys::ValueAnswer) -> Result<u64, Refusal> {
    match answer.refusal {
        0 => Ok(answer.value),
        number => Err(Refusal::of_number(number)),
    }
}

/// Writes the index of a rule store of either kind; gives its length. For each atom it has the count of
/// the rules that hold it, in any of their three lists, and then their numbers, rising.
pub fn index_rules(rules: &[u16], out: &mut [u16]) -> Result<usize, Refusal> {
    // SAFETY: as in `read`.
    let words = value(unsafe {
        sys::rigtomato_index_rules(rules.as_ptr(), rules.len(), out.as_mut_ptr(), out.len())
    });
    words.map(|words| words as usize)
}

/// Writes the store with the rule at its end, and that store's index. The rule is given in the store's
/// words, three counts and the atoms of its lists.
pub fn add_rule(
    rules: &[u16],
    index: &[u16],
    rule: &[u16],
    rules_out: &mut [u16],
    index_out: &mut [u16],
) -> Result<Grown, Refusal> {
    // SAFETY: as in `read`.
    let answer = unsafe {
        sys::rigtomato_add_rule(
            rules.as_ptr(),
            rules.len(),
            index.as_ptr(),
            index.len(),
            rule.as_ptr(),
            rule.len(),
            rules_out.as_mut_ptr(),
            rules_out.len(),
            index_out.as_mut_ptr(),
            index_out.len(),
        )
    };
    match answer.refusal {
        0 => Ok(Grown {
            words: answer.words as usize,
            index_words: answer.index_words as usize,
        }),
        number => Err(Refusal::of_number(number)),
    }
}

/// Writes the list's rules that don't hold the atom, joined with those of the atom's rules that the
/// flipped set breaks, in rising order; gives how many they are. The list is one of rising rule numbers,
/// and the set is the one before the flip.
pub fn flip(
    rules: &[u16],
    index: &[u16],
    list: &[u16],
    set: u64,
    atom: u64,
    out: &mut [u16],
) -> Result<usize, Refusal> {
    // SAFETY: as in `read`.
    let count = value(unsafe {
        sys::rigtomato_flip(
            rules.as_ptr(),
            rules.len(),
            index.as_ptr(),
            index.len(),
            list.as_ptr(),
            list.len(),
            set,
            atom,
            out.as_mut_ptr(),
            out.len(),
        )
    });
    count.map(|count| count as usize)
}
