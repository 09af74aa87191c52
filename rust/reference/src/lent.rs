//! The public functions as a caller meets them: stores handed in, outputs lent.
//!
//! Nothing is written on a refusal; after success, what lies past the written part keeps its
//! content.

use crate::canonical::canonical;
use crate::clauses;
use crate::index::{self, check_index, check_list, with_rule};
use crate::limits::{Kind, BUDGET_LIMIT, VERDICT_ATOM_LIMIT};
use crate::program::{Names, Program};
use crate::reader;
use crate::refusal::{Reason, Refusal};
use crate::stores::{check_names, check_rules, check_rules_of, name_store, rule_store};
use crate::translator;
use crate::verdicts::{self, Next, Verdict};
use crate::writer;

/// How much of its two outputs the reader wrote.
#[derive(Clone, Copy, Debug, PartialEq, Eq)]
pub struct Accepted {
    pub words: usize,
    pub bytes: usize,
}

/// Reads a text into a rule store and a name store.
pub fn read(text: &[u8], rules: &mut [u16], names: &mut [u8]) -> Result<Accepted, Refusal> {
    deliver_stores(&reader::read(text)?, rules, names)
}

/// Reads a clause file into the rule store and the name store of its preference file.
pub fn read_clauses(text: &[u8], rules: &mut [u16], names: &mut [u8]) -> Result<Accepted, Refusal> {
    deliver_stores(&clauses::read(text)?, rules, names)
}

fn deliver_stores(
    (program, read_names): &(Program, Names),
    rules: &mut [u16],
    names: &mut [u8],
) -> Result<Accepted, Refusal> {
    let words = rule_store(program);
    let bytes = name_store(read_names);
    if rules.len() < words.len() || names.len() < bytes.len() {
        return Err(Refusal::without_line(Reason::OutputShort));
    }
    rules[..words.len()].copy_from_slice(&words);
    names[..bytes.len()].copy_from_slice(&bytes);
    Ok(Accepted {
        words: words.len(),
        bytes: bytes.len(),
    })
}

fn deliver<T: Copy>(result: &[T], out: &mut [T]) -> Result<usize, Reason> {
    if out.len() < result.len() {
        return Err(Reason::OutputShort);
    }
    out[..result.len()].copy_from_slice(result);
    Ok(result.len())
}

/// Writes the text of a rule store and a name store; gives its length.
pub fn write(rules: &[u16], names: &[u8], out: &mut [u8]) -> Result<usize, Reason> {
    let program = check_rules(rules)?;
    let names = check_names(&program, names)?;
    deliver(&writer::write(&program, &names), out)
}

/// Writes the text of the canonical form of the stores' program; gives its length.
pub fn write_canonical(rules: &[u16], names: &[u8], out: &mut [u8]) -> Result<usize, Reason> {
    let program = check_rules(rules)?;
    let names = check_names(&program, names)?;
    deliver(&writer::write(&canonical(&program), &names), out)
}

/// Writes the text of a preference file's plain program; gives its length.
pub fn translate(rules: &[u16], names: &[u8], out: &mut [u8]) -> Result<usize, Reason> {
    let file = check_rules_of(Kind::Preference, rules)?;
    let names = check_names(&file, names)?;
    let (plain, plain_names) = translator::translate(&file, &names);
    deliver(&writer::write(&plain, &plain_names), out)
}

/// The checks of a set or a start: atoms, then the number. `last` is the largest number allowed,
/// given 2^n.
fn check_number(program: &Program, number: u64, last: fn(u64) -> u64) -> Result<(), Reason> {
    if program.atoms > VERDICT_ATOM_LIMIT {
        return Err(Reason::TooManyAtoms);
    }
    if number > last(1 << program.atoms) {
        return Err(Reason::SetTooLarge);
    }
    Ok(())
}

/// The store's kind and then the same.
fn admit_number(
    kind: Kind,
    rules: &[u16],
    number: u64,
    last: fn(u64) -> u64,
) -> Result<Program, Reason> {
    let program = check_rules_of(kind, rules)?;
    check_number(&program, number, last)?;
    Ok(program)
}

/// The same and then the budget.
fn admit(
    kind: Kind,
    rules: &[u16],
    number: u64,
    budget: u64,
    last: fn(u64) -> u64,
) -> Result<Program, Reason> {
    let program = admit_number(kind, rules, number, last)?;
    if budget > BUDGET_LIMIT {
        return Err(Reason::BudgetTooLarge);
    }
    Ok(program)
}

pub fn preferred(rules: &[u16], set: u64, budget: u64) -> Result<Verdict, Reason> {
    let file = admit(Kind::Preference, rules, set, budget, |sets| sets - 1)?;
    Ok(verdicts::preferred(&file, set, budget))
}

pub fn stable(rules: &[u16], set: u64, budget: u64) -> Result<Verdict, Reason> {
    let plain = admit(Kind::Plain, rules, set, budget, |sets| sets - 1)?;
    Ok(verdicts::stable(&plain, set, budget))
}

pub fn next_state(rules: &[u16], start: u64, budget: u64) -> Result<Next, Reason> {
    let file = admit(Kind::Preference, rules, start, budget, |sets| sets)?;
    Ok(verdicts::next_state(&file, start, budget))
}

pub fn place(rules: &[u16], set: u64) -> Result<u64, Reason> {
    let file = admit_number(Kind::Preference, rules, set, |sets| sets - 1)?;
    Ok(verdicts::place(file.atoms, set))
}

/// Writes the index of a rule store of either kind; gives its length.
pub fn index_rules(rules: &[u16], out: &mut [u16]) -> Result<usize, Reason> {
    let program = check_rules(rules)?;
    deliver(&index::index(&program), out)
}

/// How much of its two outputs was written when a rule was added.
#[derive(Clone, Copy, Debug, PartialEq, Eq)]
pub struct Grown {
    pub words: usize,
    pub index_words: usize,
}

/// Writes the store with the rule at its end, and its index.
pub fn add_rule(
    rules: &[u16],
    index: &[u16],
    rule: &[u16],
    rules_out: &mut [u16],
    index_out: &mut [u16],
) -> Result<Grown, Reason> {
    let program = check_rules(rules)?;
    let words = with_rule(rules, rule);
    let grown = check_rules(&words)?;
    check_index(&program, index)?;
    let index_words = index::index(&grown);
    if rules_out.len() < words.len() || index_out.len() < index_words.len() {
        return Err(Reason::OutputShort);
    }
    Ok(Grown {
        words: deliver(&words, rules_out)?,
        index_words: deliver(&index_words, index_out)?,
    })
}

/// Writes what becomes of a list of rules when the atom is flipped in the set; gives how many rules
/// are written. From the set's broken rules it gives the flipped set's.
pub fn flip(
    rules: &[u16],
    index: &[u16],
    list: &[u16],
    set: u64,
    atom: u64,
    out: &mut [u16],
) -> Result<usize, Reason> {
    let program = check_rules(rules)?;
    check_index(&program, index)?;
    check_list(&program, list)?;
    check_number(&program, set, |sets| sets - 1)?;
    if atom >= program.atoms as u64 {
        return Err(Reason::SetTooLarge);
    }
    deliver(&index::flip(&program, list, set, atom as usize), out)
}
