//! Who can be turned back, and why.

use std::error::Error;
use std::fmt;

/// A refusal. Its number, `refusal as u64`, is document 01's; from 15 on it is document 02's.
#[derive(Clone, Copy, Debug, PartialEq, Eq)]
pub enum Refusal {
    TextTooLong = 1,
    Form = 2,
    Name = 3,
    DeclaredTwice = 4,
    NotDeclared = 5,
    TwiceInList = 6,
    Limit = 7,
    FilledNot = 8,
    OutputShort = 9,
    RuleStore = 10,
    TooManyAtoms = 11,
    SetTooLarge = 12,
    BudgetTooLarge = 13,
    NameStore = 14,
    BrokenClauses = 15,
    LiteralBeyond = 16,
    BrokenCondition = 17,
    DeepBrackets = 18,
    RuleIndex = 19,
}

impl Refusal {
    const ALL: [Refusal; 19] = [
        Refusal::TextTooLong,
        Refusal::Form,
        Refusal::Name,
        Refusal::DeclaredTwice,
        Refusal::NotDeclared,
        Refusal::TwiceInList,
        Refusal::Limit,
        Refusal::FilledNot,
        Refusal::OutputShort,
        Refusal::RuleStore,
        Refusal::TooManyAtoms,
        Refusal::SetTooLarge,
        Refusal::BudgetTooLarge,
        Refusal::NameStore,
        Refusal::BrokenClauses,
        Refusal::LiteralBeyond,
        Refusal::BrokenCondition,
        Refusal::DeepBrackets,
        Refusal::RuleIndex,
    ];

    /// The refusal with this number. The library gives no other.
    pub(crate) fn of_number(number: u64) -> Refusal {
        let found = Refusal::ALL
            .into_iter()
            .find(|refusal| *refusal as u64 == number);
        found.unwrap_or_else(|| panic!("the library gave the unknown refusal {number}"))
    }

    /// What is wrong, without the number.
    pub fn words(self) -> &'static str {
        match self {
            Refusal::TextTooLong => "the text is too long",
            Refusal::Form => "a form or the order of lines is broken, or a needed line is missing",
            Refusal::Name => "a name is too long, or is a generated one in a preference file",
            Refusal::DeclaredTwice => "an atom is declared twice",
            Refusal::NotDeclared => "an atom is not declared",
            Refusal::TwiceInList => "an atom stands twice in one list of a rule",
            Refusal::Limit => "there are too many classes, atoms, rules or atom occurrences",
            Refusal::FilledNot => "a preference file has a filled `not` list",
            Refusal::OutputShort => "a lent output is shorter than the result",
            Refusal::RuleStore => {
                "the rule store is not of the form or of the other kind, or a rule to add breaks it"
            }
            Refusal::TooManyAtoms => "there are over 60 atoms",
            Refusal::SetTooLarge => "the set number, the start or the atom number is too large",
            Refusal::BudgetTooLarge => "the budget is over 2^40",
            Refusal::NameStore => "the name store does not fit the rule store",
            Refusal::BrokenClauses => {
                "the header, a clause or a line's end is broken, or the count of clauses differs"
            }
            Refusal::LiteralBeyond => "a literal is beyond the header's atoms",
            Refusal::BrokenCondition => "no condition stands between `(when` and its `(then ..)`",
            Refusal::DeepBrackets => "a condition's brackets are deeper than 32",
            Refusal::RuleIndex => {
                "the index is not that of the rule store, or the list is not of rising rule numbers"
            }
        }
    }
}

impl fmt::Display for Refusal {
    fn fmt(&self, out: &mut fmt::Formatter) -> fmt::Result {
        write!(out, "{} (refusal {})", self.words(), *self as u64)
    }
}

impl Error for Refusal {}

/// The refusal of a text, with its line from 1 where it has one.
#[derive(Clone, Copy, Debug, PartialEq, Eq)]
pub struct TextRefusal {
    pub refusal: Refusal,
    pub line: Option<u64>,
}

impl fmt::Display for TextRefusal {
    fn fmt(&self, out: &mut fmt::Formatter) -> fmt::Result {
        match self.line {
            Some(line) => write!(out, "line {line}: {}", self.refusal),
            None => self.refusal.fmt(out),
        }
    }
}

impl Error for TextRefusal {}
