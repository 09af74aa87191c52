//! The refusals, with document 01's numbers ("Who can be turned back"), from 15 on document 02's.

/// Why somebody is turned back. The number of a reason is `reason as u64`; the order is that of
/// the numbers, so the least of several faults of a line is the one that counts, but in a clause
/// file and on a condition's line.
#[derive(Clone, Copy, Debug, PartialEq, Eq, PartialOrd, Ord)]
pub enum Reason {
    TextTooLong = 1,
    Form = 2,
    Name = 3,
    DeclaredTwice = 4,
    NotDeclared = 5,
    TwiceInList = 6,
    Limit = 7,
    FilledNot = 8,
    OutputShort = 9,
    RuleStore = 10,
    TooManyAtoms = 11,
    SetTooLarge = 12,
    BudgetTooLarge = 13,
    NameStore = 14,
    BrokenClauses = 15,
    LiteralBeyond = 16,
    BrokenCondition = 17,
    DeepBrackets = 18,
    RuleIndex = 19,
}

/// A refusal with its line, counted from 1, or line 0 where there is none.
#[derive(Clone, Copy, Debug, PartialEq, Eq)]
pub struct Refusal {
    pub reason: Reason,
    pub line: u64,
}

impl Refusal {
    pub fn on_line(reason: Reason, line: u64) -> Refusal {
        Refusal { reason, line }
    }

    pub fn without_line(reason: Reason) -> Refusal {
        Refusal { reason, line: 0 }
    }

    pub fn number(self) -> u64 {
        self.reason as u64
    }
}
