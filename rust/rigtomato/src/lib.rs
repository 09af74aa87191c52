//! Rigtomato for Rust programs: a safe binding over the proved static library.
//!
//! ```
//! use rigtomato::{Program, LARGEST_BUDGET};
//!
//! let text = "(min sensor)\n(min lamp)\n(vary dark)\n(fix)\n\
//!     (rule (head sensor lamp) (body) (not))\n(rule (head dark) (body lamp) (not))\n";
//! let file = Program::read(text.as_bytes())?;
//! let states: Result<Vec<u64>, _> = file.states(LARGEST_BUDGET).collect();
//! let states = states?;
//! assert_eq!(states, [6]);
//! assert_eq!(file.names_in(states[0]).collect::<Vec<_>>(), ["lamp", "dark"]);
//! # Ok::<(), Box<dyn std::error::Error>>(())
//! ```
//!
//! A call keeps some hundred kilobytes of arrays on the stack, which the two megabytes of an
//! ordinary Rust thread hold.

mod index;
pub mod lent;
mod program;
mod refusal;
pub mod sys;

pub use index::RuleIndex;
pub use lent::{Next, Verdict};
pub use program::{Limits, Role, Rule};
pub use refusal::{Refusal, TextRefusal};

use std::error::Error;
use std::fmt;

/// The largest budget of units, 2^40.
pub const LARGEST_BUDGET: u64 = 1 << 40;
/// The most bytes of a text.
pub const TEXT_LIMIT: usize = 917_504;
/// The most bytes of a house name.
pub const HOUSE_NAME_LIMIT: usize = 24;
/// The most atoms with which a verdict is given or states are listed.
pub const VERDICT_ATOM_LIMIT: usize = 60;

/// The most words of a rule store: a plain program's.
const RULES_LIMIT: usize = 4 + 3 * 4_200 + 24_000;
/// The most bytes of a name store: a plain program's, each name with its length and `N.`.
const NAMES_LIMIT: usize = 1_100 * (HOUSE_NAME_LIMIT + 3);

type ReadLent = fn(&[u8], &mut [u16], &mut [u8]) -> Result<lent::Accepted, TextRefusal>;
type WriteLent = fn(&[u16], &[u8], &mut [u8]) -> Result<usize, Refusal>;

#[derive(Clone, Copy, Debug, PartialEq, Eq)]
pub enum Kind {
    Plain,
    Preference,
}

/// The two stores of an accepted text: what it declares and its rules. Of a preference file's atoms
/// only those that stand in some rule belong to the program. [`RuleIndex::add_rule`] gives a program
/// with one rule more.
#[derive(Clone, Debug, PartialEq, Eq)]
pub struct Program {
    rules: Vec<u16>,
    names: Vec<u8>,
}

impl Program {
    /// Reads a text of either kind, with any spaces around words and brackets, comments from `;` to a
    /// line's end and blank lines. A preference file's atoms that stand in no rule are checked with
    /// the others and then left out. Its conditions become rules, with a varying atom `T.1`, `T.2`, ..
    /// for each `not`, `and` and `or`.
    ///
    /// ```
    /// # use rigtomato::Program;
    /// let text = "(min)\n(vary a b c)\n(fix)\n\n(rule (head c)(body a)(not)) ; c if a\n";
    /// let file = Program::read(text.as_bytes())?;
    /// assert_eq!(file.names().collect::<Vec<_>>(), ["a", "c"]);
    /// let file = Program::read(b"(vary a b)\n(fix c)\n(when a and not b (then c))\n")?;
    /// assert_eq!(file.names().collect::<Vec<_>>(), ["a", "b", "T.1", "T.2", "c"]);
    /// # Ok::<(), rigtomato::TextRefusal>(())
    /// ```
    pub fn read(text: &[u8]) -> Result<Program, TextRefusal> {
        Program::read_by(lent::read, text)
    }

    /// Reads a clause file (DIMACS CNF). What it gives is a preference file with one class: its models
    /// are the sets that satisfy the clauses, its preferred states the least of them by subset.
    ///
    /// ```
    /// # use rigtomato::{Program, LARGEST_BUDGET};
    /// let file = Program::read_clauses(b"c v1 or v3, v3 if v1\np cnf 3 2\n1 3 0\n-1 3 0\n")?;
    /// assert_eq!(file.names().collect::<Vec<_>>(), ["v1", "v3"]);
    /// assert_eq!(file.states(LARGEST_BUDGET).collect::<Result<Vec<_>, _>>(), Ok(vec![2]));
    /// # Ok::<(), rigtomato::TextRefusal>(())
    /// ```
    pub fn read_clauses(text: &[u8]) -> Result<Program, TextRefusal> {
        Program::read_by(lent::read_clauses, text)
    }

    fn read_by(read: ReadLent, text: &[u8]) -> Result<Program, TextRefusal> {
        let mut rules = vec![0; RULES_LIMIT];
        let mut names = vec![0; NAMES_LIMIT];
        let accepted = read(text, &mut rules, &mut names)?;
        rules.truncate(accepted.words);
        names.truncate(accepted.bytes);
        Ok(Program { rules, names })
    }

    pub fn kind(&self) -> Kind {
        match self.rules[0] {
            0 => Kind::Plain,
            _ => Kind::Preference,
        }
    }

    /// How many atoms belong to the program.
    pub fn atoms(&self) -> usize {
        usize::from(self.rules[1])
    }

    /// How many rules there are.
    pub fn rules(&self) -> usize {
        usize::from(self.rules[3])
    }

    pub fn rule_store(&self) -> &[u16] {
        &self.rules
    }

    pub fn name_store(&self) -> &[u8] {
        &self.names
    }

    /// The atoms' names in declared order.
    pub fn names(&self) -> impl Iterator<Item = &str> {
        let mut left = self.names.as_slice();
        std::iter::from_fn(move || {
            let (length, rest) = left.split_first()?;
            let (name, rest) = rest.split_at(usize::from(*length));
            left = rest;
            Some(std::str::from_utf8(name).expect("names are letters, digits, `_` and `.`"))
        })
    }

    /// The names of a set's atoms in declared order.
    pub fn names_in(&self, set: u64) -> impl Iterator<Item = &str> {
        let numbered = self.names().take(64).enumerate();
        numbered
            .filter(move |(atom, _)| (set >> atom) & 1 == 1)
            .map(|(_, name)| name)
    }

    /// The text in its strict form, one space between items and no other spacing. A strict text that
    /// was read comes back, but for the names that were left out and for conditions, of which the rules
    /// are written.
    pub fn write(&self) -> Vec<u8> {
        self.written_by(lent::write)
    }

    /// The canonical text: the atoms inside each list sorted by number, then the rules by the first
    /// difference of their heads, bodies and `not` lists, one of equal rules kept. Programs with the
    /// same declarations in the same order and the same rules as sets have the same one, others have
    /// another.
    ///
    /// ```
    /// # use rigtomato::Program;
    /// let one = Program::read(b"(vary a b)\n(fix)\n(rule (head b a) (body) (not))\n")?;
    /// let other = Program::read(b"(vary a b) ; a or b\n(fix)\n(rule(head a b)(body)(not))\n")?;
    /// assert_eq!(one.write_canonical(), other.write_canonical());
    /// # Ok::<(), rigtomato::TextRefusal>(())
    /// ```
    pub fn write_canonical(&self) -> Vec<u8> {
        self.written_by(lent::write_canonical)
    }

    fn written_by(&self, write: WriteLent) -> Vec<u8> {
        let mut out = vec![0; TEXT_LIMIT];
        let length = write(&self.rules, &self.names, &mut out);
        out.truncate(length.expect("the stores of an accepted text have a text"));
        out
    }

    /// The text of a preference file's plain program; a plain program is refused.
    pub fn translate(&self) -> Result<Vec<u8>, Refusal> {
        let mut out = vec![0; TEXT_LIMIT];
        let length = lent::translate(&self.rules, &self.names, &mut out)?;
        out.truncate(length);
        Ok(out)
    }

    /// Is the set preferred in this preference file?
    pub fn preferred(&self, set: u64, budget: u64) -> Result<Verdict, Refusal> {
        lent::preferred(&self.rules, set, budget)
    }

    /// Is the set stable in this plain program?
    pub fn stable(&self, set: u64, budget: u64) -> Result<Verdict, Refusal> {
        lent::stable(&self.rules, set, budget)
    }

    /// The first preferred set at or after the start, which is a place: 0, or one past the
    /// [`place`](Program::place) of the state before.
    pub fn next_state(&self, start: u64, budget: u64) -> Result<Next, Refusal> {
        lent::next_state(&self.rules, start, budget)
    }

    /// The set's place, from 0, in the order of all sets of this preference file's atoms.
    pub fn place(&self, set: u64) -> Result<u64, Refusal> {
        lent::place(&self.rules, set)
    }

    /// The preferred states, each with this budget: of two, first the one lacking the first
    /// declared atom on which they differ. After an error there is nothing more.
    pub fn states(&self, budget: u64) -> States<'_> {
        States {
            program: self,
            start: Some(0),
            budget,
        }
    }
}

/// Why a listing broke off.
#[derive(Clone, Copy, Debug, PartialEq, Eq)]
pub enum Stopped {
    /// The next state needs more units than the budget.
    Spent,
    Refused(Refusal),
}

impl fmt::Display for Stopped {
    fn fmt(&self, out: &mut fmt::Formatter) -> fmt::Result {
        match self {
            Stopped::Spent => write!(out, "the budget is spent"),
            Stopped::Refused(refusal) => refusal.fmt(out),
        }
    }
}

impl Error for Stopped {}

/// The preferred states of a file: see [`Program::states`].
#[derive(Clone, Debug)]
pub struct States<'p> {
    program: &'p Program,
    start: Option<u64>,
    budget: u64,
}

impl Iterator for States<'_> {
    type Item = Result<u64, Stopped>;

    fn next(&mut self) -> Option<Self::Item> {
        let start = self.start.take()?;
        match self.program.next_state(start, self.budget) {
            Ok(Next::State { set, .. }) => {
                let place = self.program.place(set);
                self.start = Some(place.expect("a state is a set of the file's atoms") + 1);
                Some(Ok(set))
            }
            Ok(Next::None { .. }) => None,
            Ok(Next::Spent) => Some(Err(Stopped::Spent)),
            Err(refusal) => Some(Err(Stopped::Refused(refusal))),
        }
    }
}

impl std::iter::FusedIterator for States<'_> {}
