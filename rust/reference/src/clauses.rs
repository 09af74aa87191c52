//! From a clause file (DIMACS CNF; document 02, W-202) to the program and names of its preference
//! file, or to a refusal with its line.
//!
//! Lines are taken one after another. On a line every fault is looked for; the first line with a
//! fault ends the reading.

use crate::limits::{Kind, TEXT_LIMIT};
use crate::program::{Names, Program, Role, Rule};
use crate::refusal::{Reason, Refusal};
use crate::used_atoms::without_unused;

const KIND: Kind = Kind::Preference;

/// An atom, numbered from 1 as in the file, or its negation.
#[derive(Clone, Copy, Debug, PartialEq, Eq)]
pub struct Literal {
    pub atom: usize,
    pub positive: bool,
}

/// What the lines say: the header's atoms, and each clause with its literals as they stand there,
/// repeated ones too.
#[derive(Clone, Debug, Default, PartialEq, Eq)]
pub struct Formula {
    pub atoms: usize,
    pub clauses: Vec<Vec<Literal>>,
}

/// The number that these digits write without a leading zero. One that no word holds is the largest
/// that a word holds: past a limit is past a limit.
fn number(digits: &[u8]) -> Option<usize> {
    let canonical = match digits {
        [] => false,
        [b'0', rest @ ..] => rest.is_empty(),
        _ => digits.iter().all(u8::is_ascii_digit),
    };
    canonical.then(|| {
        digits.iter().fold(0_usize, |number, digit| {
            let digit = usize::from(digit - b'0');
            number.saturating_mul(10).saturating_add(digit)
        })
    })
}

/// What an item after the header is.
enum Item {
    Literal(Literal),
    /// `0`, which ends a clause.
    End,
}

fn item(bytes: &[u8]) -> Option<Item> {
    let (digits, positive) = match bytes.strip_prefix(b"-") {
        Some(digits) => (digits, false),
        None => (bytes, true),
    };
    match (number(digits)?, positive) {
        (0, true) => Some(Item::End),
        (0, false) => None,
        (atom, positive) => Some(Item::Literal(Literal { atom, positive })),
    }
}

struct Header {
    atoms: usize,
    clauses: usize,
}

fn header(items: &[&[u8]]) -> Option<Header> {
    match items {
        [b"p", b"cnf", atoms, clauses] => Some(Header {
            atoms: number(atoms)?,
            clauses: number(clauses)?,
        }),
        _ => None,
    }
}

#[derive(Default)]
struct Reader {
    header: Option<Header>,
    clauses: Vec<Vec<Literal>>,
    /// The clause that has begun and is not ended.
    begun: Option<Vec<Literal>>,
    occurrences: usize,
}

impl Reader {
    /// Takes one line without its byte 10, and gives its faults.
    fn take(&mut self, line: &[u8]) -> Vec<Reason> {
        if line.starts_with(b"c") {
            return Vec::new();
        }
        let pieces = line.split(|byte| *byte == b' ');
        let items: Vec<&[u8]> = pieces.filter(|piece| !piece.is_empty()).collect();
        if items.is_empty() {
            return Vec::new();
        }
        match self.header {
            None => self.take_header(&items),
            Some(_) => self.take_items(&items),
        }
    }

    fn take_header(&mut self, items: &[&[u8]]) -> Vec<Reason> {
        let Some(header) = header(items) else {
            return vec![Reason::BrokenClauses];
        };
        let mut faults = Vec::new();
        if header.atoms > KIND.atom_limit() || header.clauses > KIND.rule_limit() {
            faults.push(Reason::Limit);
        }
        self.header = Some(header);
        faults
    }

    fn take_items(&mut self, items: &[&[u8]]) -> Vec<Reason> {
        let mut faults = Vec::new();
        for bytes in items {
            match item(bytes) {
                None => faults.push(Reason::BrokenClauses),
                Some(item) => self.take_item(item, &mut faults),
            }
        }
        faults
    }

    fn take_item(&mut self, item: Item, faults: &mut Vec<Reason>) {
        let header = self.header.as_ref().expect("items stand after the header");
        if self.begun.is_none() && self.clauses.len() == header.clauses {
            faults.push(Reason::BrokenClauses);
        }
        let mut clause = self.begun.take().unwrap_or_default();
        let Item::Literal(literal) = item else {
            self.clauses.push(clause);
            return;
        };
        if literal.atom > header.atoms {
            faults.push(Reason::LiteralBeyond);
        }
        if !clause.contains(&literal) {
            self.occurrences += 1;
            if self.occurrences > KIND.occurrence_limit() {
                faults.push(Reason::Limit);
            }
        }
        clause.push(literal);
        self.begun = Some(clause);
    }

    /// What all lines say, unless a clause is missing or not ended, or the header.
    fn formula(self) -> Option<Formula> {
        let header = self.header?;
        let complete = self.begun.is_none() && self.clauses.len() == header.clauses;
        complete.then_some(Formula {
            atoms: header.atoms,
            clauses: self.clauses,
        })
    }
}

/// The fault that counts on a line: 15, then 16, then 7.
fn first_fault(faults: &[Reason]) -> Option<Reason> {
    let sequence = [Reason::BrokenClauses, Reason::LiteralBeyond, Reason::Limit];
    sequence.into_iter().find(|reason| faults.contains(reason))
}

/// The clauses of a text as they stand there.
pub fn read_formula(text: &[u8]) -> Result<Formula, Refusal> {
    if text.len() > TEXT_LIMIT {
        return Err(Refusal::without_line(Reason::TextTooLong));
    }
    let mut reader = Reader::default();
    let mut line_number = 0;
    for line in text.split_inclusive(|byte| *byte == b'\n') {
        line_number += 1;
        let faults = match line.strip_suffix(b"\n") {
            Some(line) => reader.take(line),
            None => vec![Reason::BrokenClauses],
        };
        if let Some(fault) = first_fault(&faults) {
            return Err(Refusal::on_line(fault, line_number));
        }
    }
    let missing = Refusal::on_line(Reason::BrokenClauses, line_number + 1);
    reader.formula().ok_or(missing)
}

/// The atoms of the clause's literals of one sign, numbered from 0, each once.
fn atoms_of(clause: &[Literal], positive: bool) -> Vec<usize> {
    let mut atoms = Vec::new();
    for literal in clause.iter().filter(|literal| literal.positive == positive) {
        if !atoms.contains(&(literal.atom - 1)) {
            atoms.push(literal.atom - 1);
        }
    }
    atoms
}

/// The preference file with all the header's atoms in one class, and a rule for each clause.
pub fn preference(formula: &Formula) -> (Program, Names) {
    let rule = |clause: &Vec<Literal>| Rule {
        head: atoms_of(clause, true),
        body: atoms_of(clause, false),
        not: Vec::new(),
    };
    let program = Program {
        kind: KIND,
        atoms: formula.atoms,
        classes: 1,
        roles: vec![Role::Minimised(1); formula.atoms],
        rules: formula.clauses.iter().map(rule).collect(),
    };
    let name = |atom: usize| format!("v{atom}").into_bytes();
    (program, (1..=formula.atoms).map(name).collect())
}

/// Reads a clause file: its preference file, without the atoms that no clause has.
pub fn read(text: &[u8]) -> Result<(Program, Names), Refusal> {
    let (program, names) = preference(&read_formula(text)?);
    Ok(without_unused(&program, &names))
}
