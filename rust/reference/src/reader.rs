//! From a text of either kind to its program and names, or to a refusal with its line.
//!
//! Lines are taken one after another. On a line every fault is looked for, and the first of the
//! sequence counts; the first line with a fault ends the reading. Then a preference file's atoms that
//! stand in no rule are left out. A condition's rules stand among the rules in its place.

use crate::conditions::{self, Condition, DEPTH_LIMIT};
use crate::direct::{Direct, Then};
use crate::limits::{Kind, TEXT_LIMIT};
use crate::names::{made_name, made_number, name_fault};
use crate::pieces::{pieces, Piece};
use crate::program::{Names, Program, Role, Rule};
use crate::refusal::{Reason, Refusal};
use crate::used_atoms::{restricted, without_unused};

/// The faults of a line in the sequence in which they count: by number, but that a condition's own
/// come directly after 2.
const SEQUENCE: [Reason; 9] = [
    Reason::Form,
    Reason::BrokenCondition,
    Reason::DeepBrackets,
    Reason::Name,
    Reason::DeclaredTwice,
    Reason::NotDeclared,
    Reason::TwiceInList,
    Reason::Limit,
    Reason::FilledNot,
];

type Items<'a> = Vec<&'a [u8]>;

/// A line whose form stands. Its items are not yet looked at as names.
enum Line<'a> {
    Declaration { word: &'a [u8], items: Items<'a> },
    Rule { lists: [Items<'a>; 3] },
}

/// Takes pieces from the front of a line, in the order that the form asks for.
struct Form<'a, 'p> {
    left: &'p [Piece<'a>],
}

impl<'a> Form<'a, '_> {
    fn take(&mut self) -> Option<Piece<'a>> {
        let (first, rest) = self.left.split_first()?;
        self.left = rest;
        Some(*first)
    }

    fn expect(&mut self, piece: Piece<'_>) -> Option<()> {
        (self.take()? == piece).then_some(())
    }

    /// Words up to the closing bracket, which is taken too.
    fn items(&mut self) -> Option<Items<'a>> {
        let mut items = Items::new();
        loop {
            match self.take()? {
                Piece::Close => return Some(items),
                Piece::Word(item) => items.push(item),
                Piece::Open => return None,
            }
        }
    }

    /// `(word a b)`.
    fn list(&mut self, word: &[u8]) -> Option<Items<'a>> {
        self.expect(Piece::Open)?;
        self.expect(Piece::Word(word))?;
        self.items()
    }

    /// The one form of a line.
    fn line(&mut self) -> Option<Line<'a>> {
        self.expect(Piece::Open)?;
        let Piece::Word(word) = self.take()? else {
            return None;
        };
        let line = if word == b"rule" {
            let lists = [self.list(b"head")?, self.list(b"body")?, self.list(b"not")?];
            self.expect(Piece::Close)?;
            Line::Rule { lists }
        } else {
            let items = self.items()?;
            Line::Declaration { word, items }
        };
        self.left.is_empty().then_some(line)
    }
}

/// What the lines so far let the next one be.
#[derive(Clone, Copy, PartialEq, Eq)]
enum Expected {
    Atoms,
    MinOrVary,
    Fix,
    Rule,
}

struct Reader {
    /// The declared atoms, and the rules so far. In these the atoms that conditions make are numbered
    /// from the declared ones on.
    program: Program,
    names: Names,
    /// How many connectives conditions had so far.
    made: usize,
    /// The rules that are typed, and the conditions as they are.
    typed: Vec<Rule>,
    conditions: Vec<Then>,
    expected: Expected,
}

impl Reader {
    fn number(&self, name: &[u8]) -> Option<usize> {
        self.names.iter().position(|known| known == name)
    }

    fn name_faults(&self, items: &Items, faults: &mut Vec<Reason>) {
        faults.extend(
            items
                .iter()
                .filter_map(|item| name_fault(self.program.kind, item)),
        );
    }

    /// Takes one line without its byte 10, and gives its faults. A blank line has none.
    fn take(&mut self, line: &[u8]) -> Vec<Reason> {
        let pieces = pieces(line);
        if pieces.is_empty() {
            return Vec::new();
        }
        if pieces.starts_with(&[Piece::Open, Piece::Word(b"when")]) {
            return match conditions::line(&pieces) {
                None => vec![Reason::Form],
                Some(line) => self.take_condition(&line),
            };
        }
        match (Form { left: &pieces }).line() {
            None => vec![Reason::Form],
            Some(Line::Declaration { word, items }) => self.take_declaration(word, &items),
            Some(Line::Rule { lists }) => self.take_rule(&lists),
        }
    }

    fn take_declaration(&mut self, word: &[u8], items: &Items) -> Vec<Reason> {
        let mut faults = Vec::new();
        let kind = self.program.kind;
        let (role, next) = match (self.expected, word) {
            (Expected::Atoms, b"atoms") => (None, Expected::Rule),
            (Expected::MinOrVary, b"min") => {
                self.program.classes += 1;
                let class = Role::Minimised(self.program.classes);
                (Some(class), Expected::MinOrVary)
            }
            (Expected::MinOrVary, b"vary") => (Some(Role::Varying), Expected::Fix),
            (Expected::Fix, b"fix") => (Some(Role::Fixed), Expected::Rule),
            _ => return vec![Reason::Form],
        };
        if self.program.classes > kind.class_limit() {
            faults.push(Reason::Limit);
        }
        self.name_faults(items, &mut faults);
        for item in items {
            if self.number(item).is_some() {
                faults.push(Reason::DeclaredTwice);
            }
            self.names.push(item.to_vec());
            self.program.roles.extend(role);
            self.program.atoms += 1;
        }
        if self.program.atoms > kind.atom_limit() {
            faults.push(Reason::Limit);
        }
        self.expected = next;
        faults
    }

    fn take_rule(&mut self, lists: &[Items; 3]) -> Vec<Reason> {
        let mut faults = Vec::new();
        let kind = self.program.kind;
        if self.expected != Expected::Rule {
            faults.push(Reason::Form);
        }
        for items in lists {
            self.name_faults(items, &mut faults);
            if items.iter().any(|item| self.number(item).is_none()) {
                faults.push(Reason::NotDeclared);
            }
            if (0..items.len()).any(|i| items[..i].contains(&items[i])) {
                faults.push(Reason::TwiceInList);
            }
        }
        if kind == Kind::Preference && !lists[2].is_empty() {
            faults.push(Reason::FilledNot);
        }
        let numbers = |items: &Items| -> Vec<usize> {
            items.iter().filter_map(|item| self.number(item)).collect()
        };
        let rule = Rule {
            head: numbers(&lists[0]),
            body: numbers(&lists[1]),
            not: numbers(&lists[2]),
        };
        self.typed.push(rule.clone());
        self.program.rules.push(rule);
        // An undeclared atom is not in the rule, but its fault counts before this one.
        if self.past_a_limit() {
            faults.push(Reason::Limit);
        }
        faults
    }

    /// Are there too many atoms, rules or occurrences with those of the last line? Declared atoms
    /// count, used or not, and those that conditions made.
    fn past_a_limit(&self) -> bool {
        let kind = self.program.kind;
        self.program.atoms + self.made > kind.atom_limit()
            || self.program.rules.len() > kind.rule_limit()
            || self.program.occurrences() > kind.occurrence_limit()
    }

    fn take_condition(&mut self, line: &conditions::Line) -> Vec<Reason> {
        let mut faults = Vec::new();
        let may_stand = self.program.kind == Kind::Preference && self.expected == Expected::Rule;
        if !may_stand {
            faults.push(Reason::Form);
        }
        let names = line.names();
        self.name_faults(&names, &mut faults);
        let condition = conditions::condition(line.between);
        if condition.is_none() {
            faults.push(Reason::BrokenCondition);
        }
        if conditions::depth(line.between) > Some(DEPTH_LIMIT) {
            faults.push(Reason::DeepBrackets);
        }
        let numbers = self.made + 1..=self.made + line.connectives();
        let mut declared = self.names.iter().filter_map(|name| made_number(name));
        if declared.any(|number| numbers.contains(&number)) {
            faults.push(Reason::DeclaredTwice);
        }
        if names.iter().any(|name| self.number(name).is_none()) {
            faults.push(Reason::NotDeclared);
        }
        // With a fault of these the rules cannot be told, and a limit counts after all of them.
        if let (true, Some(condition)) = (faults.is_empty(), condition) {
            let numbered = condition.renamed(|name| self.number(name));
            let then = self.number(line.then);
            let (Some(condition), Some(then)) = (numbered, then) else {
                unreachable!("every name is declared");
            };
            self.add_condition(condition, then);
            if self.past_a_limit() {
                faults.push(Reason::Limit);
            }
        }
        faults
    }

    fn add_condition(&mut self, condition: Condition<usize>, then: usize) {
        let first = self.program.atoms + self.made;
        for (head, body) in condition.rules(first, then) {
            self.program.rules.push(Rule {
                head,
                body,
                not: Vec::new(),
            });
        }
        self.made += condition.connectives.len();
        self.conditions.push(Then { condition, then });
    }

    /// The program with the atoms that conditions made: varying ones, after the file's varying atoms.
    fn with_made_atoms(&self) -> (Program, Names) {
        let mut program = self.program.clone();
        if self.made == 0 {
            return (program, self.names.clone());
        }
        let (declared, all) = (program.atoms, program.atoms + self.made);
        program.atoms = all;
        program.roles.extend(vec![Role::Varying; self.made]);
        let mut names = self.names.clone();
        names.extend((1..=self.made).map(made_name));
        let fixed = |atom: &usize| *atom < declared && program.is_fixed(*atom);
        let unfixed = (0..declared).filter(|atom| !fixed(atom));
        let order: Vec<usize> = unfixed
            .chain(declared..all)
            .chain((0..declared).filter(fixed))
            .collect();
        let names = order.iter().map(|&atom| names[atom].clone()).collect();
        (restricted(&program, &order), names)
    }
}

/// The kind is plain exactly when the first form's first word is `atoms`.
fn kind(text: &[u8]) -> Kind {
    let mut lines = text.split(|byte| *byte == b'\n').map(pieces);
    match lines.find(|pieces| !pieces.is_empty()).as_deref() {
        Some([Piece::Open, Piece::Word(b"atoms"), ..]) => Kind::Plain,
        _ => Kind::Preference,
    }
}

/// Reads a text of either kind.
pub fn read(text: &[u8]) -> Result<(Program, Names), Refusal> {
    let (program, names) = read_lines(text)?;
    Ok(match program.kind {
        Kind::Plain => (program, names),
        Kind::Preference => without_unused(&program, &names),
    })
}

/// What the lines say as they are typed, every declared atom included, and those that conditions
/// make.
pub fn read_lines(text: &[u8]) -> Result<(Program, Names), Refusal> {
    Ok(take_lines(text)?.with_made_atoms())
}

/// The same with conditions as they stand: no atom and no rule is made of them.
pub fn read_directly(text: &[u8]) -> Result<Direct, Refusal> {
    let reader = take_lines(text)?;
    Ok(Direct {
        file: Program {
            rules: reader.typed,
            ..reader.program
        },
        names: reader.names,
        conditions: reader.conditions,
    })
}

fn take_lines(text: &[u8]) -> Result<Reader, Refusal> {
    if text.len() > TEXT_LIMIT {
        return Err(Refusal::without_line(Reason::TextTooLong));
    }
    let kind = kind(text);
    let mut reader = Reader {
        program: Program::empty(kind),
        names: Names::new(),
        made: 0,
        typed: Vec::new(),
        conditions: Vec::new(),
        expected: match kind {
            Kind::Plain => Expected::Atoms,
            Kind::Preference => Expected::MinOrVary,
        },
    };
    let mut line_number = 0;
    for line in text.split_inclusive(|byte| *byte == b'\n') {
        line_number += 1;
        let faults = match line.strip_suffix(b"\n") {
            Some(line) => reader.take(line),
            None => vec![Reason::Form],
        };
        if let Some(first) = SEQUENCE.into_iter().find(|fault| faults.contains(fault)) {
            return Err(Refusal::on_line(first, line_number));
        }
    }
    if reader.expected != Expected::Rule {
        return Err(Refusal::on_line(Reason::Form, line_number + 1));
    }
    Ok(reader)
}
