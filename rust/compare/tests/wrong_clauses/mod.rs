//! Readings of clause files with a slip (document 02, W-202).

use compare::engine::ReadAnswer;
use reference::clauses::{preference, Formula, Literal};
use reference::program::{Names, Program, Role, Rule};
use reference::stores::{name_store, rule_store};
use reference::used_atoms::{restricted, used_atoms, without_unused};

/// What is wrong with a reading.
#[derive(Clone, Copy, Debug, PartialEq, Eq)]
pub enum ClauseSlip {
    Nothing,
    NegativeInTheHead,
    SignsExchanged,
    RepeatedTwice,
    RepeatedAcrossClauses,
    SignsNotTold,
    ListsSorted,
    TautologyDropped,
    EmptyClauseDropped,
    UnusedKept,
    NamesByNewNumber,
    NumbersNotMovedDown,
    ClassOnlyWithAtoms,
    AtomsVary,
    CountNotCompared,
    SurplusTaken,
    SurplusOnItsLastLine,
    SurplusOnePastTheLast,
    MissingTaken,
    MissingOnTheLastLine,
    UnfinishedTaken,
    LineEndsAClause,
    BeyondBeforeBroken,
    LimitBeforeBeyond,
    LimitBeforeBroken,
    FirstOnItsLine,
    BrokenOnAnyLineFirst,
    CommentsBeforeTheHeaderOnly,
    CommentsNotWithinAClause,
    CommentNeedsASpace,
    CommentBehindSpaces,
    BlankBeforeTheHeaderBroken,
    NoHeaderOnTheLastLine,
    LongerHeaderTaken,
    SecondHeaderTaken,
    HeaderLimitsLast,
    AtomLimitPassed,
    ClauseLimitPassed,
    LeadingZeroTaken,
    PlusTaken,
    MinusZeroTaken,
    PercentEndsTheText,
    TabAsASpace,
    ReturnAsASpace,
    Words32,
    Words64,
    LastEndNotAsked,
    LastEndOfCommentsNotAsked,
    RepeatedIsAnOccurrence,
    OccurrenceLimitPassed,
    OccurrencesOfWholeClauses,
    RoomForTheUnused,
    OutputsFirst,
    WritesOnRefusal,
}

use ClauseSlip::*;

pub const CLAUSE_SLIPS: [ClauseSlip; 53] = [
    NegativeInTheHead,
    SignsExchanged,
    RepeatedTwice,
    RepeatedAcrossClauses,
    SignsNotTold,
    ListsSorted,
    TautologyDropped,
    EmptyClauseDropped,
    UnusedKept,
    NamesByNewNumber,
    NumbersNotMovedDown,
    ClassOnlyWithAtoms,
    AtomsVary,
    CountNotCompared,
    SurplusTaken,
    SurplusOnItsLastLine,
    SurplusOnePastTheLast,
    MissingTaken,
    MissingOnTheLastLine,
    UnfinishedTaken,
    LineEndsAClause,
    BeyondBeforeBroken,
    LimitBeforeBeyond,
    LimitBeforeBroken,
    FirstOnItsLine,
    BrokenOnAnyLineFirst,
    CommentsBeforeTheHeaderOnly,
    CommentsNotWithinAClause,
    CommentNeedsASpace,
    CommentBehindSpaces,
    BlankBeforeTheHeaderBroken,
    NoHeaderOnTheLastLine,
    LongerHeaderTaken,
    SecondHeaderTaken,
    HeaderLimitsLast,
    AtomLimitPassed,
    ClauseLimitPassed,
    LeadingZeroTaken,
    PlusTaken,
    MinusZeroTaken,
    PercentEndsTheText,
    TabAsASpace,
    ReturnAsASpace,
    Words32,
    Words64,
    LastEndNotAsked,
    LastEndOfCommentsNotAsked,
    RepeatedIsAnOccurrence,
    OccurrenceLimitPassed,
    OccurrencesOfWholeClauses,
    RoomForTheUnused,
    OutputsFirst,
    WritesOnRefusal,
];

const BROKEN: u64 = 15;
const BEYOND: u64 = 16;
const LIMIT: u64 = 7;
const SHORT: u64 = 9;

/// A refusal's number and line.
type Refused = (u64, u64);

fn number(slip: ClauseSlip, digits: &[u8]) -> Option<usize> {
    let digits = match digits.strip_prefix(b"+") {
        Some(digits) if slip == PlusTaken => digits,
        _ => digits,
    };
    let leading = digits.len() > 1 && digits[0] == b'0';
    let canonical = !digits.is_empty() && digits.iter().all(u8::is_ascii_digit);
    if !canonical || (leading && slip != LeadingZeroTaken) {
        return None;
    }
    let value = |number: usize, digit: &u8| {
        let digit = usize::from(digit - b'0');
        match slip {
            Words32 => (number.wrapping_mul(10).wrapping_add(digit)) as u32 as usize,
            Words64 => number.wrapping_mul(10).wrapping_add(digit),
            _ => number.saturating_mul(10).saturating_add(digit),
        }
    };
    Some(digits.iter().fold(0, value))
}

/// A literal, or none for the 0 that ends a clause.
fn item(slip: ClauseSlip, bytes: &[u8]) -> Option<Option<Literal>> {
    let digits = bytes.strip_prefix(b"-");
    let positive = digits.is_none();
    match number(slip, digits.unwrap_or(bytes))? {
        0 if positive || slip == MinusZeroTaken => Some(None),
        0 if matches!(slip, Words32 | Words64) => Some(None),
        0 => None,
        atom => Some(Some(Literal { atom, positive })),
    }
}

struct Reader {
    slip: ClauseSlip,
    /// The header's atoms and clauses.
    header: Option<(usize, usize)>,
    clauses: Vec<Vec<Literal>>,
    begun: Option<Vec<Literal>>,
    occurrences: usize,
    /// Faults of the line, as they stand there.
    faults: Vec<u64>,
}

impl Reader {
    fn is_comment(&self, line: &[u8]) -> bool {
        let starts = line.starts_with(b"c");
        match self.slip {
            CommentsBeforeTheHeaderOnly => starts && self.header.is_none(),
            CommentsNotWithinAClause => starts && self.begun.is_none(),
            CommentNeedsASpace => line == b"c" || line.starts_with(b"c "),
            CommentBehindSpaces => line.trim_ascii_start().starts_with(b"c"),
            _ => starts,
        }
    }

    fn items<'l>(&self, line: &'l [u8]) -> Vec<&'l [u8]> {
        let is_space = |byte: &u8| match self.slip {
            TabAsASpace => matches!(byte, b' ' | b'\t'),
            ReturnAsASpace => matches!(byte, b' ' | b'\r'),
            _ => *byte == b' ',
        };
        let pieces = line.split(is_space);
        pieces.filter(|piece| !piece.is_empty()).collect()
    }

    fn header_of(&self, items: &[&[u8]]) -> Option<(usize, usize)> {
        match items {
            [b"p", b"cnf", atoms, clauses, more @ ..]
                if more.is_empty() || self.slip == LongerHeaderTaken =>
            {
                Some((number(self.slip, atoms)?, number(self.slip, clauses)?))
            }
            _ => None,
        }
    }

    fn take_header(&mut self, items: &[&[u8]]) {
        self.header = self.header_of(items);
        let Some((atoms, clauses)) = self.header else {
            self.faults.push(BROKEN);
            return;
        };
        let (most_atoms, most_clauses) = match self.slip {
            AtomLimitPassed => (257, 1_024),
            ClauseLimitPassed => (256, 1_025),
            HeaderLimitsLast => (usize::MAX, usize::MAX),
            _ => (256, 1_024),
        };
        if atoms > most_atoms || clauses > most_clauses {
            self.faults.push(LIMIT);
        }
    }

    fn end_clause(&mut self) {
        let clause = self.begun.take().unwrap_or_default();
        self.clauses.push(clause);
    }

    fn occurrence(&mut self, atoms_before: &[Literal], literal: Literal) {
        let repeated = match self.slip {
            SignsNotTold => atoms_before.iter().any(|other| other.atom == literal.atom),
            RepeatedIsAnOccurrence => false,
            _ => atoms_before.contains(&literal),
        };
        self.occurrences += usize::from(!repeated);
    }

    fn check_occurrences(&mut self) {
        let most = 8_192 + usize::from(self.slip == OccurrenceLimitPassed);
        if self.occurrences > most {
            self.faults.push(LIMIT);
        }
    }

    fn take_item(&mut self, bytes: &[u8]) {
        let (atoms, counted) = self.header.expect("items stand after the header");
        let Some(item) = item(self.slip, bytes) else {
            self.faults.push(BROKEN);
            return;
        };
        let is_surplus = match self.slip {
            CountNotCompared | SurplusTaken | SurplusOnePastTheLast => false,
            SurplusOnItsLastLine => item.is_none() && self.clauses.len() >= counted,
            _ => self.begun.is_none() && self.clauses.len() >= counted,
        };
        if is_surplus {
            self.faults.push(BROKEN);
        }
        let Some(literal) = item else {
            if self.slip == OccurrencesOfWholeClauses {
                self.check_occurrences();
            }
            self.end_clause();
            return;
        };
        if literal.atom > atoms {
            self.faults.push(BEYOND);
        }
        let mut clause = self.begun.take().unwrap_or_default();
        self.occurrence(&clause, literal);
        if self.slip != OccurrencesOfWholeClauses {
            self.check_occurrences();
        }
        clause.push(literal);
        self.begun = Some(clause);
    }

    /// Takes a line without its byte 10.
    fn take(&mut self, line: &[u8]) {
        let items = self.items(line);
        if self.is_comment(line) {
            return;
        }
        if items.is_empty() {
            if self.slip == BlankBeforeTheHeaderBroken && self.header.is_none() {
                self.faults.push(BROKEN);
            }
            return;
        }
        if self.header.is_none() {
            return self.take_header(&items);
        }
        if self.slip == SecondHeaderTaken && self.header_of(&items).is_some() {
            return;
        }
        for item in items {
            self.take_item(item);
        }
        if self.slip == LineEndsAClause && self.begun.is_some() {
            self.end_clause();
        }
    }

    fn fault(&self) -> Option<u64> {
        let sequence = match self.slip {
            BeyondBeforeBroken => [BEYOND, BROKEN, LIMIT],
            LimitBeforeBeyond => [BROKEN, LIMIT, BEYOND],
            LimitBeforeBroken => [LIMIT, BROKEN, BEYOND],
            FirstOnItsLine => return self.faults.first().copied(),
            _ => [BROKEN, BEYOND, LIMIT],
        };
        sequence
            .into_iter()
            .find(|fault| self.faults.contains(fault))
    }

    /// What all lines say, with the number of the last one.
    fn end(mut self, last: u64) -> Result<Formula, Refused> {
        let missing = match self.slip {
            MissingOnTheLastLine => last.max(1),
            _ => last + 1,
        };
        let Some((atoms, counted)) = self.header else {
            let line = match self.slip {
                NoHeaderOnTheLastLine => last.max(1),
                _ => last + 1,
            };
            return Err((BROKEN, line));
        };
        if self.begun.is_some() {
            match self.slip {
                UnfinishedTaken => self.end_clause(),
                _ => return Err((BROKEN, missing)),
            }
        }
        let there = self.clauses.len();
        let differs = match self.slip {
            CountNotCompared => false,
            MissingTaken => there > counted,
            SurplusTaken => there < counted,
            _ => there != counted,
        };
        if differs {
            return Err((BROKEN, missing));
        }
        if self.slip == HeaderLimitsLast && (atoms > 256 || counted > 1_024) {
            return Err((LIMIT, 1));
        }
        Ok(Formula {
            atoms,
            clauses: self.clauses,
        })
    }
}

/// Is the last line taken though its byte 10 is missing?
fn taken_unended(slip: ClauseSlip, line: &[u8]) -> bool {
    slip == LastEndNotAsked || (slip == LastEndOfCommentsNotAsked && line.starts_with(b"c"))
}

fn formula(slip: ClauseSlip, text: &[u8]) -> Result<Formula, Refused> {
    if text.len() > 917_504 {
        return Err((1, 0));
    }
    let mut reader = Reader {
        slip,
        header: None,
        clauses: Vec::new(),
        begun: None,
        occurrences: 0,
        faults: Vec::new(),
    };
    let mut number = 0;
    let mut earlier = None;
    for line in text.split_inclusive(|byte| *byte == b'\n') {
        number += 1;
        if slip == PercentEndsTheText && line.starts_with(b"%") {
            break;
        }
        match line.strip_suffix(b"\n") {
            Some(line) => reader.take(line),
            None if taken_unended(slip, line) => reader.take(line),
            None => return Err(earlier.unwrap_or((BROKEN, number))),
        }
        match reader.fault() {
            Some(fault) if slip == BrokenOnAnyLineFirst && fault != BROKEN => {
                if reader
                    .header
                    .is_none_or(|header| header.0 > 256 || header.1 > 1_024)
                {
                    return Err((fault, number));
                }
                earlier = earlier.or(Some((fault, number)));
                reader.faults.clear();
            }
            Some(fault) => return Err((fault, number)),
            None => {}
        }
    }
    let formula = reader.end(number)?;
    earlier.map_or(Ok(formula), Err)
}

fn once<T: PartialEq>(items: Vec<T>) -> Vec<T> {
    let mut kept = Vec::new();
    for item in items {
        if !kept.contains(&item) {
            kept.push(item);
        }
    }
    kept
}

/// The literals that count: each once in its clause.
fn counted(slip: ClauseSlip, clauses: &[Vec<Literal>]) -> Vec<Vec<Literal>> {
    let mut before: Vec<Literal> = Vec::new();
    let mut all = Vec::new();
    for clause in clauses {
        let mut kept = match slip {
            RepeatedTwice => clause.clone(),
            _ => once(clause.clone()),
        };
        match slip {
            RepeatedAcrossClauses => kept.retain(|literal| !before.contains(literal)),
            SignsNotTold => {
                let mut atoms = Vec::new();
                kept.retain(|literal| {
                    let is_new = !atoms.contains(&literal.atom);
                    atoms.push(literal.atom);
                    is_new
                });
            }
            _ => {}
        }
        before.extend(clause);
        all.push(kept);
    }
    all
}

fn rule(slip: ClauseSlip, clause: &[Literal]) -> Rule {
    let of_sign = |positive: bool| -> Vec<usize> {
        let literals = clause.iter().filter(|literal| literal.positive == positive);
        literals.map(|literal| literal.atom - 1).collect()
    };
    let (mut head, mut body) = (of_sign(true), of_sign(false));
    match slip {
        NegativeInTheHead => {
            head = once(clause.iter().map(|literal| literal.atom - 1).collect());
            body.clear();
        }
        SignsExchanged => std::mem::swap(&mut head, &mut body),
        ListsSorted => {
            head.sort_unstable();
            body.sort_unstable();
        }
        _ => {}
    }
    Rule {
        head,
        body,
        not: Vec::new(),
    }
}

/// The preference file of the clauses, with the header's atoms.
fn typed(slip: ClauseSlip, formula: &Formula) -> (Program, Names) {
    let (mut program, names) = preference(formula);
    let clauses = counted(slip, &formula.clauses);
    program.rules = clauses.iter().map(|clause| rule(slip, clause)).collect();
    program.rules.retain(|rule| match slip {
        TautologyDropped => !rule.head.iter().any(|atom| rule.body.contains(atom)),
        EmptyClauseDropped => rule.occurrences() > 0,
        _ => true,
    });
    (program, names)
}

/// What is left of it.
fn left(slip: ClauseSlip, typed: &Program, names: &Names) -> (Program, Names) {
    let (mut left, mut left_names) = without_unused(typed, names);
    match slip {
        UnusedKept => return (typed.clone(), names.clone()),
        NamesByNewNumber => left_names = names[..left.atoms].to_vec(),
        NumbersNotMovedDown => left.rules = typed.rules.clone(),
        ClassOnlyWithAtoms => left.classes = left.atoms.min(1),
        AtomsVary => {
            left = restricted(typed, &used_atoms(typed));
            left.roles.fill(Role::Varying);
        }
        _ => {}
    }
    (left, left_names)
}

fn answer((refusal, line): Refused, words: usize, bytes: usize) -> ReadAnswer {
    ReadAnswer {
        refusal,
        line,
        words: words as u64,
        bytes: bytes as u64,
    }
}

pub fn read(slip: ClauseSlip, text: &[u8], rules: &mut [u16], names: &mut [u8]) -> ReadAnswer {
    if slip == OutputsFirst && rules.len() < 4 {
        return answer((SHORT, 0), 0, 0);
    }
    let formula = match formula(slip, text) {
        Ok(formula) => formula,
        Err(refused) => {
            if let (WritesOnRefusal, Some(word)) = (slip, rules.first_mut()) {
                *word ^= 1;
            }
            return answer(refused, 0, 0);
        }
    };
    let (typed, typed_names) = typed(slip, &formula);
    let (program, program_names) = left(slip, &typed, &typed_names);
    let (words, bytes) = (rule_store(&program), name_store(&program_names));
    let room = match slip {
        RoomForTheUnused => (rule_store(&typed).len(), name_store(&typed_names).len()),
        _ => (words.len(), bytes.len()),
    };
    if rules.len() < room.0 || names.len() < room.1 {
        return answer((SHORT, 0), 0, 0);
    }
    rules[..words.len()].copy_from_slice(&words);
    names[..bytes.len()].copy_from_slice(&bytes);
    answer((0, 0), words.len(), bytes.len())
}
