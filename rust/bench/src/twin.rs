//! Reader, both writers and translator as a Rust programmer would write them for speed: one pass over
//! the bytes, names in a HashMap, stores to text without a detour, rules sorted by a key of their first
//! words. It is compared with the second implementation before it is timed.

use std::cmp::Ordering;
use std::collections::{HashMap, HashSet};
use std::io::BufRead;

/// A refusal's number and line.
pub type Refused = (u64, u64);

#[derive(Debug, Default, PartialEq, Eq)]
pub struct Stores {
    pub rules: Vec<u16>,
    pub names: Vec<u8>,
}

struct Limits {
    atoms: usize,
    rules: usize,
    occurrences: usize,
}

const PLAIN: Limits = Limits {
    atoms: 1_100,
    rules: 4_200,
    occurrences: 24_000,
};
const PREFERENCE: Limits = Limits {
    atoms: 256,
    rules: 1_024,
    occurrences: 8_192,
};

/// The number of a name `T.1` to `T.256`.
fn made_number(name: &[u8]) -> Option<usize> {
    let [b'T', b'.', digits @ ..] = name else {
        return None;
    };
    if !matches!(digits, [b'1'..=b'9', ..]) || digits.len() > 3 {
        return None;
    }
    let mut number = 0;
    for digit in digits {
        let digit = digit.is_ascii_digit().then(|| usize::from(digit - b'0'))?;
        number = 10 * number + digit;
    }
    (number <= 256).then_some(number)
}

/// The fault of a name: 0 where it has none.
fn name_fault(name: &[u8], plain: bool) -> u64 {
    let house = |name: &[u8]| -> u64 {
        if name.first() == Some(&b'T') {
            return if made_number(name).is_some() { 0 } else { 2 };
        }
        let rest = |b: &u8| b.is_ascii_lowercase() || b.is_ascii_digit() || *b == b'_';
        match name.first() {
            Some(first) if *first != b'_' && name.iter().all(rest) => {
                if name.len() > 24 {
                    3
                } else {
                    0
                }
            }
            _ => 2,
        }
    };
    let generated = if plain { 0 } else { 3 };
    match name {
        b"U" => generated,
        [b'N' | b'S' | b'D', b'.', rest @ ..] => match house(rest) {
            0 => generated,
            fault => fault,
        },
        [b'E', b'.', b'0'..=b'9'] | [b'E', b'.', b'1', b'0'..=b'6'] => generated,
        _ => house(name),
    }
}

/// Does this byte end a word?
fn ends_a_word(byte: u8) -> bool {
    static ENDS: [bool; 256] = {
        let mut ends = [false; 256];
        ends[b' ' as usize] = true;
        ends[b'(' as usize] = true;
        ends[b')' as usize] = true;
        ends[b';' as usize] = true;
        ends[b'\n' as usize] = true;
        ends
    };
    ENDS[usize::from(byte)]
}

/// What is left of the text from a place in a line on, and the line's lowest fault so far.
struct Line<'t> {
    left: &'t [u8],
    fault: u64,
}

impl<'t> Line<'t> {
    fn found(&mut self, fault: u64) {
        if fault != 0 && (self.fault == 0 || fault < self.fault) {
            self.fault = fault;
        }
    }

    fn skip_spaces(&mut self) {
        while let [b' ', rest @ ..] = self.left {
            self.left = rest;
        }
    }

    fn expect(&mut self, byte: u8) -> Option<()> {
        self.skip_spaces();
        let (first, rest) = self.left.split_first()?;
        self.left = rest;
        (*first == byte).then_some(())
    }

    /// Takes an opening bracket and then this word.
    fn open(&mut self, word: &[u8]) -> Option<()> {
        self.expect(b'(')?;
        self.skip_spaces();
        let rest = self.left.strip_prefix(word)?;
        self.left = rest;
        ends_a_word(*rest.first()?).then_some(())
    }

    /// The names up to the closing bracket, which is taken too.
    fn names(&mut self, mut each: impl FnMut(&mut Self, &'t [u8])) -> Option<()> {
        loop {
            self.skip_spaces();
            let end = self.left.iter().position(|byte| ends_a_word(*byte))?;
            let (name, rest) = self.left.split_at(end);
            if name.is_empty() {
                self.left = &rest[1..];
                return (rest[0] == b')').then_some(());
            }
            self.left = rest;
            each(self, name);
        }
    }

    /// The word that stands here, which may be empty.
    fn word(&mut self) -> Option<&'t [u8]> {
        self.skip_spaces();
        let end = self.left.iter().position(|byte| ends_a_word(*byte))?;
        let (word, rest) = self.left.split_at(end);
        self.left = rest;
        Some(word)
    }

    /// Takes `(then a))` where the line ends behind it, and gives its name.
    fn then(&mut self) -> Option<&'t [u8]> {
        let mut tail = Line {
            left: self.left,
            fault: 0,
        };
        tail.open(b"then")?;
        let name = tail.word().filter(|name| !name.is_empty())?;
        tail.expect(b')')?;
        tail.expect(b')')?;
        tail.skip_spaces();
        matches!(tail.left.first()?, b';' | b'\n').then_some(())?;
        self.left = tail.left;
        Some(name)
    }

    /// Goes past the line's end, behind spaces and a comment; nothing where something else stands
    /// before it or where it is missing.
    fn end(&mut self) -> Option<()> {
        self.skip_spaces();
        match self.left.split_first()? {
            (b'\n', rest) => self.left = rest,
            (b';', _) => {
                let comment = self.left;
                let length = self.left.skip_until(b'\n').ok()?;
                comment[..length].strip_suffix(b"\n")?;
            }
            _ => return None,
        }
        Some(())
    }
}

/// What waits for its parts: an opening bracket, or a connective by its place in the condition.
#[derive(Clone, Copy, PartialEq, Eq)]
enum Waiting {
    Open,
    Or(usize),
    And(usize),
    Not(usize),
}

impl Waiting {
    /// How tightly it binds.
    fn binds(self) -> u8 {
        match self {
            Waiting::Open => 0,
            Waiting::Or(_) => 1,
            Waiting::And(_) => 2,
            Waiting::Not(_) => 3,
        }
    }
}

/// While the lines are read, the atoms that conditions make are numbered from here.
const MADE: u32 = 0x4000;

/// A condition as it is read: parts that are whole, what waits for its parts, and what was joined, by
/// its place.
#[derive(Default)]
struct Condition {
    parts: Vec<u32>,
    waiting: Vec<Waiting>,
    joined: Vec<(Option<Waiting>, u32, u32)>,
}

impl Condition {
    fn clear(&mut self) {
        self.parts.clear();
        self.waiting.clear();
        self.joined.clear();
    }

    /// Joins all that binds as tightly as this or more; `made` is the first connective's atom.
    fn join(&mut self, binds: u8, made: u32) {
        while let Some(&last) = self.waiting.last() {
            if last.binds() < binds {
                return;
            }
            self.waiting.pop();
            let right = self.parts.pop().expect("a part stands behind it");
            let (place, left) = match last {
                Waiting::Not(place) => (place, right),
                Waiting::And(place) | Waiting::Or(place) => {
                    (place, self.parts.pop().expect("a part stands before it"))
                }
                Waiting::Open => unreachable!("it binds least"),
            };
            self.joined[place] = (Some(last), left, right);
            self.parts.push(made + place as u32);
        }
    }

    /// Takes a connective where it stands.
    fn connective(&mut self, connective: fn(usize) -> Waiting) {
        let place = self.joined.len();
        self.joined.push((None, 0, 0));
        self.waiting.push(connective(place));
    }
}

struct Reader<'t> {
    plain: bool,
    limits: Limits,
    numbers: HashMap<&'t [u8], u16>,
    stores: Stores,
    atoms: usize,
    rules: usize,
    occurrences: usize,
    /// The last list in which each atom was seen, as the list's number from 1.
    seen: Vec<u32>,
    lists: u32,
    /// How many atoms conditions made, and which of their numbers are declared.
    made: usize,
    declared: Vec<usize>,
    condition: Condition,
}

impl<'t> Reader<'t> {
    fn declaration(&mut self, line: &mut Line<'t>, class: Option<u16>) -> Option<()> {
        let plain = self.plain;
        line.names(|line, name| {
            line.found(name_fault(name, plain));
            if self.numbers.insert(name, self.atoms as u16).is_some() {
                line.found(4);
            }
            self.declared.extend(made_number(name));
            self.atoms += 1;
            if self.atoms > self.limits.atoms {
                line.found(7);
            }
            if line.fault == 0 {
                self.stores.names.push(name.len() as u8);
                self.stores.names.extend_from_slice(name);
                self.stores.rules.extend(class);
            }
        })
    }

    fn list(&mut self, line: &mut Line<'t>, word: &[u8], count_at: usize) -> Option<u16> {
        line.open(word)?;
        self.lists += 1;
        let plain = self.plain;
        let before = self.stores.rules.len();
        line.names(|line, name| {
            self.occurrences += 1;
            if self.occurrences > self.limits.occurrences {
                line.found(7);
            }
            let Some(&number) = self.numbers.get(name) else {
                line.found(name_fault(name, plain));
                line.found(5);
                return;
            };
            let seen = &mut self.seen[usize::from(number)];
            if *seen == self.lists {
                line.found(6);
            }
            *seen = self.lists;
            self.stores.rules.push(number);
        })?;
        let count = (self.stores.rules.len() - before) as u16;
        self.stores.rules[count_at] = count;
        Some(count)
    }

    fn rule(&mut self, line: &mut Line<'t>) -> Option<()> {
        self.rules += 1;
        if self.rules > self.limits.rules {
            line.found(7);
        }
        let counts = self.stores.rules.len();
        self.stores.rules.extend([0; 3]);
        self.list(line, b"head", counts)?;
        self.list(line, b"body", counts + 1)?;
        if self.list(line, b"not", counts + 2)? > 0 && !self.plain {
            line.found(8);
        }
        line.expect(b')')
    }

    /// A condition behind `(when`: one pass over its words and brackets. Its faults count in the
    /// sequence 2, 17, 18, 3, 4, 5, 7.
    fn condition(&mut self, line: &mut Line<'t>) -> Option<()> {
        let mut condition = std::mem::take(&mut self.condition);
        condition.clear();
        self.lists += 1;
        let made = MADE + self.made as u32;
        let (mut part_next, mut broken, mut depth, mut deepest) = (true, false, 0, 0);
        let (mut long, mut unknown) = (false, false);
        let then = loop {
            line.skip_spaces();
            match line.left.first()? {
                b'(' => {
                    if let Some(then) = line.then() {
                        break then;
                    }
                    line.left = &line.left[1..];
                    broken |= !part_next;
                    depth += 1;
                    deepest = depth.max(deepest);
                    condition.waiting.push(Waiting::Open);
                }
                b')' => {
                    line.left = &line.left[1..];
                    if depth == 0 {
                        return None;
                    }
                    depth -= 1;
                    broken |= part_next;
                    if !broken {
                        condition.join(1, made);
                        condition.waiting.pop();
                    }
                    part_next = false;
                }
                b'\n' | b';' => return None,
                _ => match line.word()? {
                    b"not" => {
                        broken |= !part_next;
                        condition.connective(Waiting::Not);
                    }
                    word @ (b"and" | b"or") => {
                        broken |= part_next;
                        let (binds, connective): (u8, fn(usize) -> Waiting) = match word {
                            b"and" => (2, Waiting::And),
                            _ => (1, Waiting::Or),
                        };
                        if !broken {
                            condition.join(binds, made);
                        }
                        condition.connective(connective);
                        part_next = true;
                    }
                    name => {
                        broken |= !part_next;
                        part_next = false;
                        match self.numbers.get(name) {
                            Some(&number) => {
                                self.seen[usize::from(number)] = self.lists;
                                condition.parts.push(u32::from(number));
                            }
                            None => {
                                match name_fault(name, false) {
                                    2 => return None,
                                    3 => long = true,
                                    _ => unknown = true,
                                }
                                condition.parts.push(0);
                            }
                        }
                    }
                },
            }
        };
        let then = match self.numbers.get(then) {
            Some(&number) => {
                self.seen[usize::from(number)] = self.lists;
                number
            }
            None => match name_fault(then, false) {
                2 => return None,
                fault => {
                    long |= fault == 3;
                    unknown = true;
                    0
                }
            },
        };
        if depth > 0 {
            return None;
        }
        let count = condition.joined.len();
        let numbers = self.made + 1..=self.made + count;
        line.fault = if broken || part_next {
            17
        } else if deepest > 32 {
            18
        } else if long {
            3
        } else if self.declared.iter().any(|made| numbers.contains(made)) {
            4
        } else if unknown {
            5
        } else if self.atoms + self.made + count > self.limits.atoms {
            7
        } else {
            condition.join(1, made);
            self.made += count;
            self.condition_rules(&condition, made, then)
        };
        self.condition = condition;
        Some(())
    }

    /// Writes the rules of a condition whose atoms there is room for; gives refusal 7 where there are
    /// then too many rules or occurrences.
    fn condition_rules(&mut self, condition: &Condition, made: u32, then: u16) -> u64 {
        let before = self.stores.rules.len();
        let words = &mut self.stores.rules;
        let mut count = 0;
        let mut rule = |head: &[u16], body: &[u16]| {
            count += 1;
            words.extend([head.len() as u16, body.len() as u16, 0]);
            words.extend_from_slice(head);
            words.extend_from_slice(body);
        };
        for (place, &(joined, left, right)) in condition.joined.iter().enumerate() {
            let (atom, left, right) = ((made as usize + place) as u16, left as u16, right as u16);
            let both = [left, right];
            let both = &both[usize::from(left == right)..];
            match joined {
                Some(Waiting::And(_)) => {
                    rule(&[atom], both);
                    rule(&[left], &[atom]);
                    rule(&[right], &[atom]);
                }
                Some(Waiting::Or(_)) => {
                    rule(both, &[atom]);
                    rule(&[atom], &[left]);
                    rule(&[atom], &[right]);
                }
                _ => {
                    rule(&[atom, left], &[]);
                    rule(&[], &[atom, left]);
                }
            }
        }
        rule(&[then], &[condition.parts[0] as u16]);
        self.rules += count;
        self.occurrences += self.stores.rules.len() - before - 3 * count;
        let over = self.rules > self.limits.rules || self.occurrences > self.limits.occurrences;
        if over {
            7
        } else {
            0
        }
    }

    /// Puts the atoms that conditions made before the fixed ones, and leaves out those that no list
    /// has: the stores anew, in one pass over the declarations and one over the rules.
    fn place_made(&mut self) {
        let Stores { rules, names } = &self.stores;
        let mut placed = Stores {
            rules: Vec::with_capacity(rules.len() + self.made),
            names: Vec::with_capacity(names.len() + 6 * self.made),
        };
        placed.rules.extend_from_slice(&rules[..4]);
        let mut numbers = [0u16; 256];
        let mut first_made = None;
        let mut from = 0;
        for (atom, list) in self.seen.iter().enumerate() {
            let class = rules[4 + atom];
            if class == 18 && first_made.is_none() {
                first_made = Some(self.add_made(&mut placed));
            }
            let name = from..from + 1 + usize::from(names[from]);
            from = name.end;
            if *list != 0 {
                numbers[atom] = (placed.rules.len() - 4) as u16;
                placed.rules.push(class);
                placed.names.extend_from_slice(&names[name]);
            }
        }
        let first_made = first_made.unwrap_or_else(|| self.add_made(&mut placed));
        let left = placed.rules.len() - 4;
        let mut from = 4 + self.atoms;
        for _ in 0..self.rules {
            let places: u16 = rules[from..from + 3].iter().sum();
            let end = from + 3 + usize::from(places);
            placed.rules.extend_from_slice(&rules[from..from + 3]);
            let number = |atom: &u16| match u32::from(*atom).checked_sub(MADE) {
                Some(made) => first_made + made as u16,
                None => numbers[usize::from(*atom)],
            };
            placed.rules.extend(rules[from + 3..end].iter().map(number));
            from = end;
        }
        self.stores = placed;
        self.atoms = left;
    }

    /// Adds the made atoms; gives the first one's number.
    fn add_made(&self, placed: &mut Stores) -> u16 {
        let first = placed.rules.len() - 4;
        placed.rules.resize(placed.rules.len() + self.made, 17);
        for number in 1..=self.made {
            let name = format!("T.{number}");
            placed.names.push(name.len() as u8);
            placed.names.extend_from_slice(name.as_bytes());
        }
        first as u16
    }

    /// Leaves out the atoms that no list has, which the reading of the lists marked: one pass over
    /// the declarations, one over the rules.
    fn leave_out_unused(&mut self) {
        if self.seen.iter().all(|list| *list != 0) {
            return;
        }
        let Stores { rules, names } = &mut self.stores;
        let mut numbers = [0u16; 256];
        let (mut left, mut from, mut to) = (0, 0, 0);
        for (atom, list) in self.seen.iter().enumerate() {
            let name = from..from + 1 + usize::from(names[from]);
            from = name.end;
            if *list != 0 {
                numbers[atom] = left as u16;
                rules[4 + left] = rules[4 + atom];
                left += 1;
                names.copy_within(name.clone(), to);
                to += name.len();
            }
        }
        names.truncate(to);
        let (mut from, mut to) = (4 + self.atoms, 4 + left);
        for _ in 0..self.rules {
            let places: u16 = rules[from..from + 3].iter().sum();
            rules.copy_within(from..from + 3, to);
            let end = from + 3 + usize::from(places);
            to += 3;
            for at in from + 3..end {
                rules[to] = numbers[usize::from(rules[at])];
                to += 1;
            }
            from = end;
        }
        rules.truncate(to);
        self.atoms = left;
    }
}

/// The text from its first form on, and the number of lines before that; where there is no form, the
/// refusal.
fn first_form(text: &[u8]) -> Result<(&[u8], u64), Refused> {
    let mut line = Line {
        left: text,
        fault: 0,
    };
    let mut blank = 0;
    loop {
        let start = line.left;
        if start.is_empty() {
            return Err((2, blank + 1));
        }
        line.skip_spaces();
        match line.left.first() {
            Some(b';' | b'\n') => line.end().ok_or((2, blank + 1))?,
            _ => return Ok((start, blank)),
        }
        blank += 1;
    }
}

pub fn read(text: &[u8]) -> Result<Stores, Refused> {
    if text.len() > 917_504 {
        return Err((1, 0));
    }
    let (left, mut line_number) = first_form(text)?;
    let plain = Line { left, fault: 0 }.open(b"atoms").is_some();
    let mut reader = Reader {
        plain,
        limits: if plain { PLAIN } else { PREFERENCE },
        numbers: HashMap::new(),
        stores: Stores {
            rules: vec![u16::from(!plain), 0, 0, 0],
            names: Vec::new(),
        },
        atoms: 0,
        rules: 0,
        occurrences: 0,
        seen: Vec::new(),
        lists: 0,
        made: 0,
        declared: Vec::new(),
        condition: Condition::default(),
    };
    let mut classes = 0;
    // What is still to come: 3 `min` or `vary`, 2 `fix`, 1 `atoms`, 0 rules.
    let mut stage = if plain { 1 } else { 3 };
    let mut line = Line { left, fault: 0 };
    while !line.left.is_empty() {
        line_number += 1;
        line.skip_spaces();
        if let Some(b';' | b'\n') = line.left.first() {
            line.end().ok_or((2, line_number))?;
            continue;
        }
        let stands = match stage {
            0 => {
                let start = line.left;
                if line.open(b"rule").is_some() {
                    reader.rule(&mut line)
                } else if plain {
                    None
                } else {
                    line.left = start;
                    line.open(b"when")
                        .and_then(|()| reader.condition(&mut line))
                }
            }
            1 => {
                stage = 0;
                line.open(b"atoms")
                    .and_then(|()| reader.declaration(&mut line, None))
            }
            2 => {
                stage = 0;
                line.open(b"fix")
                    .and_then(|()| reader.declaration(&mut line, Some(18)))
            }
            _ => {
                let start = line.left;
                if line.open(b"min").is_some() {
                    classes += 1;
                    if classes > 16 {
                        line.found(7);
                    }
                    reader.declaration(&mut line, Some(classes))
                } else {
                    stage = 2;
                    line.left = start;
                    line.open(b"vary")
                        .and_then(|()| reader.declaration(&mut line, Some(17)))
                }
            }
        };
        stands.and_then(|()| line.end()).ok_or((2, line_number))?;
        if line.fault != 0 {
            return Err((line.fault, line_number));
        }
        if stage == 0 && reader.seen.is_empty() {
            reader.seen = vec![0; reader.atoms];
        }
    }
    if stage != 0 {
        return Err((2, line_number + 1));
    }
    if reader.made > 0 {
        reader.place_made();
    } else if !plain {
        reader.leave_out_unused();
    }
    reader.stores.rules[1] = reader.atoms as u16;
    reader.stores.rules[2] = classes;
    reader.stores.rules[3] = reader.rules as u16;
    Ok(reader.stores)
}

/// Is the rule store of the form?
fn is_rule_store(words: &[u16]) -> Option<()> {
    let holds = |condition: bool| condition.then_some(());
    let &[kind, n, k, r, ref rest @ ..] = words else {
        return None;
    };
    let (limits, classes) = match kind {
        0 => (PLAIN, 0),
        1 => (PREFERENCE, 16),
        _ => return None,
    };
    holds(usize::from(n) <= limits.atoms && k <= classes && usize::from(r) <= limits.rules)?;
    let mut left = rest;
    if kind == 1 {
        holds(left.len() >= usize::from(n))?;
        let (class_words, rest) = left.split_at(usize::from(n));
        let mut last = 1;
        for word in class_words {
            holds(*word >= last && (*word <= k || *word == 17 || *word == 18))?;
            last = *word;
        }
        left = rest;
    }
    let mut seen = vec![0u32; usize::from(n)];
    let mut lists = 0;
    let mut occurrences = 0;
    for _ in 0..r {
        let (counts, rest) = left.split_at_checked(3)?;
        holds(kind == 0 || counts[2] == 0)?;
        left = rest;
        for count in counts {
            let (list, rest) = left.split_at_checked(usize::from(*count))?;
            lists += 1;
            occurrences += list.len();
            for atom in list {
                let stamp = seen.get_mut(usize::from(*atom))?;
                holds(*stamp != lists)?;
                *stamp = lists;
            }
            left = rest;
        }
    }
    holds(occurrences <= limits.occurrences && left.is_empty())
}

/// Does the name store fit the rule store?
fn names_fit(rules: &[u16], names: &[u8]) -> Option<()> {
    let mut seen = HashSet::with_capacity(usize::from(rules[1]));
    let mut left = names;
    for _ in 0..rules[1] {
        let (length, rest) = left.split_first()?;
        let (name, rest) = rest.split_at_checked(usize::from(*length))?;
        (name_fault(name, rules[0] == 0) == 0 && seen.insert(name)).then_some(())?;
        left = rest;
    }
    left.is_empty().then_some(())
}

fn check(stores: &Stores) -> Result<(), u64> {
    is_rule_store(&stores.rules).ok_or(10u64)?;
    names_fit(&stores.rules, &stores.names).ok_or(14)
}

/// The text of the stores, or a refusal's number.
pub fn write(stores: &Stores) -> Result<Vec<u8>, u64> {
    check(stores)?;
    Ok(text_of(stores, rules(stores)))
}

/// The canonical text of the stores, or a refusal's number.
pub fn write_canonical(stores: &Stores) -> Result<Vec<u8>, u64> {
    check(stores)?;
    Ok(canonical_text_of(stores))
}

/// The plain program's text of a preference file's stores, or a refusal's number.
pub fn translate(stores: &Stores) -> Result<Vec<u8>, u64> {
    if stores.rules.first() != Some(&1) {
        return Err(10);
    }
    check(stores)?;
    let plain = translated(stores);
    Ok(text_of(&plain, rules(&plain)))
}

fn names(stores: &Stores) -> Vec<&[u8]> {
    let mut names = Vec::with_capacity(usize::from(stores.rules[1]));
    let mut left = stores.names.as_slice();
    while let Some((length, rest)) = left.split_first() {
        let (name, rest) = rest.split_at(usize::from(*length));
        names.push(name);
        left = rest;
    }
    names
}

/// Where the first rule's counts stand.
fn first_rule(words: &[u16]) -> usize {
    match words[0] {
        1 => 4 + usize::from(words[1]),
        _ => 4,
    }
}

/// The lists of the rule whose three counts stand here.
fn lists_at(words: &[u16], at: usize) -> [&[u16]; 3] {
    let head = at + 3 + usize::from(words[at]);
    let body = head + usize::from(words[at + 1]);
    let not = body + usize::from(words[at + 2]);
    [&words[at + 3..head], &words[head..body], &words[body..not]]
}

/// The three lists of each rule of checked stores.
fn rules(stores: &Stores) -> impl Iterator<Item = [&[u16]; 3]> {
    let words = &stores.rules;
    let mut at = first_rule(words);
    (0..words[3]).map(move |_| {
        let head = at + 3 + usize::from(words[at]);
        let body = head + usize::from(words[at + 1]);
        let not = body + usize::from(words[at + 2]);
        let lists = [&words[at + 3..head], &words[head..body], &words[body..not]];
        at = not;
        lists
    })
}

/// The text of checked stores, with these rules.
fn text_of<'r>(stores: &Stores, rules: impl Iterator<Item = [&'r [u16]; 3]>) -> Vec<u8> {
    let names = names(stores);
    let words = &stores.rules;
    let mut text = Vec::with_capacity(64 * 1024);
    let list = |text: &mut Vec<u8>, open: &[u8], atoms: &mut dyn Iterator<Item = usize>| {
        text.extend_from_slice(open);
        for atom in atoms {
            text.push(b' ');
            text.extend_from_slice(names[atom]);
        }
    };
    let atoms = usize::from(words[1]);
    if words[0] == 0 {
        list(&mut text, b"(atoms", &mut (0..atoms));
        text.extend_from_slice(b")\n");
    } else {
        let mut next = 0;
        for class in (1..=words[2]).chain([17, 18]) {
            let open: &[u8] = match class {
                17 => b"(vary",
                18 => b"(fix",
                _ => b"(min",
            };
            let end = next + words[4 + next..4 + atoms].partition_point(|word| *word <= class);
            list(&mut text, open, &mut (next..end));
            text.extend_from_slice(b")\n");
            next = end;
        }
    }
    for [head, body, not] in rules {
        let number = |atom: &u16| usize::from(*atom);
        list(&mut text, b"(rule (head", &mut head.iter().map(number));
        list(&mut text, b") (body", &mut body.iter().map(number));
        list(&mut text, b") (not", &mut not.iter().map(number));
        text.extend_from_slice(b"))\n");
    }
    text
}

/// The first four words of a rule's lists: an atom is its number plus one, and each list ends with 0,
/// so that one which ends first stands before.
fn key(lists: [&[u16]; 3]) -> u64 {
    let mut words = [0; 4];
    let mut next = 0;
    for list in lists {
        for (word, atom) in words[next.min(4)..].iter_mut().zip(list) {
            *word = *atom + 1;
        }
        next += list.len() + 1;
    }
    words
        .into_iter()
        .fold(0, |key, word| key << 16 | u64::from(word))
}

/// A rule whose lists are sorted: its key, and where its words are.
struct Keyed {
    key: u64,
    start: u32,
    end: u32,
}

impl Keyed {
    fn words<'w>(&self, words: &'w [u16]) -> &'w [u16] {
        &words[self.start as usize..self.end as usize]
    }

    fn lists<'w>(&self, words: &'w [u16]) -> [&'w [u16]; 3] {
        lists_at(words, self.start as usize)
    }

    /// By the keys and, where these are the same, by the lists; mostly the rules are the same then.
    fn compare(&self, other: &Keyed, words: &[u16]) -> Ordering {
        if self.key != other.key {
            return self.key.cmp(&other.key);
        }
        if self.words(words) == other.words(words) {
            return Ordering::Equal;
        }
        self.lists(words).cmp(&other.lists(words))
    }
}

/// The canonical text of checked stores: lists sorted in a copy of the words, then the rules.
fn canonical_text_of(stores: &Stores) -> Vec<u8> {
    let mut words = stores.rules.clone();
    let mut keyed = Vec::with_capacity(usize::from(words[3]));
    let mut start = first_rule(&words);
    for _ in 0..words[3] {
        let counts = [words[start], words[start + 1], words[start + 2]];
        let mut end = start + 3;
        for count in counts {
            let list = end..end + usize::from(count);
            end = list.end;
            words[list].sort_unstable();
        }
        keyed.push(Keyed {
            key: key(lists_at(&words, start)),
            start: start as u32,
            end: end as u32,
        });
        start = end;
    }
    keyed.sort_unstable_by(|one, other| one.compare(other, &words));
    keyed.dedup_by(|one, other| one.words(&words) == other.words(&words));
    text_of(stores, keyed.iter().map(|rule| rule.lists(&words)))
}

/// The plain program's stores of the checked stores of a preference file.
fn translated(stores: &Stores) -> Stores {
    let words = &stores.rules;
    let n = words[1];
    let k = words[2];
    let class = &words[4..4 + usize::from(n)];
    let count = |last: u16| class.partition_point(|word| *word <= last) as u16;
    let (p, unfixed) = (count(16), count(17));
    let big_n = |a: u16| n + a;
    let s = |a: u16| 2 * n + a;
    let d = |a: u16| 2 * n + unfixed + a;
    let e = |j: u16| 2 * n + unfixed + p + j;
    let u = e(k + 1);
    let mut out = Stores {
        rules: vec![0, u + 1, 0, 0],
        names: Vec::new(),
    };
    let file_names = names(stores);
    let mut name = |prefix: &[u8], name: &[u8]| {
        out.names.push((prefix.len() + name.len()) as u8);
        out.names.extend_from_slice(prefix);
        out.names.extend_from_slice(name);
    };
    for (prefix, last) in [(&b""[..], n), (b"N.", n), (b"S.", unfixed), (b"D.", p)] {
        for a in &file_names[..usize::from(last)] {
            name(prefix, a);
        }
    }
    for j in 0..=k {
        name(b"E.", j.to_string().as_bytes());
    }
    name(b"U", b"");
    let mut written = 0;
    let mut rule = |head: &[u16], body: &[u16], not: &[u16]| {
        written += 1;
        out.rules
            .extend([head.len() as u16, body.len() as u16, not.len() as u16]);
        out.rules.extend_from_slice(head);
        out.rules.extend_from_slice(body);
        out.rules.extend_from_slice(not);
    };
    for a in 0..n {
        if a >= p {
            rule(&[a], &[], &[big_n(a)]);
        }
        rule(&[big_n(a)], &[], &[a]);
    }
    let (mut head_part, mut body_part, mut not_part) = (Vec::new(), Vec::new(), Vec::new());
    for [head, body, _] in rules(stores) {
        head_part.clear();
        body_part.clear();
        not_part.clear();
        for &a in head {
            if a < p {
                head_part.push(a);
            } else {
                not_part.push(a);
            }
        }
        for &b in body {
            if b < p {
                body_part.push(b);
            } else {
                not_part.push(big_n(b));
            }
        }
        rule(&head_part, &body_part, &not_part);
    }
    for [head, body, _] in rules(stores) {
        let free = |a: &&u16| **a < unfixed;
        let fixed = |a: &&u16| **a >= unfixed;
        head_part.clear();
        head_part.extend(head.iter().filter(free).map(|a| s(*a)));
        head_part.push(u);
        body_part.clear();
        body_part.extend(body.iter().filter(free).map(|a| s(*a)));
        body_part.extend(body.iter().filter(fixed));
        not_part.clear();
        not_part.extend(head.iter().filter(fixed));
        rule(&head_part, &body_part, &not_part);
    }
    rule(&[e(0), u], &[], &[]);
    for i in 1..=k {
        head_part.clear();
        head_part.extend((count(i - 1)..count(i)).map(d));
        head_part.extend([e(i), u]);
        rule(&head_part, &[e(i - 1)], &[]);
    }
    for a in 0..p {
        let i = class[usize::from(a)];
        rule(&[u], &[d(a)], &[a]);
        rule(&[u], &[d(a), s(a)], &[]);
        rule(&[u], &[e(i - 1), s(a)], &[a]);
        rule(&[s(a), u], &[e(i)], &[big_n(a)]);
    }
    (0..unfixed).for_each(|a| rule(&[s(a)], &[u], &[]));
    (0..p).for_each(|a| rule(&[d(a)], &[u], &[]));
    (0..=k).for_each(|j| rule(&[e(j)], &[u], &[]));
    rule(&[u], &[e(k)], &[]);
    rule(&[], &[], &[u]);
    out.rules[3] = written;
    out
}
