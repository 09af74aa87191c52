//! The reader of clause files as a Rust programmer would write it for speed: one pass over the bytes,
//! each clause's rule put together as its literals come, and then the lent outputs filled. It is
//! compared with the second implementation before it is timed.

use crate::twin::Refused;

const BROKEN: u64 = 15;
const BEYOND: u64 = 16;
const LIMIT: u64 = 7;
const SHORT: u64 = 9;

const ATOMS: usize = 256;
const CLAUSES: usize = 1_024;
const OCCURRENCES: usize = 8_192;

/// Past every limit; so no number grows beyond it.
const PAST: usize = 100_000;

struct Reader {
    atoms: usize,
    counted: usize,
    clauses: usize,
    occurrences: usize,
    /// Three counts and the atoms of each rule.
    rules: [u16; 3 * CLAUSES + OCCURRENCES],
    /// Where the begun clause's counts stand, and where its head ends.
    start: usize,
    end: usize,
    body: [u16; ATOMS],
    body_len: usize,
    begun: bool,
    /// The last clause, from 1, with each atom as a positive and as a negative literal.
    seen: [[u16; ATOMS + 1]; 2],
    /// The fault of the line so far: 0, 7 or 16.
    fault: u64,
}

impl Reader {
    fn literal(&mut self, atom: usize, negative: bool) {
        self.begun = true;
        if atom > self.atoms {
            self.fault = BEYOND;
            return;
        }
        let seen = &mut self.seen[usize::from(negative)][atom];
        let clause = self.clauses as u16 + 1;
        if *seen == clause {
            return;
        }
        *seen = clause;
        if self.occurrences == OCCURRENCES {
            self.fault = self.fault.max(LIMIT);
            return;
        }
        self.occurrences += 1;
        let atom = atom as u16 - 1;
        if negative {
            self.body[self.body_len] = atom;
            self.body_len += 1;
        } else {
            self.rules[self.end] = atom;
            self.end += 1;
        }
    }

    fn end_clause(&mut self) {
        let head_len = self.end - self.start - 3;
        let whole = self.end + self.body_len;
        self.rules[self.end..whole].copy_from_slice(&self.body[..self.body_len]);
        self.rules[self.start] = head_len as u16;
        self.rules[self.start + 1] = self.body_len as u16;
        self.start = whole;
        self.end = whole + 3;
        self.body_len = 0;
        self.begun = false;
        self.clauses += 1;
    }

    /// Takes the items from `at` to the line's end, and gives the place behind its byte 10; nothing
    /// where an item, the line's end or the count of clauses is broken.
    fn items(&mut self, text: &[u8], mut at: usize) -> Option<usize> {
        loop {
            match *text.get(at)? {
                b' ' => at += 1,
                b'\n' => return Some(at + 1),
                first => {
                    if !self.begun && self.clauses == self.counted {
                        return None;
                    }
                    let negative = first == b'-';
                    at += usize::from(negative);
                    let number = number(text, &mut at)?;
                    if !matches!(text.get(at), Some(b' ' | b'\n')) {
                        return None;
                    }
                    match number {
                        0 if negative => return None,
                        0 => self.end_clause(),
                        atom => self.literal(atom, negative),
                    }
                }
            }
        }
    }

    fn deliver(&self, out: &mut [u16], names: &mut [u8]) -> Option<(usize, usize)> {
        let mut numbers = [0u16; ATOMS];
        let mut left = 0;
        let mut named = [0u8; 5 * ATOMS];
        let mut bytes = 0;
        for atom in 1..=self.atoms {
            if self.seen[0][atom] | self.seen[1][atom] == 0 {
                continue;
            }
            numbers[atom - 1] = left as u16;
            left += 1;
            let digits = [atom / 100, atom / 10 % 10, atom % 10].map(|digit| b'0' + digit as u8);
            let first = usize::from(atom < 100) + usize::from(atom < 10);
            named[bytes] = 4 - first as u8;
            named[bytes + 1] = b'v';
            named[bytes + 2..bytes + 5 - first].copy_from_slice(&digits[first..]);
            bytes += 5 - first;
        }
        let rules = &self.rules[..self.start];
        let words = 4 + left + rules.len();
        let (out, names) = (out.get_mut(..words)?, names.get_mut(..bytes)?);
        names.copy_from_slice(&named[..bytes]);
        out[..4].copy_from_slice(&[1, left as u16, 1, self.clauses as u16]);
        out[4..4 + left].fill(1);
        let out = &mut out[4 + left..];
        out.copy_from_slice(rules);
        if left < self.atoms {
            let mut at = 0;
            while at < out.len() {
                let end = at + 3 + usize::from(out[at] + out[at + 1]);
                for word in &mut out[at + 3..end] {
                    *word = numbers[usize::from(*word)];
                }
                at = end;
            }
        }
        Some((words, bytes))
    }
}

/// The number that starts here; behind a leading zero nothing is taken.
fn number(text: &[u8], at: &mut usize) -> Option<usize> {
    let digit = |at: usize| -> Option<usize> {
        let digit = text.get(at)?.wrapping_sub(b'0');
        (digit < 10).then_some(usize::from(digit))
    };
    let mut number = digit(*at)?;
    *at += 1;
    if number == 0 {
        return Some(0);
    }
    while let Some(next) = digit(*at) {
        number = (10 * number + next).min(PAST);
        *at += 1;
    }
    Some(number)
}

/// The header's two numbers. Where the header stands nothing is in a hurry.
fn header(line: &[u8]) -> Option<(usize, usize)> {
    let pieces = line.split(|byte| *byte == b' ');
    let mut items = pieces.filter(|item| !item.is_empty());
    (items.next()? == b"p" && items.next()? == b"cnf").then_some(())?;
    let mut whole = || -> Option<usize> {
        let (item, mut at) = (items.next()?, 0);
        let number = number(item, &mut at)?;
        (at == item.len()).then_some(number)
    };
    let numbers = (whole()?, whole()?);
    items.next().is_none().then_some(numbers)
}

/// Reads a clause file into the lent stores; gives how many words and bytes are written.
pub fn read(text: &[u8], rules: &mut [u16], names: &mut [u8]) -> Result<(usize, usize), Refused> {
    if text.len() > 917_504 {
        return Err((1, 0));
    }
    let mut reader = Reader {
        atoms: 0,
        counted: 0,
        clauses: 0,
        occurrences: 0,
        rules: [0; 3 * CLAUSES + OCCURRENCES],
        start: 0,
        end: 3,
        body: [0; ATOMS],
        body_len: 0,
        begun: false,
        seen: [[0; ATOMS + 1]; 2],
        fault: 0,
    };
    let mut headed = false;
    let mut line = 0;
    let mut at = 0;
    while at < text.len() {
        line += 1;
        if headed && text[at] != b'c' {
            at = reader.items(text, at).ok_or((BROKEN, line))?;
            if reader.fault != 0 {
                return Err((reader.fault, line));
            }
            continue;
        }
        let end = text[at..].iter().position(|byte| *byte == b'\n');
        let end = at + end.ok_or((BROKEN, line))?;
        let start = std::mem::replace(&mut at, end + 1);
        let content = &text[start..end];
        if text[start] != b'c' && content.iter().any(|byte| *byte != b' ') {
            (reader.atoms, reader.counted) = header(content).ok_or((BROKEN, line))?;
            if reader.atoms > ATOMS || reader.counted > CLAUSES {
                return Err((LIMIT, line));
            }
            headed = true;
        }
    }
    if !headed || reader.begun || reader.clauses != reader.counted {
        return Err((BROKEN, line + 1));
    }
    reader.deliver(rules, names).ok_or((SHORT, 0))
}
