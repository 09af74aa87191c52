//! Writes states, as lines or as one JSON object.

use crate::json::Json;
use crate::sets::Set;
use rigtomato::Program;
use std::io::{self, Write};

/// How a listing ends.
#[derive(Clone, Copy, Debug, PartialEq, Eq)]
pub enum End {
    /// These are all states.
    Total,
    /// So many were asked for.
    First,
    Spent,
    Interrupted,
}

impl End {
    fn word(self) -> &'static str {
        match self {
            End::Total => "total",
            End::First => "first",
            End::Spent => "spent",
            End::Interrupted => "interrupted",
        }
    }
}

pub struct Listing<W: Write> {
    out: W,
    json: bool,
    /// Each atom's name as it stands in a state, with what goes before it.
    names: Vec<Vec<u8>>,
    line: Vec<u8>,
    pub count: u64,
}

impl<W: Write> Listing<W> {
    pub fn new(out: W, json: bool, program: &Program) -> Listing<W> {
        let names = program.names().map(|name| match json {
            true => format!(",{}", Json::text(name)).into_bytes(),
            false => format!(" {name}").into_bytes(),
        });
        Listing {
            out,
            json,
            names: names.collect(),
            line: Vec::new(),
            count: 0,
        }
    }

    pub fn state(&mut self, set: Set) -> io::Result<()> {
        self.line.clear();
        match (self.json, self.count) {
            (false, _) => self.line.extend_from_slice(b"(state"),
            (true, 0) => self.line.extend_from_slice(b"{\"states\":[["),
            (true, _) => self.line.extend_from_slice(b",["),
        }
        let start = self.line.len();
        for atom in set.atoms() {
            self.line.extend_from_slice(&self.names[atom]);
        }
        if self.json {
            if self.line.len() > start {
                // no comma before the first name
                self.line.remove(start);
            }
            self.line.push(b']');
        } else {
            self.line.extend_from_slice(b")\n");
        }
        self.count += 1;
        self.out.write_all(&self.line)
    }

    pub fn flush(&mut self) -> io::Result<()> {
        self.out.flush()
    }

    pub fn end(&mut self, end: End) -> io::Result<()> {
        let (word, count) = (end.word(), self.count);
        if self.json {
            let opening = if count == 0 { "{\"states\":[" } else { "" };
            let word = Json::text(word);
            writeln!(self.out, "{opening}],\"end\":{word},\"count\":{count}}}")?;
        } else {
            match end {
                End::Total | End::First => writeln!(self.out, "({word} {count})")?,
                End::Spent => writeln!(self.out, "({word})")?,
                End::Interrupted => {}
            }
        }
        self.out.flush()
    }
}

#[cfg(test)]
mod tests {
    use super::*;

    const TEXT: &[u8] = b"(min a)\n(vary b)\n(fix)\n(rule (head a) (body b) (not))\n";

    fn listed(json: bool, sets: &[u64], end: End) -> String {
        let program = Program::read(TEXT).unwrap();
        let mut out = Vec::new();
        let mut listing = Listing::new(&mut out, json, &program);
        for set in sets {
            listing.state(Set::from(*set)).unwrap();
        }
        listing.end(end).unwrap();
        String::from_utf8(out).unwrap()
    }

    #[test]
    fn lines() {
        assert_eq!(
            listed(false, &[0, 2, 3], End::Total),
            "(state)\n(state b)\n(state a b)\n(total 3)\n"
        );
        assert_eq!(listed(false, &[1], End::First), "(state a)\n(first 1)\n");
        assert_eq!(listed(false, &[], End::Spent), "(spent)\n");
        assert_eq!(listed(false, &[1], End::Interrupted), "(state a)\n");
    }

    #[test]
    fn objects() {
        assert_eq!(
            listed(true, &[0, 2, 3], End::Total),
            "{\"states\":[[],[\"b\"],[\"a\",\"b\"]],\"end\":\"total\",\"count\":3}\n"
        );
        assert_eq!(
            listed(true, &[], End::Interrupted),
            "{\"states\":[],\"end\":\"interrupted\",\"count\":0}\n"
        );
    }
}
