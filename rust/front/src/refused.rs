//! A refusal, as it is printed and explained.

use crate::file::File;
use crate::json::Json;
use rigtomato::{Kind, Program, Refusal, TextRefusal};

/// The most bytes of a line that a message shows.
const SHOWN: usize = 200;

#[derive(Clone, Copy, Debug, PartialEq, Eq)]
pub struct Refused {
    pub refusal: Refusal,
    /// From 1, or 0 where there is none.
    pub line: u64,
    pub words: &'static str,
}

impl From<TextRefusal> for Refused {
    fn from(refused: TextRefusal) -> Refused {
        Refused {
            refusal: refused.refusal,
            line: refused.line.unwrap_or(0),
            words: refused.refusal.words(),
        }
    }
}

impl Refused {
    /// The refusal of a call that needs a file of this kind.
    pub fn of_call(refusal: Refusal, needed: Kind) -> Refused {
        let words = match (refusal, needed) {
            (Refusal::RuleStore, Kind::Preference) => {
                "this is a plain program, and a preference file is needed"
            }
            (Refusal::RuleStore, Kind::Plain) => {
                "this is a preference file, and a plain program is needed"
            }
            (Refusal::TooManyAtoms, Kind::Preference) => {
                "there are over 60 atoms; `solve` lists the states of up to 256"
            }
            _ => refusal.words(),
        };
        Refused {
            refusal,
            line: 0,
            words,
        }
    }

    fn number(&self) -> u64 {
        self.refusal as u64
    }

    /// What the two proved programs print.
    pub fn printed(&self) -> String {
        format!("(refused {} {})\n", self.number(), self.line)
    }

    pub fn json(&self) -> Json {
        let fields = vec![
            ("number", Json::Number(self.number())),
            ("line", Json::Number(self.line)),
            ("words", Json::text(self.words)),
        ];
        Json::Object(vec![("refused", Json::Object(fields))])
    }

    /// The message for standard error: what is wrong, and the line below it if it has one.
    pub fn message(&self, file: &File) -> String {
        let what = format!("{} (refusal {})", self.words, self.number());
        if self.line == 0 {
            return format!("{}: {what}", file.name);
        }
        let place = format!("{}:{}: {what}", file.name, self.line);
        match file.line(self.line) {
            Some(line) => format!("{place}\n{}", shown(line)),
            None => place,
        }
    }
}

/// What the file says, or why it says nothing.
pub fn read(file: &File) -> Result<Program, Refused> {
    Program::read(&file.text).map_err(Refused::from)
}

/// The same of a clause file.
pub fn read_clauses(file: &File) -> Result<Program, Refused> {
    Program::read_clauses(&file.text).map_err(Refused::from)
}

/// The line's first bytes, the unprintable ones escaped.
fn shown(line: &[u8]) -> String {
    let line = line.strip_suffix(b"\n").unwrap_or(line);
    let first = &line[..line.len().min(SHOWN)];
    let mut text = String::new();
    for byte in first {
        match byte {
            b' '..=b'~' => text.push(char::from(*byte)),
            _ => text.push_str(&format!("\\x{byte:02x}")),
        }
    }
    text
}

#[cfg(test)]
mod tests {
    use super::*;

    #[test]
    fn shown_lines() {
        assert_eq!(shown(b"(vary a)\n"), "(vary a)");
        assert_eq!(shown(b"(vary\ta)\r\n"), "(vary\\x09a)\\x0d");
        assert_eq!(shown("(vary \u{e9})".as_bytes()), "(vary \\xc3\\xa9)");
        assert_eq!(shown(&[b'a'; 300]), "a".repeat(200));
        assert_eq!(shown(b"\n"), "");
    }
}
