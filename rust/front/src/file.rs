//! The file that a command is about.

use crate::conditions::{self, is_condition};
use crate::ending::Fault;
use rigtomato::TEXT_LIMIT;
use std::ffi::OsStr;
use std::io::{self, Read};
use std::path::Path;

pub struct File {
    /// What messages call it.
    pub name: String,
    pub text: Vec<u8>,
}

/// What a line says: without its byte 10, its comment, and the spaces before and behind.
pub fn form(line: &[u8]) -> &[u8] {
    let line = line.strip_suffix(b"\n").unwrap_or(line);
    let comment = line.iter().position(|byte| *byte == b';');
    let line = &line[..comment.unwrap_or(line.len())];
    let said = |byte: &u8| *byte != b' ';
    let start = line.iter().position(said).unwrap_or(line.len());
    let end = line.iter().rposition(said).map_or(start, |last| last + 1);
    &line[start..end]
}

/// The words of a line: what its spaces and brackets part.
pub fn words(line: &[u8]) -> impl Iterator<Item = &[u8]> {
    let parts = form(line).split(|byte| matches!(byte, b' ' | b'(' | b')'));
    parts.filter(|part| !part.is_empty())
}

/// How many rules the line gives, in an accepted text.
fn rules_of(line: &[u8]) -> usize {
    match words(line).next() {
        Some(b"rule") => 1,
        Some(b"when") => conditions::rules(line),
        _ => 0,
    }
}

/// A line that gives rules, as it is typed.
#[derive(Debug, PartialEq, Eq)]
pub struct Typed {
    /// From 1.
    pub line: u64,
    /// The form without what stands around it.
    pub text: String,
    /// Is it a condition, so that its rules are made of it?
    pub is_condition: bool,
}

/// Past the limit one byte is as good as all of them: the text is refused.
fn bytes_of(input: impl Read) -> io::Result<Vec<u8>> {
    let mut text = Vec::new();
    input.take(TEXT_LIMIT as u64 + 1).read_to_end(&mut text)?;
    Ok(text)
}

impl File {
    /// Reads the file, or standard input for `-`.
    pub fn read(path: &OsStr) -> Result<File, Fault> {
        let (name, text) = if path == "-" {
            ("standard-input".to_string(), bytes_of(io::stdin().lock()))
        } else {
            let text = std::fs::File::open(path).and_then(bytes_of);
            (Path::new(path).display().to_string(), text)
        };
        match text {
            Ok(text) => Ok(File { name, text }),
            Err(error) => Err(Fault::unusable(format!("{name}: cannot be read: {error}"))),
        }
    }

    fn lines(&self) -> impl Iterator<Item = &[u8]> {
        self.text.split_inclusive(|byte| *byte == b'\n')
    }

    /// The line with this number from 1, with its byte 10 if it has one; none past the last.
    pub fn line(&self, number: u64) -> Option<&[u8]> {
        let before = usize::try_from(number.checked_sub(1)?).ok()?;
        self.lines().nth(before)
    }

    /// Is it made of clauses? The first line that is no comment and not blank is then the header.
    pub fn has_clauses(&self) -> bool {
        let says_something =
            |line: &&[u8]| !line.starts_with(b"c") && !line.trim_ascii().is_empty();
        let first = self.lines().find(says_something);
        first.is_some_and(|line| line.starts_with(b"p cnf "))
    }

    /// The first word of the text, which tells its kind.
    pub fn first_word(&self) -> Option<&[u8]> {
        self.lines().flat_map(words).next()
    }

    /// The names on the declaring lines of an accepted text, in declared order.
    pub fn declared(&self) -> impl Iterator<Item = &str> {
        let declaring = self.lines().take_while(|line| rules_of(line) == 0);
        let names = declaring.flat_map(|line| words(line).skip(1));
        names.map(|name| std::str::from_utf8(name).expect("names are letters, digits, `_` and `.`"))
    }

    /// The line that gives the rule with this number from 0, in an accepted text.
    pub fn rule(&self, rule: u64) -> Typed {
        let mut left = rule as usize;
        for (number, line) in (1..).zip(self.lines()) {
            let given = rules_of(line);
            if left < given {
                return Typed {
                    line: number,
                    text: String::from_utf8_lossy(form(line)).into(),
                    is_condition: is_condition(line),
                };
            }
            left -= given;
        }
        unreachable!("the engine names a rule of the file")
    }

    /// How many lines are conditions or meant to be, and their connectives together.
    pub fn conditions(&self) -> (usize, usize) {
        let lines = || self.lines().filter(|line| is_condition(line));
        (lines().count(), lines().map(conditions::connectives).sum())
    }
}

#[cfg(test)]
mod tests {
    use super::*;

    fn file(text: &str) -> File {
        File {
            name: "x".to_string(),
            text: text.into(),
        }
    }

    fn rule(line: u64, text: &str) -> Typed {
        Typed {
            line,
            text: text.to_string(),
            is_condition: false,
        }
    }

    #[test]
    fn declared_names() {
        let rule = "(rule (head a) (body) (not))\n";
        for (text, names) in [
            ("(vary)\n(fix)\n", &[][..]),
            (
                "(min)\n(min b c)\n(vary a)\n(fix 7)\n",
                &["b", "c", "a", "7"],
            ),
            ("(atoms a N.a U)\n", &["a", "N.a", "U"]),
            (
                "; (min x)\n\n( min  b )\n  (vary a )\n(fix); x\n;\n",
                &["b", "a"],
            ),
            ("\n ( atoms  a )\n\n", &["a"]),
            ("(vary rule a)\n(fix head)\n", &["rule", "a", "head"]),
            ("(vary a)\n(fix T.9)\n(when a (then a))\n", &["a", "T.9"]),
        ] {
            let text = format!("{text}{rule}");
            assert!(file(&text).declared().eq(names.iter().copied()), "{text}");
        }
    }

    #[test]
    fn clause_files() {
        for text in ["p cnf 1 1\n1 0\n", "c\n\n \nc x\np cnf 3 x\n"] {
            assert!(file(text).has_clauses(), "{text}");
        }
        for text in ["", "c\n", "(vary)\n(fix)\np cnf 1 1\n", "p\n", "1 0\n"] {
            assert!(!file(text).has_clauses(), "{text}");
        }
    }

    #[test]
    fn lines_by_number() {
        let text = "(vary a)\n(fix)\n(rule (head a) (body) (not))\n(rule (head) (body a) (not))";
        let file = file(text);
        assert_eq!(file.line(0), None);
        assert_eq!(file.line(1), Some(b"(vary a)\n".as_slice()));
        assert_eq!(file.line(2), Some(b"(fix)\n".as_slice()));
        assert_eq!(file.line(5), None);
        assert_eq!(file.line(u64::MAX), None);
        assert_eq!(file.rule(0), rule(3, "(rule (head a) (body) (not))"));
        assert_eq!(file.rule(1), rule(4, "(rule (head) (body a) (not))"));
    }

    /// Comments and blank lines count as lines; what is shown of a rule is the rule alone.
    #[test]
    fn rules_as_typed() {
        let text = "; (rule (head x) (body) (not))\n\n(vary rule)\n(fix) ; none\n   \n\
            ( rule (head rule)(body) (not ) );(rule\n  (rule (head) (body   rule) (not))  \n";
        let file = file(text);
        assert_eq!(file.rule(0), rule(6, "( rule (head rule)(body) (not ) )"));
        assert_eq!(file.rule(1), rule(7, "(rule (head) (body   rule) (not))"));
        assert_eq!(file.conditions(), (0, 0));
    }

    /// A condition gives as many rules as its connectives and its `then` make.
    #[test]
    fn rules_of_conditions() {
        let text = "(vary when a)\n(fix b)\n(when a (then b))\n(rule (head a) (body) (not))\n\n\
            ; (when x (then y))\n  (when not(when)and b (then a)) ; x\n(rule (head) (body) (not))\n";
        let file = file(text);
        let condition = |line: u64, text: &str| Typed {
            is_condition: true,
            ..rule(line, text)
        };
        assert_eq!(file.rule(0), condition(3, "(when a (then b))"));
        assert_eq!(file.rule(1), rule(4, "(rule (head a) (body) (not))"));
        for number in 2..8 {
            let typed = "(when not(when)and b (then a))";
            assert_eq!(file.rule(number), condition(7, typed));
        }
        assert_eq!(file.rule(8), rule(8, "(rule (head) (body) (not))"));
        assert_eq!(file.conditions(), (2, 2));
        assert!(file.declared().eq(["when", "a", "b"]));
    }

    #[test]
    fn first_words() {
        for (text, word) in [
            ("(atoms a)\n", Some("atoms")),
            ("\n; (vary)\n  ( atoms)\n", Some("atoms")),
            ("; (atoms)\n(min atoms)\n", Some("min")),
            ("(atomsx)\n", Some("atomsx")),
            ("\n;\n  ()\n", None),
        ] {
            let first = file(text);
            assert_eq!(first.first_word(), word.map(str::as_bytes), "{text}");
        }
    }
}
