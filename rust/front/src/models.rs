//! Reads the models that a solver prints.

use crate::asp::{AFTER, BEFORE};
use crate::sets::Set;
use rigtomato::Program;
use std::collections::HashMap;
use std::io::{BufRead, BufReader, Read};
use std::sync::{Arc, Mutex, MutexGuard};
use std::thread;
use std::time::Duration;

/// Of a long listing models are left to gather for a moment: a reader that waits is woken for
/// each of them, and that costs the solver more than printing it.
const NAP: Duration = Duration::from_micros(100);
const MANY: usize = 100;
/// The most bytes of a line that a message shows.
const SHOWN: usize = 200;

/// The models so far, as sets of the file's atoms, for the reader and whoever watches it.
#[derive(Clone, Default)]
pub struct Models {
    sets: Arc<Mutex<Vec<Set>>>,
}

impl Models {
    fn lock(&self) -> MutexGuard<'_, Vec<Set>> {
        self.sets.lock().expect("no holder panics")
    }

    pub fn count(&self) -> usize {
        self.lock().len()
    }

    pub fn take(&self) -> Vec<Set> {
        std::mem::take(&mut *self.lock())
    }
}

pub struct Reader {
    /// Each atom as the solver prints it.
    printed: Vec<Vec<u8>>,
    atoms: HashMap<Vec<u8>, usize>,
    /// Which atom came last after each atom, and at the end of this list at a line's start. A
    /// solver keeps to one order, so mostly it is the one that comes again.
    after: Vec<usize>,
    models: Models,
}

impl Reader {
    pub fn new(program: &Program, models: Models) -> Reader {
        let names = program.names();
        let printed = names.map(|name| format!("{BEFORE}{name}{AFTER}").into_bytes());
        let printed: Vec<Vec<u8>> = printed.collect();
        Reader {
            atoms: printed.iter().cloned().zip(0..).collect(),
            after: vec![0; printed.len() + 1],
            printed,
            models,
        }
    }

    /// The atom at the front of what is left of a line, after this atom.
    fn atom(&mut self, left: &[u8], before: usize) -> Option<usize> {
        let guess = self.after[before];
        if left.starts_with(self.printed.get(guess)?) {
            return Some(guess);
        }
        let end = left.iter().position(|byte| *byte == b' ');
        let atom = *self.atoms.get(&left[..end.unwrap_or(left.len())])?;
        self.after[before] = atom;
        Some(atom)
    }

    /// A line of atoms with a space between them; the empty set is an empty line.
    fn model(&mut self, line: &[u8]) -> Option<Set> {
        let mut set = Set::default();
        let mut left = line;
        let mut before = self.printed.len();
        while !left.is_empty() {
            let atom = self.atom(left, before)?;
            set.insert(atom);
            before = atom;
            left = match &left[self.printed[atom].len()..] {
                [b' ', rest @ ..] if !rest.is_empty() => rest,
                [] => &[],
                _ => return None,
            };
        }
        Some(set)
    }

    /// Reads to the end, or up to a line that is no model.
    pub fn read(mut self, output: impl Read) -> Result<(), String> {
        let mut output = BufReader::with_capacity(1 << 16, output);
        let mut line = Vec::new();
        loop {
            if output.buffer().is_empty() && self.models.count() >= MANY {
                thread::sleep(NAP);
            }
            line.clear();
            let read = output.read_until(b'\n', &mut line);
            read.map_err(|error| format!("the solver's output: {error}"))?;
            match line.strip_suffix(b"\n") {
                None if line.is_empty() => return Ok(()),
                None => return Err(unreadable(&line)),
                Some(line) if is_summary(line) => {}
                Some(line) => match self.model(line) {
                    Some(model) => self.models.lock().push(model),
                    None => return Err(unreadable(line)),
                },
            }
        }
    }
}

/// The last line sums up what the exit status says too.
fn is_summary(line: &[u8]) -> bool {
    [b"SATISFIABLE".as_slice(), b"UNSATISFIABLE", b"UNKNOWN"].contains(&line)
}

fn unreadable(line: &[u8]) -> String {
    let first = line[..line.len().min(SHOWN)].escape_ascii();
    format!("the solver printed what is no model: {first}")
}

#[cfg(test)]
mod tests {
    use super::*;

    fn read(output: &str) -> Result<Vec<Vec<usize>>, String> {
        let text = b"(min a ab)\n(vary b)\n(fix)\n(rule (head a ab) (body b) (not))\n";
        let program = Program::read(text).unwrap();
        let models = Models::default();
        Reader::new(&program, models.clone()).read(output.as_bytes())?;
        let sets = models.take();
        Ok(sets.into_iter().map(|set| set.atoms().collect()).collect())
    }

    #[test]
    fn model_lines() {
        assert_eq!(read(""), Ok(vec![]));
        assert_eq!(read("UNSATISFIABLE\n"), Ok(vec![]));
        assert_eq!(read("\nSATISFIABLE\n"), Ok(vec![vec![]]));
        let output = "holds(\"b\") holds(\"a\")\nholds(\"b\") holds(\"ab\")\n\
            \nholds(\"ab\")\nholds(\"b\") holds(\"a\") holds(\"ab\")\nSATISFIABLE\n";
        let expected = [vec![0, 2], vec![1, 2], vec![], vec![1], vec![0, 1, 2]];
        assert_eq!(read(output), Ok(expected.to_vec()));
    }

    #[test]
    fn what_is_no_model() {
        for line in [
            "holds(\"c\")\n",
            "holds(a)\n",
            "holds(\"a\") \n",
            " holds(\"a\")\n",
            "holds(\"a\")  holds(\"b\")\n",
            "holds(\"a\")holds(\"b\")\n",
            "holds(\"a\") n(\"b\")\n",
            "Answer: 1\n",
            "holds(\"a\")",
            "holds(\"a",
        ] {
            assert!(read(line).is_err(), "{line}");
            assert!(read(&format!("holds(\"a\")\n{line}")).is_err(), "{line}");
        }
        let shown = read("holds(\"\u{e9}\n").unwrap_err();
        assert_eq!(
            shown,
            r#"the solver printed what is no model: holds(\"\xc3\xa9"#
        );
    }
}
