//! Runs the program and looks at what it prints.
#![allow(dead_code)]

use std::io::{Read, Write};
use std::path::{Path, PathBuf};
use std::process::{Child, Command, Stdio};
use std::thread;

pub const FILE_A: &str = "(min sensor)\n(min lamp)\n(vary dark)\n(fix)\n\
    (rule (head sensor lamp) (body) (not))\n(rule (head dark) (body lamp) (not))\n";

/// 60 fixed atoms; the empty set is the only state. The rules are broken only by the last atom, so
/// that it takes over 2^60 units to find no other.
pub fn endless() -> String {
    let rules: String = (0..59)
        .map(|i| format!("(rule (head a59) (body a{i}) (not))\n"))
        .collect();
    let last = "(rule (head) (body a59) (not))\n";
    format!("(vary)\n(fix{})\n{rules}{last}", names(60))
}

/// ` a0 a1 a2 ..`.
pub fn names(count: usize) -> String {
    (0..count).map(|i| format!(" a{i}")).collect()
}

/// A rule with all these names, of which there is at least one. No choice breaks it, so it only
/// makes the atoms belong to the program.
pub fn tautology(names: &str) -> String {
    format!("(rule (head{names}) (body{names}) (not))\n")
}

/// So many varying atoms, all in a rule that holds in every set.
pub fn varying(count: usize) -> String {
    let names = names(count);
    format!("(vary{names})\n(fix)\n{}", tautology(&names))
}

/// The same with fixed atoms.
pub fn fixed(count: usize) -> String {
    let names = names(count);
    format!("(vary)\n(fix{names})\n{}", tautology(&names))
}

#[derive(Debug, PartialEq, Eq)]
pub struct Ran {
    pub status: Option<i32>,
    pub out: String,
    pub err: String,
}

pub fn front() -> Command {
    Command::new(env!("CARGO_BIN_EXE_rigtomato"))
}

pub fn example(name: &str) -> String {
    under("../../examples", name)
}

pub fn stored(name: &str) -> String {
    under("tests/stored", name)
}

fn under(directory: &str, name: &str) -> String {
    let path: PathBuf = [env!("CARGO_MANIFEST_DIR"), directory, name]
        .iter()
        .collect();
    assert!(path.is_file(), "{} is missing", path.display());
    path.to_str().unwrap().to_string()
}

pub fn text_of(path: &str) -> String {
    std::fs::read_to_string(path).unwrap()
}

/// A file that is there as long as this.
pub struct Temporary {
    pub path: String,
}

impl Temporary {
    /// The name is one that no other test uses.
    pub fn new(name: &str, text: &str) -> Temporary {
        let name = format!("rigtomato-{}-{name}", std::process::id());
        let path = std::env::temp_dir().join(name);
        std::fs::write(&path, text).unwrap();
        let path = path.to_str().unwrap().to_string();
        Temporary { path }
    }
}

impl Drop for Temporary {
    fn drop(&mut self) {
        let _ = std::fs::remove_file(&self.path);
    }
}

pub fn start(command: &mut Command) -> Child {
    command
        .stdin(Stdio::piped())
        .stdout(Stdio::piped())
        .stderr(Stdio::piped())
        .spawn()
        .expect("it can be run")
}

fn all(mut from: impl Read + Send + 'static) -> thread::JoinHandle<Vec<u8>> {
    thread::spawn(move || {
        let mut bytes = Vec::new();
        from.read_to_end(&mut bytes).unwrap();
        bytes
    })
}

/// The exit status and the two outputs, with this input.
pub fn run_bytes(command: &mut Command, input: &[u8]) -> (Option<i32>, Vec<u8>, Vec<u8>) {
    let mut child = start(command);
    let out = all(child.stdout.take().unwrap());
    let err = all(child.stderr.take().unwrap());
    // It may answer without having read a long input to its end.
    let _ = child.stdin.take().unwrap().write_all(input);
    let status = child.wait().unwrap();
    (status.code(), out.join().unwrap(), err.join().unwrap())
}

pub fn run(command: &mut Command, input: &str) -> Ran {
    let (status, out, err) = run_bytes(command, input.as_bytes());
    let text = |bytes| String::from_utf8(bytes).unwrap();
    Ran {
        status,
        out: text(out),
        err: text(err),
    }
}

/// Runs the program with these words, parted by spaces, and this input.
pub fn rigtomato(words: &str, input: &str) -> Ran {
    run(front().args(words.split_whitespace()), input)
}

pub fn ran(status: i32, out: &str, err: &str) -> Ran {
    Ran {
        status: Some(status),
        out: out.to_string(),
        err: err.to_string(),
    }
}

/// The two proved programs.
pub fn proved(name: &str) -> PathBuf {
    let path = compare::programs::directory().join(name);
    let built = "`tools/build` at the repository's root builds it";
    assert!(
        Path::new(&path).is_file(),
        "{} is missing: {built}",
        path.display()
    );
    path
}

/// A JSON value, as far as the program writes them.
#[derive(Debug, PartialEq, Eq)]
pub enum Json {
    Number(u64),
    Text(String),
    List(Vec<Json>),
    Object(Vec<(String, Json)>),
}

impl Json {
    /// One value on one line.
    pub fn line(text: &str) -> Json {
        let line = text.strip_suffix('\n').expect("a line");
        assert!(!line.contains('\n'), "one line: {text}");
        let (value, rest) = value(line);
        assert_eq!(rest, "", "after the value");
        value
    }

    pub fn get(&self, name: &str) -> &Json {
        let Json::Object(fields) = self else {
            panic!("no object: {self:?}");
        };
        let found = fields.iter().find(|(field, _)| field == name);
        &found.unwrap_or_else(|| panic!("no {name}: {self:?}")).1
    }

    /// The names of an object's fields.
    pub fn fields(&self) -> Vec<&str> {
        let Json::Object(fields) = self else {
            panic!("no object: {self:?}");
        };
        fields.iter().map(|(name, _)| name.as_str()).collect()
    }

    pub fn list(&self) -> &[Json] {
        let Json::List(values) = self else {
            panic!("no list: {self:?}");
        };
        values
    }

    pub fn text(&self) -> &str {
        let Json::Text(text) = self else {
            panic!("no text: {self:?}");
        };
        text
    }

    pub fn texts(&self) -> Vec<&str> {
        self.list().iter().map(Json::text).collect()
    }

    pub fn number(&self) -> u64 {
        let Json::Number(number) = self else {
            panic!("no number: {self:?}");
        };
        *number
    }
}

fn value(text: &str) -> (Json, &str) {
    match text.as_bytes().first() {
        Some(b'{') => {
            let (fields, rest) = items(&text[1..], '}', |text| {
                let (name, rest) = quoted(text);
                let (value, rest) = value(rest.strip_prefix(':').expect("a colon"));
                ((name, value), rest)
            });
            (Json::Object(fields), rest)
        }
        Some(b'[') => {
            let (values, rest) = items(&text[1..], ']', value);
            (Json::List(values), rest)
        }
        Some(b'"') => {
            let (text, rest) = quoted(text);
            (Json::Text(text), rest)
        }
        _ => {
            let end = text
                .find(|c: char| !c.is_ascii_digit())
                .unwrap_or(text.len());
            (
                Json::Number(text[..end].parse().expect("a number")),
                &text[end..],
            )
        }
    }
}

/// Items with commas between them, up to the closing character.
fn items<T>(mut text: &str, close: char, item: fn(&str) -> (T, &str)) -> (Vec<T>, &str) {
    let mut found = Vec::new();
    if let Some(rest) = text.strip_prefix(close) {
        return (found, rest);
    }
    loop {
        let (next, rest) = item(text);
        found.push(next);
        match rest.strip_prefix(',') {
            Some(rest) => text = rest,
            None => return (found, rest.strip_prefix(close).expect("an end")),
        }
    }
}

/// A text in quotes, of which the program escapes nothing but quotes and backslashes here.
fn quoted(text: &str) -> (String, &str) {
    let text = text.strip_prefix('"').expect("a quote");
    let mut found = String::new();
    let mut characters = text.char_indices();
    while let Some((at, character)) = characters.next() {
        match character {
            '"' => return (found, &text[at + 1..]),
            '\\' => found.push(characters.next().expect("what is escaped").1),
            _ => found.push(character),
        }
    }
    panic!("no end of a text: {text}");
}
