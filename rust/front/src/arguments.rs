//! The words of a call: a file, atoms, options.

use crate::commands::Command;
use std::ffi::{OsStr, OsString};

/// What a command is called with.
#[derive(Debug, Default)]
pub struct Call {
    pub file: OsString,
    pub atoms: Vec<String>,
    pub budget: Option<u64>,
    pub first: Option<u64>,
    pub json: bool,
    pub asp: bool,
    pub check: bool,
    pub solver: Option<OsString>,
}

type Taken = Result<(), String>;

/// What an option does to the call.
pub enum Take {
    Flag(fn(&mut Call)),
    /// What the value is, and what is done with it.
    Value(&'static str, fn(&mut Call, &OsStr) -> Taken),
}

pub struct Choice {
    pub name: &'static str,
    pub does: &'static str,
    pub take: Take,
}

impl Choice {
    /// `--budget N`, `--json`.
    pub fn usage(&self) -> String {
        match self.take {
            Take::Flag(_) => self.name.to_string(),
            Take::Value(value, _) => format!("{} {value}", self.name),
        }
    }
}

pub static BUDGET: Choice = Choice {
    name: "--budget",
    does: "the most units of a verdict or of each next state, at most and by default 2^40",
    take: Take::Value("N", |call, value| {
        call.budget = Some(number(value)?);
        Ok(())
    }),
};

pub static FIRST: Choice = Choice {
    name: "--first",
    does: "stop after N states; the last line is then (first N)",
    take: Take::Value("N", |call, value| match number(value)? {
        0 => Err("1 is the least".to_string()),
        first => {
            call.first = Some(first);
            Ok(())
        }
    }),
};

pub static JSON: Choice = Choice {
    name: "--json",
    does: "print one JSON object on one line",
    take: Take::Flag(|call| call.json = true),
};

pub static ASP: Choice = Choice {
    name: "--asp",
    does: "print it as clingo and DLV2 read it",
    take: Take::Flag(|call| call.asp = true),
};

pub static CHECK: Choice = Choice {
    name: "--check",
    does: "hold each state to the engine's verdict, with 2^24 units each (at most 60 atoms)",
    take: Take::Flag(|call| call.check = true),
};

pub static SOLVER: Choice = Choice {
    name: "--solver",
    does: "the clingo to run; without it, clingo on PATH",
    take: Take::Value("PATH", |call, value| {
        call.solver = Some(value.to_os_string());
        Ok(())
    }),
};

/// Past the largest number that fits, the largest: it is over each limit all the same.
fn number(value: &OsStr) -> Result<u64, String> {
    let digits = value.to_str().unwrap_or("");
    if digits.is_empty() || !digits.bytes().all(|byte| byte.is_ascii_digit()) {
        return Err(format!("{} is no number", value.display()));
    }
    Ok(digits.parse().unwrap_or(u64::MAX))
}

fn take_option<'w>(
    call: &mut Call,
    command: &Command,
    word: &str,
    rest: &mut impl Iterator<Item = &'w OsString>,
) -> Taken {
    let (name, given) = match word.split_once('=') {
        Some((name, value)) => (name, Some(OsStr::new(value))),
        None => (word, None),
    };
    let mut choices = command.options.iter();
    let Some(choice) = choices.find(|choice| choice.name == name) else {
        return Err(format!("{} has no option {name}", command.name));
    };
    match (&choice.take, given) {
        (Take::Flag(set), None) => {
            set(call);
            Ok(())
        }
        (Take::Flag(_), Some(_)) => Err(format!("{name} takes no value")),
        (Take::Value(what, take), given) => {
            let value = given.or_else(|| rest.next().map(OsString::as_os_str));
            let value = value.ok_or_else(|| format!("{name} needs a value: {what}"))?;
            take(call, value).map_err(|words| format!("{name}: {words}"))
        }
    }
}

/// Takes the words after the command's name.
pub fn parse(command: &Command, words: &[OsString]) -> Result<Call, String> {
    let mut call = Call::default();
    let mut operands = Vec::new();
    let mut rest = words.iter();
    while let Some(word) = rest.next() {
        match word.to_str() {
            Some("--") => operands.extend(rest.by_ref()),
            Some(option) if option.len() > 1 && option.starts_with('-') => {
                take_option(&mut call, command, option, &mut rest)?;
            }
            _ => operands.push(word),
        }
    }
    let Some((file, atoms)) = operands.split_first() else {
        return Err(format!("{} needs a FILE", command.name));
    };
    if let (Some(more), false) = (atoms.first(), command.takes_atoms) {
        return Err(format!(
            "{} takes one FILE: {}",
            command.name,
            more.display()
        ));
    }
    call.file = file.to_os_string();
    call.atoms = atoms
        .iter()
        .map(|atom| atom.to_string_lossy().into())
        .collect();
    Ok(call)
}

#[cfg(test)]
mod tests {
    use super::*;
    use crate::commands::named;

    fn parsed(words: &str) -> Result<Call, String> {
        let mut words: Vec<OsString> = words.split_whitespace().map(OsString::from).collect();
        let name = words.remove(0);
        parse(named(name.to_str().unwrap()).unwrap(), &words)
    }

    #[test]
    fn options_stand_anywhere() {
        for words in [
            "preferred f a b --budget 7 --json",
            "preferred --budget 7 --json f a b",
            "preferred --json f a --budget=7 b",
            "preferred --json --budget=7 -- f a b",
        ] {
            let call = parsed(words).unwrap();
            assert_eq!(
                (call.file, call.budget, call.json),
                ("f".into(), Some(7), true)
            );
            assert_eq!(call.atoms, ["a", "b"]);
        }
        assert_eq!(parsed("states -").unwrap().file, "-");
        assert_eq!(parsed("states -- -x").unwrap().file, "-x");
    }

    #[test]
    fn wrong_words() {
        for (words, said) in [
            ("states", "states needs a FILE"),
            ("states a b", "states takes one FILE: b"),
            ("states a --asp", "states has no option --asp"),
            ("states a -x", "states has no option -x"),
            ("states a --json=1", "--json takes no value"),
            ("states a --budget", "--budget needs a value: N"),
            ("states a --budget -1", "--budget: -1 is no number"),
            ("states a --budget=", "--budget:  is no number"),
            ("states a --first 0", "--first: 1 is the least"),
        ] {
            assert_eq!(parsed(words).unwrap_err(), said);
        }
    }

    #[test]
    fn large_numbers() {
        let call = parsed("states a --budget 99999999999999999999").unwrap();
        assert_eq!(call.budget, Some(u64::MAX));
    }
}
