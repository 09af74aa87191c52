//! The rule store (words) and the name store (bytes).

use crate::limits::Kind;
use crate::names::allowed;
use crate::program::{Names, Program, Role, Rule};
use crate::refusal::Reason;

const VARYING: usize = 17;
const FIXED: usize = 18;

fn class_word(role: Role) -> usize {
    match role {
        Role::Minimised(class) => class,
        Role::Varying => VARYING,
        Role::Fixed => FIXED,
    }
}

/// The rule store of a program.
pub fn rule_store(program: &Program) -> Vec<u16> {
    let kind = match program.kind {
        Kind::Plain => 0,
        Kind::Preference => 1,
    };
    let mut words = vec![kind, program.atoms, program.classes, program.rules.len()];
    for role in &program.roles {
        words.push(class_word(*role));
    }
    for rule in &program.rules {
        for list in rule.lists() {
            words.push(list.len());
        }
        for list in rule.lists() {
            words.extend_from_slice(list);
        }
    }
    words.into_iter().map(|w| w as u16).collect()
}

/// The name store of these names.
pub fn name_store(names: &Names) -> Vec<u8> {
    let mut bytes = Vec::new();
    for name in names {
        bytes.push(name.len() as u8);
        bytes.extend_from_slice(name);
    }
    bytes
}

/// Takes words from the front of what is left of a store.
struct Words<'a> {
    left: &'a [u16],
}

impl Words<'_> {
    fn take(&mut self) -> Option<usize> {
        let (first, rest) = self.left.split_first()?;
        self.left = rest;
        Some(usize::from(*first))
    }

    fn take_list(&mut self, length: usize) -> Option<Vec<usize>> {
        (0..length).map(|_| self.take()).collect()
    }
}

fn role_of_word(word: usize) -> Option<Role> {
    match word {
        1..=16 => Some(Role::Minimised(word)),
        VARYING => Some(Role::Varying),
        FIXED => Some(Role::Fixed),
        _ => None,
    }
}

fn all_different<T: PartialEq>(items: &[T]) -> bool {
    (0..items.len()).all(|i| !items[..i].contains(&items[i]))
}

/// The program that the words say, or nothing when they are not of the form.
fn program_of_words(words: &[u16]) -> Option<Program> {
    let mut words = Words { left: words };
    let kind = match words.take()? {
        0 => Kind::Plain,
        1 => Kind::Preference,
        _ => return None,
    };
    let atoms = words.take()?;
    let classes = words.take()?;
    let rules = words.take()?;
    if atoms > kind.atom_limit() || classes > kind.class_limit() || rules > kind.rule_limit() {
        return None;
    }
    let mut program = Program::empty(kind);
    program.atoms = atoms;
    program.classes = classes;
    if kind == Kind::Preference {
        let class_words = words.take_list(atoms)?;
        if class_words.windows(2).any(|pair| pair[0] > pair[1]) {
            return None;
        }
        for word in class_words {
            let role = role_of_word(word)?;
            if matches!(role, Role::Minimised(class) if class > classes) {
                return None;
            }
            program.roles.push(role);
        }
    }
    for _ in 0..rules {
        let counts = words.take_list(3)?;
        let rule = Rule {
            head: words.take_list(counts[0])?,
            body: words.take_list(counts[1])?,
            not: words.take_list(counts[2])?,
        };
        for list in rule.lists() {
            if list.iter().any(|&atom| atom >= atoms) || !all_different(list) {
                return None;
            }
        }
        if kind == Kind::Preference && !rule.not.is_empty() {
            return None;
        }
        program.rules.push(rule);
    }
    if program.occurrences() > kind.occurrence_limit() || !words.left.is_empty() {
        return None;
    }
    Some(program)
}

/// The program of a rule store of either kind, or refusal 10.
pub fn check_rules(words: &[u16]) -> Result<Program, Reason> {
    program_of_words(words).ok_or(Reason::RuleStore)
}

/// The program of a rule store of this kind, or refusal 10.
pub fn check_rules_of(kind: Kind, words: &[u16]) -> Result<Program, Reason> {
    let program = check_rules(words)?;
    if program.kind == kind {
        Ok(program)
    } else {
        Err(Reason::RuleStore)
    }
}

fn names_of_bytes(program: &Program, mut bytes: &[u8]) -> Option<Names> {
    let mut names = Names::new();
    for _ in 0..program.atoms {
        let (length, rest) = bytes.split_first()?;
        let length = usize::from(*length);
        if length > rest.len() {
            return None;
        }
        let (name, rest) = rest.split_at(length);
        if !allowed(program.kind, name) {
            return None;
        }
        names.push(name.to_vec());
        bytes = rest;
    }
    if !bytes.is_empty() || !all_different(&names) {
        return None;
    }
    Some(names)
}

/// The names of a name store that fits the program, or refusal 14.
pub fn check_names(program: &Program, bytes: &[u8]) -> Result<Names, Reason> {
    names_of_bytes(program, bytes).ok_or(Reason::NameStore)
}
