//! From a program and its names to its text.

use crate::limits::Kind;
use crate::program::{Names, Program, Role};

fn list(text: &mut Vec<u8>, word: &str, atoms: &[usize], names: &Names) {
    text.push(b'(');
    text.extend_from_slice(word.as_bytes());
    for atom in atoms {
        text.push(b' ');
        text.extend_from_slice(&names[*atom]);
    }
    text.push(b')');
}

fn declaration(text: &mut Vec<u8>, word: &str, atoms: &[usize], names: &Names) {
    list(text, word, atoms, names);
    text.push(b'\n');
}

/// The text of a program.
pub fn write(program: &Program, names: &Names) -> Vec<u8> {
    let mut text = Vec::new();
    let with_role = |role: Role| -> Vec<usize> {
        (0..program.atoms)
            .filter(|&a| program.roles[a] == role)
            .collect()
    };
    match program.kind {
        Kind::Plain => {
            let atoms: Vec<usize> = (0..program.atoms).collect();
            declaration(&mut text, "atoms", &atoms, names);
        }
        Kind::Preference => {
            for class in 1..=program.classes {
                declaration(&mut text, "min", &with_role(Role::Minimised(class)), names);
            }
            declaration(&mut text, "vary", &with_role(Role::Varying), names);
            declaration(&mut text, "fix", &with_role(Role::Fixed), names);
        }
    }
    for rule in &program.rules {
        text.extend_from_slice(b"(rule ");
        list(&mut text, "head", &rule.head, names);
        text.push(b' ');
        list(&mut text, "body", &rule.body, names);
        text.push(b' ');
        list(&mut text, "not", &rule.not, names);
        text.extend_from_slice(b")\n");
    }
    text
}
