//! The two programs as they run, compared with what document 01 says that they print.

use crate::checker::Difference;
use crate::conditions;
use crate::generate::{either, preference, Size};
use crate::hand_typed::{damage, loosened};
use crate::random::Random;
use crate::spoil;
use reference::limits::Kind;
use reference::program::{Program, Role, Rule};
use reference::{programs, reader, writer};
use std::io::{self, Read, Write};
use std::path::{Path, PathBuf};
use std::process::{Command, Stdio};

/// Where the programs are: `RIGTOMATO_BIN_DIR`, or `target/bin` at the repository's root.
pub fn directory() -> PathBuf {
    match std::env::var_os("RIGTOMATO_BIN_DIR") {
        Some(directory) => directory.into(),
        None => Path::new(env!("CARGO_MANIFEST_DIR")).join("../../target/bin"),
    }
}

pub fn are_built(directory: &Path) -> bool {
    ["translate", "states"]
        .iter()
        .all(|name| directory.join(name).is_file())
}

fn output(program: &Path, input: &[u8]) -> io::Result<Vec<u8>> {
    let mut child = Command::new(program)
        .stdin(Stdio::piped())
        .stdout(Stdio::piped())
        .spawn()?;
    let mut stdin = child.stdin.take().expect("piped");
    let mut stdout = child.stdout.take().expect("piped");
    let input = input.to_vec();
    // A program may answer without having read a long input to its end.
    let feeder = std::thread::spawn(move || drop(stdin.write_all(&input)));
    let mut printed = Vec::new();
    stdout.read_to_end(&mut printed)?;
    feeder.join().expect("the feeder ends");
    child.wait()?;
    Ok(printed)
}

fn inputs(random: &mut Random) -> Vec<u8> {
    let long = Size {
        atoms: 256,
        rules: 600,
        list: 6,
    };
    let mut text = match random.below(12) {
        // Too many atoms to list, and translations around 65,536 bytes.
        0 => {
            let (mut program, names) = preference(random, long);
            while (1..=60).contains(&program.atoms) {
                program = preference(random, long).0;
            }
            let names = if names.len() == program.atoms {
                names
            } else {
                crate::generate::names(random, program.kind, program.atoms)
            };
            writer::write(&program, &names)
        }
        // Many states, with a rule that holds in all of them: a listing around 65,536 bytes.
        1 => {
            let atoms: Vec<usize> = (0..11).collect();
            let mut file = Program::empty(Kind::Preference);
            file.atoms = atoms.len();
            file.roles = vec![Role::Varying; atoms.len()];
            file.rules.push(Rule {
                head: atoms.clone(),
                body: atoms,
                not: Vec::new(),
            });
            let names = crate::generate::names(random, file.kind, file.atoms);
            writer::write(&file, &names)
        }
        2 | 3 => conditions::file(random),
        _ => {
            let (program, names) = either(random, Size::SMALL);
            writer::write(&program, &names)
        }
    };
    if random.once_in(2) {
        text = loosened(random, &text);
    }
    match random.below(9) {
        0..=3 => {}
        4 => match random.once_in(2) {
            true => damage(random, &mut text),
            false => conditions::damage(random, &mut text),
        },
        5 => {
            let length = random.within(65_534, 65_538);
            text.resize(length, *random.pick(b"a\n ;"));
        }
        _ => spoil::text(random, &mut text),
    }
    text
}

/// May the listing take longer than anybody waits? A damaged text can still be a file of many
/// atoms.
fn lists_for_long(text: &[u8]) -> bool {
    reader::read(text).is_ok_and(|(program, _)| (13..=60).contains(&program.atoms))
}

/// Runs both programs on random inputs; gives the number of comparisons.
pub fn compare(directory: &Path, seed: u64, inputs_count: u64) -> Result<u64, Difference> {
    let mut random = Random::new(seed);
    let mut comparisons = 0;
    for _ in 0..inputs_count {
        let text = inputs(&mut random);
        let mut expected = vec![("translate", programs::translate(&text))];
        if !lists_for_long(&text) {
            expected.push(("states", programs::states(&text)));
        }
        for (name, expected) in expected {
            comparisons += 1;
            let printed = output(&directory.join(name), &text).map_err(|error| Difference {
                text: format!("{name} does not run: {error}"),
            })?;
            if printed != expected {
                return Err(Difference {
                    text: format!(
                        "{name}, seed {seed}, input:\n{}\nexpected:\n{}\nprinted:\n{}",
                        String::from_utf8_lossy(&text),
                        String::from_utf8_lossy(&expected),
                        String::from_utf8_lossy(&printed)
                    ),
                });
            }
        }
    }
    Ok(comparisons)
}
