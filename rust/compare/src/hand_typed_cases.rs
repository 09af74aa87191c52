//! The families of hand-typed files.

use crate::cases::{lengths, read};
use crate::checker::{Checked, Checker};
use crate::generate::{either, partly_used, plain, preference, Size};
use crate::hand_typed::{damage, loosened};
use crate::random::Random;
use crate::spoil;
use reference::limits::TEXT_LIMIT;
use reference::stores::{name_store, rule_store};
use reference::{lent, reader, writer};

/// The canonical text of what a text's stores say, with outputs exact, short and long.
fn canonical_of(check: &mut Checker, random: &mut Random, text: &[u8]) -> Checked {
    let Ok((program, names)) = reader::read(text) else {
        return Ok(());
    };
    let (rules, names) = (rule_store(&program), name_store(&names));
    let mut most = vec![0; TEXT_LIMIT];
    let length = lent::write_canonical(&rules, &names, &mut most).expect("stores of a text");
    for out_len in lengths(random, length) {
        check.write_canonical(&rules, &names, out_len)?;
    }
    Ok(())
}

/// An accepted file typed in several ways; the same with one to three damages, of the form, of the
/// words or of the typing; and no file at all.
pub fn hand_typed_files(check: &mut Checker, random: &mut Random) -> Checked {
    let (program, names) = match random.below(3) {
        0 => partly_used(random, Size::SMALL),
        _ => either(random, Size::SMALL),
    };
    let strict = writer::write(&program, &names);
    for _ in 0..3 {
        let text = loosened(random, &strict);
        read(check, random, &text)?;
        canonical_of(check, random, &text)?;
    }
    for turn in 0..24 {
        let mut text = strict.clone();
        match turn % 3 {
            0 => spoil::text(random, &mut text),
            1 => spoil::names_of_text(random, &mut text),
            _ => {}
        }
        text = loosened(random, &text);
        for _ in 0..random.below(3) + usize::from(turn % 3 == 2) {
            damage(random, &mut text);
        }
        read(check, random, &text)?;
    }
    let soup = spoil::soup(random, 16);
    let text = loosened(random, &soup);
    read(check, random, &text)
}

/// A long file, typed otherwise and damaged.
pub fn large_hand_typed_files(check: &mut Checker, random: &mut Random) -> Checked {
    let (program, names) = match random.once_in(2) {
        true => preference(
            random,
            Size {
                atoms: 256,
                rules: 300,
                list: 6,
            },
        ),
        false => plain(
            random,
            Size {
                atoms: 1_100,
                rules: 900,
                list: 4,
            },
        ),
    };
    let strict = writer::write(&program, &names);
    for damages in [0, 0, 1, 2] {
        let mut text = loosened(random, &strict);
        for _ in 0..damages {
            damage(random, &mut text);
        }
        read(check, random, &text)?;
    }
    Ok(())
}

/// The longest text, met and passed by one, of bytes and lines that say little. Done once a run.
pub fn limits(check: &mut Checker) -> Checked {
    for length in [TEXT_LIMIT, TEXT_LIMIT + 1] {
        for start in [
            "",
            "(vary)\n(fix)\n",
            "(vary)\n(fix)",
            "(atoms",
            "( ",
            "(vary) ;",
        ] {
            for fill in [
                ";",
                ")",
                " ;\n",
                ";\n",
                "; a comment\n",
                " \n",
                "()\n",
                "( ",
            ] {
                let mut text = start.as_bytes().to_vec();
                while text.len() + fill.len() <= length {
                    text.extend_from_slice(fill.as_bytes());
                }
                text.resize(length, b' ');
                check.read(&text, 50, 50)?;
                text.pop();
                text.push(b'\n');
                check.read(&text, 50, 50)?;
                text.truncate(length - 2);
                text.extend_from_slice(b")\n");
                check.read(&text, 50, 50)?;
            }
        }
    }
    Ok(())
}

/// Lines of each length up to some blocks of bytes, with what ends a run of spaces, a word or a comment
/// at each place of a block. Done once a run.
pub fn block_edges(check: &mut Checker) -> Checked {
    const RULE: &str = "(rule(head)(body)(not))";
    for count in 0..=70 {
        let (spaces, word) = (" ".repeat(count), "a".repeat(count));
        for line in [
            format!("{spaces}{RULE}"),
            format!("{RULE}{spaces}"),
            format!("{RULE}{spaces};"),
            format!("{RULE};{spaces}"),
            format!("{RULE};{word}"),
            format!("(rule(head{spaces})(body)(not))"),
            format!("(rule(head)(body){spaces}(not))"),
            format!("(rule(head)(body)(not)){spaces}{RULE}"),
            format!("(rule(head)(body{word})(not))"),
            format!("(rule(head)(body {word})(not))"),
            format!("(rule(head)(body {word};)(not))"),
            format!("{spaces}\t"),
            format!("{spaces};"),
            format!(";{word}"),
            format!(";{word};"),
            spaces,
            word,
        ] {
            for text in [
                format!("(vary)\n(fix)\n{line}\n"),
                format!("(vary)\n(fix)\n{line}"),
                format!("(vary)\n(fix)\n{line}\n(rule\n"),
                format!("{line}\n(atoms)\n"),
                format!("(atoms)\n{line}\n{RULE}\n{line}"),
            ] {
                check.read(text.as_bytes(), 20, 20)?;
            }
        }
    }
    Ok(())
}

/// Every text of up to so many of these pieces, behind what stands before it.
fn every(check: &mut Checker, before: &str, pieces: &[&str], most: usize) -> Checked {
    let mut texts = vec![before.to_string()];
    for _ in 0..=most {
        for text in &texts {
            check.read(text.as_bytes(), 20, 20)?;
        }
        let longer = |text: &String| {
            let text = text.clone();
            pieces.iter().map(move |piece| format!("{text}{piece}"))
        };
        texts = texts.iter().flat_map(longer).collect();
    }
    Ok(())
}

/// Every short text of pieces that mean something. Done once a run.
pub fn short_texts(check: &mut Checker) -> Checked {
    every(check, "", &["(", ")", "atoms", "a", " ", ";", "\n"], 5)?;
    every(check, "(vary)\n", &["(", ")", "fix", " ", ";", "\n"], 5)?;
    let lists = [
        "(rule", "(head", "a", "(body)", "(not)", ")", " ", ";", "\n",
    ];
    every(check, "(atoms a)\n", &lists, 4)?;
    let rule = "(rule(head a)(body)(not";
    every(check, &format!("(atoms a)\n{rule}"), &lists, 4)
}
