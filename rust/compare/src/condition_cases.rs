//! The families of files with conditions.

use crate::cases::{read, texts_of_stores, verdicts};
use crate::checker::{Checked, Checker};
use crate::conditions::{bracketed, condition, damage, file, nearly, soup};
use crate::hand_typed;
use crate::random::Random;
use crate::spoil;
use reference::conditions::DEPTH_LIMIT;
use reference::limits::TEXT_LIMIT;
use reference::stores::{name_store, rule_store};
use reference::{reader, writer};

/// The most atoms whose sets are all tried.
const WALKED: usize = 9;

/// A file with conditions: read, what it gives written in both ways, translated, read again and
/// walked through; then the same with one to three damages, typed in some way.
pub fn condition_files(check: &mut Checker, random: &mut Random) -> Checked {
    let text = file(random);
    read(check, random, &text)?;
    if let Ok((program, names)) = reader::read(&text) {
        let (rules, stored) = (rule_store(&program), name_store(&names));
        texts_of_stores(check, random, &rules, &stored)?;
        read(check, random, &writer::write(&program, &names))?;
        if program.atoms <= WALKED {
            verdicts(check, random, &program)?;
        }
    }
    for turn in 0..24 {
        let mut text = text.clone();
        for _ in 0..random.within(1, 3) {
            match turn % 4 {
                0..=2 => damage(random, &mut text),
                _ => spoil::names_of_text(random, &mut text),
            }
        }
        if turn % 2 == 0 {
            text = hand_typed::loosened(random, &text);
            if turn % 6 == 0 {
                hand_typed::damage(random, &mut text);
            }
        }
        read(check, random, &text)?;
    }
    Ok(())
}

/// Single lines behind declarations of every kind: words and brackets without order, and conditions
/// that are nearly right.
pub fn condition_lines(check: &mut Checker, random: &mut Random) -> Checked {
    const BEFORE: [&str; 12] = [
        "(vary a b)\n(fix)\n",
        "(vary a b)\n(fix)\n",
        "(vary a b)\n(fix)\n",
        "(min a)\n(vary b)\n(fix T.2)\n",
        "(min T.1)\n(vary a)\n(fix b)\n",
        "(vary a b T.256)\n(fix zz)\n",
        "(vary a b not and or)\n(fix when then)\n",
        "(vary a b)\n(fix)\n(when not b (then a))\n",
        "(vary a b T.3)\n(fix)\n(when not b or a (then a))\n",
        "(vary a b)\n",
        "(atoms a b)\n",
        "",
    ];
    let names = [b"a".to_vec(), b"b".to_vec()];
    for _ in 0..30 {
        let before = random.pick(&BEFORE).as_bytes();
        let most = *random.pick(&[3, 5, 9]);
        let line = match random.below(4) {
            0 | 1 => nearly(random, &names),
            _ => soup(random, most),
        };
        let behind = *random.pick(&[
            "",
            "",
            "(when a and b (then a))\n",
            "(rule (head T.1) (body) (not))\n",
        ]);
        read(check, random, &[before, &line, behind.as_bytes()].concat())?;
    }
    Ok(())
}

/// So many names.
fn many(count: usize) -> Vec<Vec<u8>> {
    (0..count).map(|i| format!("a{i}").into_bytes()).collect()
}

fn declared(names: &[Vec<u8>], fixed: &[u8]) -> Vec<u8> {
    [b"(vary ", &names.join(&b' ')[..], b")\n(fix", fixed, b")\n"].concat()
}

/// A file whose conditions come near a limit or pass it, with what else may be wrong on a line.
pub fn large_condition_files(check: &mut Checker, random: &mut Random) -> Checked {
    let atoms = *random.pick(&[256, 255, 250, 200, 100, 3]);
    let names = many(atoms);
    let room = 256 - atoms;
    let connectives = match random.below(3) {
        0 => room,
        1 => random.within(room.saturating_sub(2), room + 3),
        _ => random.within(0, room.min(60)),
    };
    let mut lines = Vec::new();
    let mut left = connectives;
    while left > 0 || lines.is_empty() {
        let most = *random.pick(&[1, 3, 20, 300]);
        let here = random.within(1, most).min(left);
        left -= here;
        let condition = condition(random, &names, here);
        let then = random.pick(&names).clone();
        lines.push([b"(when ", &condition[..], b" (then ", &then, b"))\n"].concat());
    }
    // Rules up to the limit, or occurrences.
    match random.below(4) {
        0 => {
            let rules = 1_024usize.saturating_sub(3 * connectives + random.within(0, 30));
            let before = b"(rule (head) (body) (not))\n".repeat(rules);
            lines.insert(0, before);
        }
        1 => {
            let all = names.join(&b' ');
            let rule = [b"(rule (head ", &all[..], b") (body ", &all, b") (not))\n"].concat();
            let places = 8_192usize.saturating_sub(7 * connectives + random.within(0, 40));
            lines.insert(0, rule.repeat((places / (2 * atoms)).min(900)));
            let rest = places % (2 * atoms);
            let head = many(rest.min(atoms)).join(&b' ');
            lines.insert(
                1,
                [b"(rule (head ", &head[..], b") (body) (not))\n"].concat(),
            );
        }
        _ => {}
    }
    let fixed = match atoms < 250 && random.once_in(3) {
        true => format!(" T.{}", random.within(1, connectives + 3)).into_bytes(),
        false => Vec::new(),
    };
    let text = [&declared(&names, &fixed), &lines.concat()[..]].concat();
    read(check, random, &text)?;
    for _ in 0..3 {
        let mut text = text.clone();
        match random.below(3) {
            0 => damage(random, &mut text),
            1 => spoil::names_of_text(random, &mut text),
            _ => text = hand_typed::loosened(random, &text),
        }
        read(check, random, &text)?;
    }
    Ok(())
}

/// A file with one condition, whose line is the third.
fn of(condition: &[u8]) -> Vec<u8> {
    [b"(vary a b)\n(fix)\n(when ", condition, b" (then a))\n"].concat()
}

/// Each limit met and passed by one, and the longest lines. Done once a run.
pub fn limits(check: &mut Checker) -> Checked {
    for depth in DEPTH_LIMIT - 2..=DEPTH_LIMIT + 2 {
        let deep = |inside: &[u8]| bracketed(depth, inside);
        for condition in [
            deep(b"a"),
            deep(b""),
            deep(b"A"),
            deep(b"zz"),
            deep(b"a b"),
            [&deep(b"a")[..], b" and ", &deep(b"b")].concat(),
            [b"not(", &deep(b"a")[..], b" or b)"].concat(),
            [&deep(b"a")[..], b")"].concat(),
            b"(not "
                .repeat(depth)
                .into_iter()
                .chain(*b"a")
                .chain(b")".repeat(depth))
                .collect(),
            b"(a and b) or "
                .repeat(depth)
                .into_iter()
                .chain(*b"a")
                .collect(),
        ] {
            check.read(&of(&condition), 400, 800)?;
        }
    }
    for atoms in [256, 255, 254, 200] {
        let before = declared(&many(atoms), b"");
        for connectives in [255 - atoms.min(255), 256 - atoms, 257 - atoms] {
            for word in ["not ", "a0 and ", "a1 or "] {
                let condition = [&word.repeat(connectives), "a0"].concat();
                let line = format!("(when {condition} (then a0))\n");
                check.read(&[&before, line.as_bytes()].concat(), 2_000, 3_000)?;
            }
        }
    }
    for (line, rules, occurrences) in [
        ("(when a0 (then a1))\n", 1, 2),
        ("(when not a0 (then a1))\n", 3, 6),
        ("(when a0 and a1 (then a1))\n", 4, 9),
        ("(when a0 or a1 (then a1))\n", 4, 9),
        ("(when a0 and a0 (then a1))\n", 4, 8),
        ("(when a0 or a0 (then a1))\n", 4, 8),
        ("(when not a0 and a0 (then a1))\n", 6, 13),
    ] {
        let names = many(64);
        for more in [0, 1, 2] {
            let before = b"(rule (head) (body) (not))\n".repeat(1_023 + more - rules);
            let text = [&declared(&names, b""), &before, line.as_bytes()].concat();
            check.read(&text, 9_000, 400)?;
            let head = names.join(&b' ');
            let full = [b"(rule (head ", &head[..], b") (body) (not))\n"].concat();
            let rest = 64 + 63 + more - occurrences;
            let (one, other) = (rest / 2, rest - rest / 2);
            let (one, other) = (many(one).join(&b' '), many(other).join(&b' '));
            let last = [
                b"(rule (head ",
                &one[..],
                b") (body ",
                &other,
                b") (not))\n",
            ]
            .concat();
            let rules = [&full.repeat(126)[..], &last, line.as_bytes()].concat();
            let text = [&declared(&names, b""), &rules[..]].concat();
            check.read(&text, 9_000, 400)?;
        }
    }
    longest_lines(check)
}

fn longest_lines(check: &mut Checker) -> Checked {
    for (part, inside, behind) in [
        ("not ", "a", ""),
        ("not ", "", ""),
        ("(", "a", ")"),
        ("(", "", ")"),
        ("(", "a", ""),
        (")", "a", ""),
        ("not(", "a", ")"),
        ("a and ", "a", ""),
        ("a or ", "a", ""),
        ("(a and ", "b", ")"),
        ("a ", "", ""),
        ("() ", "", ""),
        ("zz or ", "a", ""),
        ("N.a or ", "a", ""),
        ("A or ", "a", ""),
    ] {
        let count = (TEXT_LIMIT - 60) / (part.len() + behind.len());
        let (before, behind) = (part.repeat(count), behind.repeat(count));
        let text = of(format!("{before}{inside}{behind}").as_bytes());
        check.read(&text, 50, 50)?;
    }
    Ok(())
}

/// Every short line of these pieces, in this frame.
fn every(check: &mut Checker, frame: [&str; 2], pieces: &[&str], most: usize) -> Checked {
    let mut lines = vec![String::new()];
    for _ in 0..=most {
        for line in &lines {
            let text = format!("{}{line}{}", frame[0], frame[1]);
            check.read(text.as_bytes(), 120, 60)?;
        }
        let longer = |line: &String| {
            let line = line.clone();
            pieces.iter().map(move |piece| format!("{line}{piece}"))
        };
        lines = lines.iter().flat_map(longer).collect();
    }
    Ok(())
}

/// Every short condition, and every short line around one. Done once a run.
pub fn short_lines(check: &mut Checker) -> Checked {
    let words = ["(", ")", "not ", "and ", "or ", "a "];
    every(check, ["(vary a)\n(fix)\n(when ", "(then a))\n"], &words, 5)?;
    let words = ["not ", "and ", "or ", "a ", "b "];
    every(
        check,
        ["(vary a)\n(fix b)\n(when a ", "(then b))\n"],
        &words,
        5,
    )?;
    let frame = ["(when", "(then", "a", "(then a)", ")", "(", " ", ";", "\n"];
    every(check, ["(vary a)\n(fix)\n", "\n"], &frame, 4)?;
    every(check, ["(vary a)\n(fix)\n(when a", "\n"], &frame, 4)
}
