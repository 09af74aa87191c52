//! `states` and `translate` print what the two proved programs print. Where those refuse for their
//! 65,536 bytes, the second implementation says what is to be printed.

mod common;

use common::{example, front, proved, run_bytes, tautology, varying};
use compare::generate::{either, names, partly_used, preference, Size};
use compare::hand_typed::{damage, loosened};
use compare::random::Random;
use compare::spoil;
use compare::{conditions, fresh_seed};
use reference::limits::{Kind, BUDGET_LIMIT, PROGRAM_LIMIT, VERDICT_ATOM_LIMIT};
use reference::program::{Names, Program};
use reference::refusal::{Reason, Refusal};
use reference::verdicts::{holds, next_state, place, Next};
use reference::{reader, translator, writer};
use std::process::Command;

fn listed(file: &Program, names: &Names) -> Result<Vec<u8>, Refusal> {
    if file.atoms > VERDICT_ATOM_LIMIT {
        return Err(Refusal::without_line(Reason::TooManyAtoms));
    }
    let mut output = Vec::new();
    let mut total = 0;
    let mut start = 0;
    while let Next::State { set, .. } = next_state(file, start, BUDGET_LIMIT) {
        output.extend_from_slice(b"(state");
        for atom in (0..file.atoms).filter(|&atom| holds(set, atom)) {
            output.push(b' ');
            output.extend_from_slice(&names[atom]);
        }
        output.extend_from_slice(b")\n");
        total += 1;
        start = place(file.atoms, set) + 1;
    }
    output.extend_from_slice(format!("(total {total})\n").as_bytes());
    Ok(output)
}

/// What a program without its limits would print.
fn unlimited(name: &str, text: &[u8]) -> Result<Vec<u8>, Refusal> {
    let (file, names) = reader::read(text)?;
    if file.kind != Kind::Preference {
        return Err(Refusal::without_line(Reason::RuleStore));
    }
    if name == "states" {
        return listed(&file, &names);
    }
    let (plain, plain_names) = translator::translate(&file, &names);
    Ok(writer::write(&plain, &plain_names))
}

fn refused_line(refusal: Refusal) -> Vec<u8> {
    format!("(refused {} {})\n", refusal.number(), refusal.line).into_bytes()
}

fn expected(name: &str, text: &[u8]) -> Vec<u8> {
    let printed = run_bytes(&mut Command::new(proved(name)), text).1;
    let limited = text.len() > PROGRAM_LIMIT || printed == b"(refused 9 0)\n";
    match limited {
        true => unlimited(name, text).unwrap_or_else(refused_line),
        false => printed,
    }
}

fn compare_one(name: &str, text: &[u8]) {
    let expected = expected(name, text);
    let (status, out, err) = run_bytes(front().args([name, "-"]), text);
    let shown = || String::from_utf8_lossy(text).into_owned();
    assert!(out == expected, "{name} on:\n{}", shown());
    let refused = expected.starts_with(b"(refused ");
    assert_eq!(status, Some(i32::from(refused)), "{name} on:\n{}", shown());
    assert_eq!(err.is_empty(), !refused, "{name} on:\n{}", shown());
}

/// May the listing take longer than anybody waits?
fn lists_for_long(text: &[u8]) -> bool {
    reader::read(text).is_ok_and(|(program, _)| (13..=60).contains(&program.atoms))
}

fn compare_both(text: &[u8]) {
    compare_one("translate", text);
    if !lists_for_long(text) {
        compare_one("states", text);
    }
}

#[test]
fn examples() {
    for name in [
        "file_a",
        "file_a_typed",
        "inverters",
        "inverters_by_rank",
        "touch",
        "catalogue",
        "whole_catalogue",
        "conditions",
    ] {
        let path = example(&format!("{name}.pref"));
        let text = std::fs::read(&path).unwrap();
        compare_both(&text);
        for command in ["states", "translate"] {
            let (status, out, _) = run_bytes(front().args([command, &path]), b"");
            assert_eq!((status, out), (Some(0), expected(command, &text)));
        }
    }
}

#[test]
fn each_refusal() {
    let many = |what: &str, count: usize| -> String { what.repeat(count) };
    let names = |count: usize| -> String { (0..count).map(|i| format!(" a{i}")).collect() };
    let texts = [
        (1, many("a", 917_505)),
        (2, String::new()),
        (2, "(vary a) (fix)\n".to_string()),
        (2, "; nothing\n\n".to_string()),
        (2, "(vary)\n(fix)\n; the end".to_string()),
        (2, "(vary)\n(fix)".to_string()),
        (2, "(vary)\r\n(fix)\r\n".to_string()),
        (2, "(min a)\n".to_string()),
        (2, "(atomsx)\n".to_string()),
        (3, "(min N.a)\n".to_string()),
        (3, "(min aaaaaaaaaaaaaaaaaaaaaaaaa)\n".to_string()),
        (4, "(min a)\n(vary a)\n".to_string()),
        (
            5,
            "(vary)\n(fix)\n(rule (head a) (body) (not))\n".to_string(),
        ),
        (
            6,
            "(vary a)\n(fix)\n(rule (head) (body a a) (not))\n".to_string(),
        ),
        (7, many("(min)\n", 17)),
        (7, format!("(vary{})\n(fix)\n", names(257))),
        (
            8,
            "(vary)\n(fix a)\n(rule (head) (body) (not a))\n".to_string(),
        ),
        (17, "(vary a)\n(fix)\n(when a and (then a))\n".to_string()),
        (
            18,
            format!(
                "(vary a)\n(fix)\n(when {}a{} (then a))\n",
                many("(", 33),
                many(")", 33)
            ),
        ),
        (10, "(atoms a)\n".to_string()),
        (10, "; plain\n\n ( atoms a )\n".to_string()),
    ];
    for (number, text) in texts {
        compare_both(text.as_bytes());
        let start = format!("(refused {number} ");
        for name in ["states", "translate"] {
            assert!(expected(name, text.as_bytes()).starts_with(start.as_bytes()));
        }
    }
    let over_60 = varying(61);
    compare_both(over_60.as_bytes());
    assert_eq!(expected("states", over_60.as_bytes()), b"(refused 11 0)\n");
}

/// The engine's own limits, past those of the programs.
#[test]
fn long_texts_and_listings() {
    let rule = |i: usize| {
        let (one, other) = (i % 8, 8);
        format!("(rule (head atom_named_{one} atom_named_{other}) (body atom_named_9) (not))\n")
    };
    let rules: String = (0..1_024).map(rule).collect();
    let names: String = (0..10).map(|i| format!(" atom_named_{i}")).collect();
    let text = format!("(vary{names})\n(fix)\n{rules}");
    assert!(text.len() > 65_536);
    compare_both(text.as_bytes());

    let names: String = (0..11).map(|i| format!(" a_long_name_{i}")).collect();
    let many_states = format!("(vary{names})\n(fix)\n{}", tautology(&names));
    assert!(expected("states", many_states.as_bytes()).len() > 65_536);
    compare_both(many_states.as_bytes());

    for length in [65_535, 65_536, 65_537, 917_504, 917_505] {
        compare_both(&vec![b'a'; length]);
    }
}

fn random_text(random: &mut Random) -> Vec<u8> {
    const LONG: Size = Size {
        atoms: 256,
        rules: 600,
        list: 6,
    };
    match random.below(20) {
        16.. => conditions::file(random),
        0 => {
            let (program, _) = preference(random, LONG);
            let names = names(random, program.kind, program.atoms);
            writer::write(&program, &names)
        }
        1 => spoil::soup(random, 12),
        2..=5 => {
            let (file, names) = partly_used(random, Size::SMALL);
            writer::write(&file, &names)
        }
        _ => {
            let (program, names) = either(random, Size::SMALL);
            writer::write(&program, &names)
        }
    }
}

/// `COMPARE_SEED` repeats a run.
#[test]
fn random_files() {
    let seed = std::env::var("COMPARE_SEED").ok();
    let seed = seed.and_then(|seed| seed.parse().ok());
    let seed = seed.unwrap_or_else(fresh_seed);
    println!("seed {seed}");
    let mut random = Random::new(seed);
    for round in 0..400 {
        let mut text = random_text(&mut random);
        match round % 4 {
            1 => spoil::text(&mut random, &mut text),
            2 => spoil::names_of_text(&mut random, &mut text),
            _ => {}
        }
        if random.once_in(2) {
            text = loosened(&mut random, &text);
        }
        if round % 4 == 3 {
            match random.once_in(2) {
                true => damage(&mut random, &mut text),
                false => conditions::damage(&mut random, &mut text),
            }
        }
        compare_both(&text);
    }
}
