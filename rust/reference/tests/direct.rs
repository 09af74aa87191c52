//! Document 02, W-208: the preferred states, cut to the planner's atoms, are those of the conditions
//! read directly, each from just one state.

mod common;

use common::draw::Draw;
use reference::direct::Direct;
use reference::limits::Kind;
use reference::program::Names;
use reference::verdicts::{holds, next_state, place, Next};
use reference::{reader, writer};

/// A condition over these names, with at most so many connectives, which are counted down.
fn condition(draw: &mut Draw, names: &[Vec<u8>], left: &mut usize) -> String {
    if *left == 0 || draw.below(4) == 0 {
        let name = String::from_utf8(names[draw.below(names.len())].clone()).unwrap();
        return match draw.below(6) {
            0 => format!("({name})"),
            _ => name,
        };
    }
    *left -= 1;
    let part = |draw: &mut Draw, left: &mut usize| {
        let part = condition(draw, names, left);
        match draw.below(2) {
            0 => format!("({part})"),
            _ => part,
        }
    };
    match draw.below(3) {
        0 => format!("not {}", part(draw, left)),
        1 => {
            let first = part(draw, left);
            format!("{first} and {}", part(draw, left))
        }
        _ => {
            let first = part(draw, left);
            format!("{first} or {}", part(draw, left))
        }
    }
}

/// A file with conditions among its rules.
fn file(draw: &mut Draw) -> String {
    let program = draw.program(Kind::Preference, 6, 4);
    let names: Names = (0..program.atoms)
        .map(|atom| match draw.below(8) {
            // No condition of these files has so many connectives.
            0 => format!("T.{}", 100 + atom).into_bytes(),
            _ => vec![b'a' + atom as u8],
        })
        .collect();
    let text = String::from_utf8(writer::write(&program, &names)).unwrap();
    let mut lines: Vec<String> = text.lines().map(str::to_string).collect();
    let behind = lines
        .iter()
        .position(|line| line.starts_with("(fix"))
        .unwrap()
        + 1;
    let mut left = 6;
    if !names.is_empty() {
        for _ in 0..draw.below(4) {
            let condition = condition(draw, &names, &mut left);
            let then = String::from_utf8(names[draw.below(names.len())].clone()).unwrap();
            let at = behind + draw.below(lines.len() + 1 - behind);
            lines.insert(at, format!("(when {condition} (then {then}))"));
        }
    }
    lines.join("\n") + "\n"
}

/// All preferred states of the file's stores, by going on from each.
fn states(text: &str) -> (Vec<u64>, Names) {
    let (program, names) = reader::read(text.as_bytes()).expect(text);
    let mut found = Vec::new();
    let mut start = 0;
    while let Next::State { set, .. } = next_state(&program, start, 1 << 40) {
        found.push(set);
        start = place(program.atoms, set) + 1;
    }
    (found, names)
}

/// The set of the store's atoms, cut to the planner's.
fn cut(set: u64, names: &Names, planner: &Names) -> u64 {
    let number = |name: &Vec<u8>| {
        names
            .iter()
            .position(|other| other == name)
            .expect("it is left")
    };
    let is_in = |atom: &usize| holds(set, number(&planner[*atom]));
    (0..planner.len()).filter(is_in).map(|atom| 1 << atom).sum()
}

fn same_states(text: &str) -> Direct {
    let direct = reader::read_directly(text.as_bytes()).expect(text);
    let planner = direct.of_the_planner();
    let (states, names) = states(text);
    let mut cut: Vec<u64> = states
        .iter()
        .map(|&set| cut(set, &names, &planner.names))
        .collect();
    cut.sort_unstable();
    // As lists, so each comes from just one state.
    assert_eq!(cut, planner.preferred_sets(), "{text}");
    // What is left are the planner's atoms and one for each connective.
    let connectives: usize = direct
        .conditions
        .iter()
        .map(|then| then.condition.connectives.len())
        .sum();
    assert_eq!(names.len(), planner.names.len() + connectives, "{text}");
    // At most three rules a connective, and one a condition.
    let (program, _) = reader::read(text.as_bytes()).unwrap();
    let made = program.rules.len() - direct.file.rules.len();
    let most = 3 * connectives + direct.conditions.len();
    assert!((2 * connectives..=most).contains(&made), "{text}");
    direct
}

#[test]
fn files_at_random() {
    let mut draw = Draw(208);
    let (mut connectives, mut several) = (0, 0);
    for _ in 0..4_000 {
        let direct = same_states(&file(&mut draw));
        connectives += direct
            .conditions
            .iter()
            .map(|then| then.condition.connectives.len())
            .sum::<usize>();
        several += usize::from(direct.conditions.len() > 1);
    }
    assert!(
        connectives > 4_000 && several > 1_000,
        "{connectives} {several}"
    );
}

/// Every condition of up to two connectives over two names, in small files of each role.
#[test]
fn every_small_condition() {
    let mut conditions = vec!["a".to_string(), "b".to_string()];
    for _ in 0..2 {
        let mut longer = Vec::new();
        for one in &conditions {
            longer.push(format!("not ({one})"));
            longer.push(format!("not {one}"));
            for other in ["a", "b"] {
                for connective in ["and", "or"] {
                    longer.push(format!("{one} {connective} {other}"));
                    longer.push(format!("{other} {connective} ({one})"));
                }
            }
        }
        conditions.extend(longer);
    }
    for declared in [
        "(min a b)\n(vary c)\n(fix)\n",
        "(min a)\n(min c)\n(vary b)\n(fix)\n",
        "(min c)\n(vary a)\n(fix b)\n",
        "(min b)\n(vary c)\n(fix a)\n",
    ] {
        for condition in &conditions {
            for then in ["a", "b", "c"] {
                let line = format!("(when {condition} (then {then}))\n");
                same_states(&format!("{declared}{line}"));
                let rule = "(rule (head a c) (body) (not))\n";
                same_states(&format!("{declared}{rule}{line}"));
            }
        }
    }
}

/// The request's words by one file: the lamp is out when there is no current, or it is broken.
#[test]
fn a_planner_s_file() {
    let text = "(min fuse)\n(min lamp)\n(vary current)\n(fix dark day)\n\
        (when not current or lamp and not day (then dark))\n\
        (when not fuse (then current))\n\
        (when dark and not day (then lamp))\n";
    let direct = same_states(text);
    assert_eq!(direct.conditions.len(), 3);
    assert_eq!(states(text).0.len(), 4);
}
