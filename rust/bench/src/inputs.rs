//! The inputs, from fixed seeds, so that each run of the table has the same.

use crate::flips;
use crate::twin::{Refused, Stores};
use crate::walks::{self, Answer};
use compare::conditions;
use compare::generate;
use compare::random::Random;
use reference::limits::{Kind, TEXT_LIMIT};
use reference::program::{Program, Role, Rule};
use reference::stores::{name_store, rule_store};
use reference::verdicts::place;

/// A rule store with a set or a start, and the answer to it.
pub struct Walk {
    pub rules: Vec<u16>,
    pub number: u64,
    pub answer: Answer,
}

const LARGEST: u64 = 1 << 40;

/// Different atoms, between so many.
fn some(random: &mut Random, atoms: usize, least: usize, most: usize) -> Vec<usize> {
    let count = random.within(least, most);
    random.choose(count, atoms)
}

/// A preference file of three classes and some varying atoms, none fixed.
fn file(atoms: usize, rules: usize) -> Vec<u16> {
    let mut random = Random::new(atoms as u64 * 10_000 + rules as u64);
    let mut file = Program::empty(Kind::Preference);
    file.atoms = atoms;
    file.classes = 3;
    let quarter = atoms / 4;
    file.roles = (0..atoms)
        .map(|atom| match atom / quarter {
            class @ 0..=2 => Role::Minimised(class + 1),
            _ => Role::Varying,
        })
        .collect();
    for _ in 0..rules {
        file.rules.push(Rule {
            head: some(&mut random, atoms, 2, 4),
            body: some(&mut random, atoms, 0, 3),
            not: Vec::new(),
        });
    }
    rule_store(&file)
}

/// A preferred set of such a file.
pub fn preferred(atoms: usize, rules: usize) -> Walk {
    let rules = file(atoms, rules);
    // All atoms together are a model; from there each better set, until none is better.
    let mut number = (1 << atoms) - 1;
    loop {
        let answer = walks::preferred(&rules, number, LARGEST);
        if answer.kind != 2 {
            return Walk {
                rules,
                number,
                answer,
            };
        }
        number = answer.value;
    }
}

/// The place behind the last state of the file, from which each model is beaten.
fn behind_the_last_state(rules: Vec<u16>) -> Walk {
    let atoms = usize::from(rules[1]);
    let mut number = 0;
    loop {
        let answer = walks::next_state(&rules, number, LARGEST);
        if answer.kind != 0 {
            return Walk {
                rules,
                number,
                answer,
            };
        }
        number = place(atoms, answer.value) + 1;
    }
}

pub fn listing(atoms: usize, rules: usize) -> Walk {
    behind_the_last_state(file(atoms, rules))
}

pub fn inverters_listing(count: usize) -> Walk {
    behind_the_last_state(rule_store(&generate::inverters(count)))
}

/// A plain program in which all atoms together are stable. The others follow from the first; without
/// it no set is a model of the rules of three atoms, each with one of the last ten, so that a walk
/// goes down far before a rule is broken. One rule in six is dropped by the reduct.
pub fn stable(atoms: usize, rules: usize) -> Walk {
    let mut random = Random::new(atoms as u64 * 10_000 + rules as u64 + 1);
    let number = (1 << atoms) - 1;
    loop {
        let rules = rule_store(&saturated(&mut random, atoms, rules));
        let answer = walks::stable(&rules, number, LARGEST);
        if answer.kind == 0 {
            return Walk {
                rules,
                number,
                answer,
            };
        }
    }
}

fn saturated(random: &mut Random, atoms: usize, rules: usize) -> Program {
    let mut plain = Program::empty(Kind::Plain);
    plain.atoms = atoms;
    for atom in 1..atoms {
        plain.rules.push(Rule {
            head: vec![atom],
            body: vec![0],
            not: Vec::new(),
        });
    }
    while plain.rules.len() < rules {
        let rule = rule_of_three(random, atoms);
        plain.rules.push(rule);
    }
    let order = random.choose(rules, rules);
    plain.rules = order.into_iter().map(|i| plain.rules[i].clone()).collect();
    plain
}

fn rule_of_three(random: &mut Random, atoms: usize) -> Rule {
    let early = random.choose(2, atoms - 11);
    let mut three: Vec<usize> = early.into_iter().map(|atom| atom + 1).collect();
    three.push(atoms - 1 - random.below(10));
    let (mut head, body): (Vec<usize>, _) = three.into_iter().partition(|_| random.once_in(2));
    head.push(0);
    let not = match random.once_in(6) {
        true => vec![random.below(atoms)],
        false => Vec::new(),
    };
    Rule { head, body, not }
}

/// A row of inverters and the preferred set in which the last of them is at fault.
pub fn one_fault(count: usize) -> Walk {
    Walk {
        rules: rule_store(&generate::inverters(count)),
        number: generate::one_at_fault(count, count - 1),
        answer: Answer {
            kind: 0,
            value: 0,
            units: 4 * 3u64.pow(count as u32) - 1,
        },
    }
}

/// A row of an odd number of inverters and the set of all faults without any wire, which the first
/// preferred set beats.
pub fn all_at_fault(count: usize) -> Walk {
    Walk {
        rules: rule_store(&generate::inverters(count)),
        number: (1 << count) - 1,
        answer: Answer {
            kind: 2,
            value: generate::one_at_fault(count, count - 1),
            units: 9 * (count as u64 + 1) / 2,
        },
    }
}

/// A long preference file: 256 atoms with long names, 1,024 rules, 8,192 places. One atom in
/// `every` stands in rules, from the first on.
pub fn long_file(every: usize) -> Vec<u8> {
    let mut random = Random::new(5);
    let mut file = Program::empty(Kind::Preference);
    file.atoms = 256;
    file.classes = 16;
    file.roles = (0..256)
        .map(|atom| match atom {
            0..=159 => Role::Minimised(atom / 10 + 1),
            160..=223 => Role::Varying,
            _ => Role::Fixed,
        })
        .collect();
    let mut four = || -> Vec<usize> {
        let chosen = random.choose(4, 256 / every).into_iter();
        chosen.map(|place| every * place).collect()
    };
    for _ in 0..1_024 {
        file.rules.push(Rule {
            head: four(),
            body: four(),
            not: Vec::new(),
        });
    }
    let names = generate::names_without_made(&mut random, Kind::Preference, 256);
    reference::writer::write(&file, &names)
}

/// A file of many conditions: 40 declared atoms with long names, and as many connectives as there is
/// room for, three to a condition; the rest are conditions of one name, up to the limit of rules.
pub fn conditions_file() -> Vec<u8> {
    let mut random = Random::new(208);
    let name = |i: usize| format!("object_{i:0>2}_of_a_long_loan").into_bytes();
    let names: Vec<Vec<u8>> = (0..40).map(name).collect();
    let declared = |part: &[Vec<u8>]| part.join(&b' ');
    let mut text = [
        b"(min ",
        &declared(&names[..10])[..],
        b")\n(vary ",
        &declared(&names[10..30]),
        b")\n(fix ",
        &declared(&names[30..]),
        b")\n",
    ]
    .concat();
    let connectives = 256 - names.len();
    let mut rules = 0;
    for i in 0.. {
        let here = if i < connectives / 3 { 3 } else { 0 };
        // Nine rules and one at most.
        rules += 3 * here + 1;
        if rules > 1_024 {
            break;
        }
        let condition = conditions::condition(&mut random, &names, here);
        let then = random.pick(&names);
        text.extend([b"(when ", &condition[..], b" (then ", then, b"))\n"].concat());
    }
    text
}

/// The text as a person types it: lists that stand apart, a comment behind every other line, and every
/// fourth time a blank line and a comment before it.
pub fn typed(text: &[u8]) -> Vec<u8> {
    let mut typed = Vec::new();
    for (number, line) in text.split_inclusive(|byte| *byte == b'\n').enumerate() {
        if number % 4 == 0 {
            typed.extend_from_slice(b"\n; what the table of the next part says\n");
        }
        let line = line.strip_suffix(b"\n").expect("an ended line");
        typed.extend_from_slice(b"  ");
        for byte in line {
            match byte {
                b'(' => typed.extend_from_slice(b"   ("),
                b')' => typed.extend_from_slice(b" )"),
                _ => typed.push(*byte),
            }
        }
        if number % 2 == 0 {
            typed.extend_from_slice(b"    ; as it was read at the opening");
        }
        typed.push(b'\n');
    }
    typed
}

/// The stores of a plain program with 4,200 rules in no order and nearly 24,000 places. Of many atoms
/// no rule repeats another; of three most do.
pub fn many_rules(atoms: usize) -> Stores {
    let mut random = Random::new(205 + atoms as u64);
    let mut plain = Program::empty(Kind::Plain);
    plain.atoms = atoms;
    for _ in 0..4_200 {
        let mut rule = Rule::default();
        for _ in 0..24_000 / 4_200 {
            let list = match random.below(3) {
                0 => &mut rule.head,
                1 => &mut rule.body,
                _ => &mut rule.not,
            };
            let atom = random.below(atoms);
            if !list.contains(&atom) {
                list.push(atom);
            }
        }
        plain.rules.push(rule);
    }
    let names = generate::names_without_made(&mut random, Kind::Plain, atoms);
    Stores {
        rules: rule_store(&plain),
        names: name_store(&names),
    }
}

/// A store with its index, and flips from the empty set on.
pub struct Flips {
    pub rules: Vec<u16>,
    /// Where the last rule's counts stand.
    pub last_rule: usize,
    pub index: Vec<u16>,
    /// The set before each flip, and the atom.
    pub flips: Vec<(u64, u64)>,
    /// The broken rules before each flip, and those after the last.
    pub broken: Vec<Vec<u16>>,
}

/// A plain program of 60 atoms with 4,200 rules and so many places in their lists.
fn plain_of_60_atoms(random: &mut Random, places: usize) -> Program {
    let mut plain = Program::empty(Kind::Plain);
    plain.atoms = 60;
    let mut left = places;
    for rules_left in (1..=4_200).rev() {
        let mut rule = Rule::default();
        let here = left / rules_left;
        left -= here;
        while rule.occurrences() < here {
            let list = match random.below(3) {
                0 => &mut rule.head,
                1 => &mut rule.body,
                _ => &mut rule.not,
            };
            let atom = random.below(60);
            if !list.contains(&atom) {
                list.push(atom);
            }
        }
        plain.rules.push(rule);
    }
    plain
}

/// 120 flips in the store of such a program.
pub fn flips(places: usize) -> Flips {
    let mut random = Random::new(209 + places as u64);
    let plain = plain_of_60_atoms(&mut random, places);
    let rules = rule_store(&plain);
    let last_rule = rules.len() - 3 - plain.rules[4_199].occurrences();
    let mut out = vec![0; 60 + places];
    let words = flips::index_rules(&rules, &mut out).expect("a store of the form");
    let index = out[..words].to_vec();
    let mut broken_by = |set| {
        let count = flips::broken_rules(&rules, set, &mut out);
        out[..count].to_vec()
    };
    let mut set = 0;
    let mut flips = Vec::new();
    let mut broken = vec![broken_by(set)];
    for _ in 0..120 {
        let atom = random.below(60) as u64;
        flips.push((set, atom));
        set ^= 1 << atom;
        broken.push(broken_by(set));
    }
    Flips {
        rules,
        last_rule,
        index,
        flips,
        broken,
    }
}

/// As many bytes as a text may have, of what says least: what they are, and how they are refused.
pub fn longest_texts() -> Vec<(&'static str, Vec<u8>, Refused)> {
    let filled = |what: &str| what.repeat(TEXT_LIMIT / what.len()).into_bytes();
    let lines = |what: &str| (2, (TEXT_LIMIT / what.len()) as u64 + 1);
    let mut spaces = filled(" ");
    spaces[TEXT_LIMIT - 1] = b'\n';
    let comment = "; of 16 bytes..\n";
    vec![
        ("spaces on one line", spaces, (2, 2)),
        ("spaces, unended", filled(" "), (2, 1)),
        ("comment lines", filled(comment), lines(comment)),
        ("empty comments", filled(";\n"), lines(";\n")),
        ("blank lines", filled("\n"), lines("\n")),
        ("opening brackets", filled("("), (2, 1)),
        ("brackets in pairs", filled("()"), (2, 1)),
        ("one word", filled("a"), (2, 1)),
        ("not upon not", condition("not ", "a", ""), (7, 3)),
        ("a condition's brackets", condition("(", "a", ")"), (18, 3)),
        (
            "a condition's opening brackets",
            condition("(", "a", ""),
            (2, 3),
        ),
        ("a row of and", condition("a and ", "a", ""), (7, 3)),
        ("names side by side", condition("a ", "", ""), (17, 3)),
    ]
}

/// A file of one condition, so many bytes long: parts before, one inside, and as many behind.
fn condition(before: &str, inside: &str, behind: &str) -> Vec<u8> {
    let frame = ["(vary a)\n(fix)\n(when ", " (then a))\n"];
    let room = TEXT_LIMIT - frame[0].len() - frame[1].len() - inside.len();
    let count = room / (before.len() + behind.len());
    let (before, behind) = (before.repeat(count), behind.repeat(count));
    let spaces = " ".repeat(room - before.len() - behind.len());
    [frame[0], &before, inside, &behind, &spaces, frame[1]]
        .concat()
        .into_bytes()
}

/// The largest clause file: 256 atoms, 1,024 clauses, 8,192 literals of either sign. Between two items
/// stand so many spaces, and before each clause so many comments.
pub fn clause_file(spaces: usize, comments: usize) -> Vec<u8> {
    let mut random = Random::new(6);
    let space = " ".repeat(spaces);
    let comment = "c the clause of one gate, as its table has it\n".repeat(comments);
    let mut text = "p cnf 256 1024\n".to_string();
    for _ in 0..1_024 {
        text += &comment;
        for atom in random.choose(8, 256) {
            let sign = *random.pick(&["", "-"]);
            text += &format!("{sign}{}{space}", atom + 1);
        }
        text += "0\n";
    }
    text.into_bytes()
}
