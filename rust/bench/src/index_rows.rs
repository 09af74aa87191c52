//! The rows of the index of rules: built, grown, and flips beside the test of every rule. Each answer is
//! compared with the known one before the turns, or the bench ends.

use crate::{microseconds, print_row, times, Contestant, TURNS};
use bench::flips::{self, Checked};
use bench::inputs::{self, Flips};
use std::cell::RefCell;
use std::hint::black_box;

/// The three calls; they give lengths or a refusal's number.
struct Calls {
    name: &'static str,
    index_rules: fn(&[u16], &mut [u16]) -> Result<usize, u64>,
    add_rule: AddRule,
    flip: Flip,
}

type AddRule = fn(&[u16], &[u16], &[u16], &mut [u16], &mut [u16]) -> Result<(usize, usize), u64>;
type Flip = fn(&[u16], &[u16], &[u16], u64, u64, &mut [u16]) -> Result<usize, u64>;

const RUST: Calls = Calls {
    name: "Rust",
    index_rules: flips::index_rules,
    add_rule: flips::add_rule,
    flip: flips::flip,
};

#[cfg(feature = "engine")]
const ENGINE: Calls = Calls {
    name: "engine",
    index_rules: |rules, out| {
        let words = rigtomato::lent::index_rules(rules, out);
        words.map_err(|refusal| refusal as u64)
    },
    add_rule: |rules, index, rule, rules_out, index_out| {
        let grown = rigtomato::lent::add_rule(rules, index, rule, rules_out, index_out);
        let grown = grown.map(|grown| (grown.words, grown.index_words));
        grown.map_err(|refusal| refusal as u64)
    },
    flip: |rules, index, list, set, atom, out| {
        let count = rigtomato::lent::flip(rules, index, list, set, atom, out);
        count.map_err(|refusal| refusal as u64)
    },
};

#[cfg(feature = "engine")]
const CALLS: &[Calls] = &[ENGINE, RUST];
#[cfg(not(feature = "engine"))]
const CALLS: &[Calls] = &[RUST];

/// A line with the time of one of so many calls.
fn print_times(what: &str, contestants: &[Contestant], calls: usize) {
    let times = times(TURNS, contestants).into_iter();
    let times: Vec<f64> = times.map(|time| time / calls as f64).collect();
    print_row(what, contestants, &times, microseconds);
}

fn index_row(what: &str, run: &Flips) {
    let contestant = |calls: &Calls| -> Contestant<'_> {
        let (name, index_rules) = (calls.name, calls.index_rules);
        let mut out = vec![0; run.index.len()];
        let words = index_rules(&run.rules, &mut out);
        assert!(out == run.index, "{name} indexes differently");
        let out = RefCell::new(out);
        let call = move || {
            let given = index_rules(black_box(&run.rules), &mut out.borrow_mut());
            assert_eq!(given, words);
        };
        (name, Box::new(call))
    };
    let contestants: Vec<Contestant> = CALLS.iter().map(contestant).collect();
    print_times(&format!("index, {what}"), &contestants, 1);
}

/// The last rule is added to the others.
fn add_row(what: &str, run: &Flips) {
    let (others, rule) = run.rules.split_at(run.last_rule);
    let mut others = others.to_vec();
    others[3] -= 1;
    let mut index = vec![0; run.index.len()];
    let words = flips::index_rules(&others, &mut index).expect("a store of the form");
    let (others, index) = (&others[..], &index[..words]);
    let contestant = |calls: &Calls| -> Contestant<'_> {
        let (name, add_rule) = (calls.name, calls.add_rule);
        let (mut rules, mut grown) = (vec![0; run.rules.len()], vec![0; run.index.len()]);
        let words = add_rule(others, index, rule, &mut rules, &mut grown);
        assert!(
            rules == run.rules && grown == run.index,
            "{name} adds differently"
        );
        let out = RefCell::new((rules, grown));
        let call = move || {
            let (rules, grown) = &mut *out.borrow_mut();
            let given = add_rule(black_box(others), index, rule, rules, grown);
            assert_eq!(given, words);
        };
        (name, Box::new(call))
    };
    let contestants: Vec<Contestant> = CALLS.iter().map(contestant).collect();
    print_times(&format!("add a rule, {what}"), &contestants, 1);
}

/// The rules that are broken after a flip, from those before, the set before and the atom.
type Flipped<'a> = Box<dyn Fn(&[u16], u64, u64, &mut [u16]) -> Result<usize, u64> + 'a>;

/// A contestant that makes all the flips.
fn flipping<'a>(run: &'a Flips, name: &'static str, flip: Flipped<'a>) -> Contestant<'a> {
    let mut out = vec![0; 4_200];
    for (i, (set, atom)) in run.flips.iter().enumerate() {
        let count = flip(&run.broken[i], *set, *atom, &mut out);
        let count = count.expect("a flip in the store");
        assert!(
            out[..count] == run.broken[i + 1],
            "{name} flips differently"
        );
    }
    let out = RefCell::new(out);
    let call = move || {
        let out = &mut *out.borrow_mut();
        for (i, (set, atom)) in run.flips.iter().enumerate() {
            let count = flip(black_box(&run.broken[i]), *set, *atom, out);
            assert_eq!(count, Ok(run.broken[i + 1].len()));
        }
    };
    (name, Box::new(call))
}

fn flip_rows(what: &str, run: &Flips) {
    let (rules, index) = (&run.rules, &run.index);
    let contestant = |calls: &Calls| {
        let flip = calls.flip;
        let flip = move |list: &[u16], set, atom, out: &mut [u16]| {
            flip(black_box(rules), index, list, set, atom, out)
        };
        flipping(run, calls.name, Box::new(flip))
    };
    let mut contestants: Vec<Contestant> = CALLS.iter().map(contestant).collect();
    let test_all = |_: &[u16], set: u64, atom: u64, out: &mut [u16]| {
        flips::checked_broken_rules(black_box(rules), set ^ (1 << atom), out)
    };
    contestants.push(flipping(run, "every rule", Box::new(test_all)));
    print_times(&format!("flip, {what}"), &contestants, run.flips.len());

    let checked = Checked::new(rules, index).expect("a store with its index");
    let flip = |list: &[u16], set, atom, out: &mut [u16]| {
        black_box(&checked).flip(list, set, atom as usize, out)
    };
    let test_all = |_: &[u16], set: u64, atom: u64, out: &mut [u16]| {
        let flipped = set ^ (1 << atom);
        Ok(flips::broken_rules(black_box(rules), flipped, out))
    };
    let contestants = [
        flipping(run, "Rust", Box::new(flip)),
        flipping(run, "every rule", Box::new(test_all)),
    ];
    let what = format!("flip behind the checks, {what}");
    print_times(&what, &contestants, run.flips.len());
}

pub fn print() {
    println!("\nThe index of a plain program of 60 atoms; each call checks what it is handed. Every rule:");
    println!("a test of all rules, by hand in Rust, with the check of the store or behind it.");
    for (places, what) in [
        (24_000, "4,200 rules, 24,000 places"),
        (12_600, "4,200 rules, 12,600 places"),
    ] {
        let run = inputs::flips(places);
        index_row(what, &run);
        add_row(what, &run);
        flip_rows(what, &run);
    }
}
