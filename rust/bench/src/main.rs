//! Prints the table. Speeds are by processor time, the best of several turns taken
//! alternately.

mod index_rows;

use bench::clauses;
use bench::inputs::{self, Walk};
use bench::twin::{self, Refused};
use bench::walks::{self, Answer};
use reference::lent;
use std::cell::RefCell;
use std::hint::black_box;

/// A thing to time, with the name of its column.
type Contestant<'a> = (&'static str, Box<dyn Fn() + 'a>);

extern "C" {
    /// C's `clock`: the processor time that this process has used, in millionths of a second.
    fn clock() -> std::ffi::c_long;
}

/// Processor seconds used so far, so that other work on the machine counts less.
fn processor_seconds() -> f64 {
    // SAFETY: it takes nothing and only answers.
    (unsafe { clock() }) as f64 / 1e6
}

/// The processor seconds of one call, by the mean of some.
fn time_of(call: &dyn Fn()) -> f64 {
    let start = processor_seconds();
    call();
    let mut calls = 1;
    loop {
        let taken = processor_seconds() - start;
        if taken > 0.1 {
            return taken / f64::from(calls);
        }
        // As many again: the clock is read seldom, so that this takes no time.
        (0..calls).for_each(|_| call());
        calls *= 2;
    }
}

/// The processor seconds of one call, the least of so many turns, for each contestant.
fn times(turns: usize, contestants: &[Contestant]) -> Vec<f64> {
    let mut best = vec![f64::INFINITY; contestants.len()];
    for _ in 0..turns {
        for (place, (_, call)) in contestants.iter().enumerate() {
            best[place] = best[place].min(time_of(call));
        }
    }
    best
}

const TURNS: usize = 7;

/// One line of the table: what is shown of each contestant's time, and the engine's speed as a ratio
/// to the others.
fn print_row(what: &str, contestants: &[Contestant], times: &[f64], shown: impl Fn(f64) -> String) {
    print!("{what:<57}");
    for ((name, _), time) in contestants.iter().zip(times) {
        print!("  {name} {}", shown(*time));
    }
    if contestants[0].0 == "engine" {
        for ((name, _), time) in contestants.iter().zip(times).skip(1) {
            print!("  engine/{name} {:.2}", time / times[0]);
        }
    }
    println!();
}

/// So many millions of a unit in a second.
fn speed(amount: f64, unit: &str) -> impl Fn(f64) -> String + '_ {
    move |time| format!("{:>8.1} {unit}", amount / time / 1e6)
}

fn microseconds(time: f64) -> String {
    format!("{:>8.2} us", time * 1e6)
}

fn row(what: &str, amount: f64, unit: &str, contestants: &[Contestant]) {
    let times = times(TURNS, contestants);
    print_row(what, contestants, &times, speed(amount, unit));
}

#[cfg(feature = "engine")]
mod engine {
    use bench::walks::Answer;
    use rigtomato::sys;

    fn answer(answer: sys::VerdictAnswer) -> Answer {
        Answer {
            kind: answer.kind,
            value: answer.value,
            units: answer.units,
        }
    }

    // SAFETY, for each: the pointer and the length are one slice.
    pub fn preferred(rules: &[u16], set: u64, budget: u64) -> Answer {
        answer(unsafe { sys::rigtomato_preferred(rules.as_ptr(), rules.len(), set, budget) })
    }

    pub fn stable(rules: &[u16], set: u64, budget: u64) -> Answer {
        answer(unsafe { sys::rigtomato_stable(rules.as_ptr(), rules.len(), set, budget) })
    }

    pub fn next_state(rules: &[u16], start: u64, budget: u64) -> Answer {
        answer(unsafe { sys::rigtomato_next_state(rules.as_ptr(), rules.len(), start, budget) })
    }
}

type Call = fn(&[u16], u64, u64) -> Answer;

/// The calls to compare, the engine first where it is there.
fn calls(which: usize) -> Vec<(&'static str, Call)> {
    let c: [Call; 3] = [walks::c::preferred, walks::c::stable, walks::c::next_state];
    let rust: [Call; 3] = [walks::preferred, walks::stable, walks::next_state];
    let others = [("C", c[which]), ("Rust", rust[which])];
    engine_call(which).into_iter().chain(others).collect()
}

#[cfg(feature = "engine")]
fn engine_call(which: usize) -> Option<(&'static str, Call)> {
    let engine: [Call; 3] = [engine::preferred, engine::stable, engine::next_state];
    Some(("engine", engine[which]))
}

#[cfg(not(feature = "engine"))]
fn engine_call(_: usize) -> Option<(&'static str, Call)> {
    None
}

/// Each call gives the answer that is known, or the bench ends.
fn walkers(which: usize, walk: &Walk) -> Vec<Contestant<'_>> {
    let contestant = |(name, call): (&'static str, Call)| -> Contestant<'_> {
        let given = move || {
            let answer = call(black_box(&walk.rules), walk.number, 1 << 40);
            assert_eq!(answer, walk.answer, "{name} answers differently");
        };
        (name, Box::new(given))
    };
    calls(which).into_iter().map(contestant).collect()
}

/// A line for a walk; gives each contestant's time.
fn walk_row(what: &str, which: usize, walk: &Walk, turns: usize) -> Vec<f64> {
    let contestants = walkers(which, walk);
    let times = times(turns, &contestants);
    let what = format!("{what}, {} units", walk.answer.units);
    let speed = speed(walk.answer.units as f64, "Mu/s");
    print_row(&what, &contestants, &times, speed);
    times
}

const PREFERRED: usize = 0;
const STABLE: usize = 1;
const LISTING: usize = 2;

fn walk_rows() {
    let (atoms, rules) = (24, 200);
    let size = format!("{atoms} atoms, {rules} rules");
    let preferred = inputs::preferred(atoms, rules);
    walk_row(&format!("preferred, {size}"), PREFERRED, &preferred, TURNS);
    let stable = inputs::stable(atoms, rules);
    walk_row(&format!("stable, {size}"), STABLE, &stable, TURNS);
    let listing = inputs::listing(atoms, rules);
    walk_row(&format!("listing, {size}"), LISTING, &listing, TURNS);
    let listing = inputs::inverters_listing(9);
    walk_row("listing, 9 inverters", LISTING, &listing, TURNS);
}

/// So few units that a call's time is that of reading and sorting the rules.
fn beaten_row(inverters: usize) {
    let walk = inputs::all_at_fault(inverters);
    let what = format!(
        "preferred, {inverters} inverters, {} atoms, beaten, {} units",
        walk.rules[1], walk.answer.units
    );
    let contestants = walkers(PREFERRED, &walk);
    let times = times(TURNS, &contestants);
    print_row(&what, &contestants, &times, microseconds);
}

/// The cells of a line of the second table.
type Cells = [String; 6];

fn print_cells(cells: &Cells) {
    let [inverters, atoms, sets, full_time, units, time] = cells;
    println!("{inverters:>9} {atoms:>6} {sets:>14} {full_time:>12} {units:>18} {time:>12}");
}

fn milliseconds(time: f64) -> String {
    format!("{:.3} ms", time * 1e3)
}

/// Prints the line of a row of inverters; gives its line of the second table.
fn inverters_row(inverters: usize, turns: usize) -> Cells {
    let walk = inputs::one_fault(inverters);
    let what = format!("preferred, {inverters} inverters");
    let time = walk_row(&what, PREFERRED, &walk, turns)[0];
    let atoms = walk.rules[1];
    let sets = 1 << atoms;
    [
        inverters.to_string(),
        atoms.to_string(),
        sets.to_string(),
        full_time(&walk, sets).map_or("not run".to_string(), milliseconds),
        walk.answer.units.to_string(),
        milliseconds(time),
    ]
}

/// The time of the walk that tries every set, where they are not too many.
fn full_time(walk: &Walk, sets: u64) -> Option<f64> {
    if sets > 1 << 30 {
        return None;
    }
    let given = || {
        let answer = walks::c::full_preferred(black_box(&walk.rules), walk.number, 1 << 40);
        assert_eq!((answer.kind, answer.units), (walk.answer.kind, sets));
    };
    Some(times(3, &[("C", Box::new(given))])[0])
}

/// Rows of inverters, the longest last and with one turn; then what stopping at a broken rule saves
/// there.
fn inverters_rows() {
    let lines = [(9, TURNS), (14, TURNS), (19, 1)];
    let lines = lines.map(|(inverters, turns)| inverters_row(inverters, turns));
    let (first, _) = calls(PREFERRED)[0];
    println!(
        "\nOne preferred set of a row of inverters: by trying every set, one unit each (C; over"
    );
    println!("2^30 sets are not run), and by stopping at a broken rule ({first}).");
    let head = [
        "inverters",
        "atoms",
        "every set",
        "time",
        "stopping, units",
        "time",
    ];
    print_cells(&head.map(str::to_string));
    lines.iter().for_each(print_cells);
}

/// A call that writes a text into a lent output; true where it is written.
type Lent = fn(&[u16], &[u8], &mut [u8]) -> bool;
type Fast = fn(&twin::Stores) -> Result<Vec<u8>, u64>;

/// A writer or the translator: the engine's, the fast one and the second implementation's.
struct Writers {
    what: &'static str,
    engine: Option<Lent>,
    fast: Fast,
    reference: Lent,
}

#[cfg(feature = "engine")]
const ENGINE: [Option<Lent>; 3] = [
    Some(|rules, names, out| rigtomato::lent::write(rules, names, out).is_ok()),
    Some(|rules, names, out| rigtomato::lent::write_canonical(rules, names, out).is_ok()),
    Some(|rules, names, out| rigtomato::lent::translate(rules, names, out).is_ok()),
];
#[cfg(not(feature = "engine"))]
const ENGINE: [Option<Lent>; 3] = [None, None, None];

const WRITE: Writers = Writers {
    what: "write",
    engine: ENGINE[0],
    fast: twin::write,
    reference: |rules, names, out| lent::write(rules, names, out).is_ok(),
};
const WRITE_CANONICAL: Writers = Writers {
    what: "write canonical",
    engine: ENGINE[1],
    fast: twin::write_canonical,
    reference: |rules, names, out| lent::write_canonical(rules, names, out).is_ok(),
};
const TRANSLATE: Writers = Writers {
    what: "translate",
    engine: ENGINE[2],
    fast: twin::translate,
    reference: |rules, names, out| lent::translate(rules, names, out).is_ok(),
};

fn read_row(what: &str, text: &[u8]) {
    let words = twin::read(text).expect("an accepted text").rules.len();
    let lent_stores = || RefCell::new((vec![0u16; 36_604], vec![0u8; 20_900]));
    let mut contestants: Vec<Contestant> = Vec::new();
    #[cfg(feature = "engine")]
    {
        let stores = lent_stores();
        contestants.push((
            "engine",
            Box::new(move || {
                let (rules, names) = &mut *stores.borrow_mut();
                let read = rigtomato::lent::read(black_box(text), rules, names);
                assert_eq!(read.expect("accepted").words, words);
            }),
        ));
    }
    contestants.push((
        "Rust",
        Box::new(|| drop(black_box(twin::read(black_box(text))))),
    ));
    let stores = lent_stores();
    contestants.push((
        "reference",
        Box::new(move || {
            let (rules, names) = &mut *stores.borrow_mut();
            let read = lent::read(black_box(text), rules, names);
            assert_eq!(read.expect("accepted").words, words);
        }),
    ));
    row(
        &format!("read, {what}, {} bytes", text.len()),
        text.len() as f64,
        "MB/s",
        &contestants,
    );
}

/// A reader of clause files: how much it wrote of the lent stores.
type ReadLent = fn(&[u8], &mut [u16], &mut [u8]) -> Result<(usize, usize), Refused>;

#[cfg(feature = "engine")]
fn engine_clauses() -> Option<(&'static str, ReadLent)> {
    let read: ReadLent = |text, rules, names| {
        let read = rigtomato::lent::read_clauses(text, rules, names);
        let refused = read.map_err(|refused| (refused.refusal as u64, refused.line.unwrap_or(0)));
        refused.map(|read| (read.words, read.bytes))
    };
    Some(("engine", read))
}

#[cfg(not(feature = "engine"))]
fn engine_clauses() -> Option<(&'static str, ReadLent)> {
    None
}

fn reference_clauses(
    text: &[u8],
    rules: &mut [u16],
    names: &mut [u8],
) -> Result<(usize, usize), Refused> {
    let read = lent::read_clauses(text, rules, names);
    let refused = read.map_err(|refused| (refused.number(), refused.line));
    refused.map(|read| (read.words, read.bytes))
}

/// Each reader fills the stores as the second implementation does, or the bench ends.
fn clauses_row(what: &str, text: &[u8]) {
    let stores = |read: ReadLent| {
        let mut stores = (vec![7u16; 36_604], vec![7u8; 20_900]);
        let read = read(text, &mut stores.0, &mut stores.1);
        (read.expect("an accepted text"), stores)
    };
    let expected = stores(reference_clauses);
    let others: [(&'static str, ReadLent); 2] =
        [("Rust", clauses::read), ("reference", reference_clauses)];
    let readers = engine_clauses().into_iter().chain(others);
    let contestant = |(name, read): (&'static str, ReadLent)| -> Contestant<'_> {
        let given = stores(read);
        assert!(given == expected, "{name} reads clauses differently");
        let lent = RefCell::new(given.1);
        let call = move || {
            let (rules, names) = &mut *lent.borrow_mut();
            let read = read(black_box(text), rules, names);
            assert_eq!(read, Ok(given.0));
        };
        (name, Box::new(call))
    };
    let contestants: Vec<Contestant> = readers.map(contestant).collect();
    let what = format!("read clauses, {what}, {} bytes", text.len());
    row(&what, text.len() as f64, "MB/s", &contestants);
}

/// Each of them writes this text, or the bench ends.
fn those_who_write<'w>(
    writers: &Writers,
    stores: &'w twin::Stores,
    text: &Vec<u8>,
) -> Vec<Contestant<'w>> {
    let what = writers.what;
    let fast = writers.fast;
    assert_eq!(
        fast(stores).as_ref(),
        Ok(text),
        "{what}: Rust answers differently"
    );
    let lent = |call: Lent| -> Box<dyn Fn() + 'w> {
        let mut out = vec![0; text.len()];
        assert!(
            call(&stores.rules, &stores.names, &mut out) && out == *text,
            "{what} differs"
        );
        let out = RefCell::new(out);
        Box::new(move || {
            assert!(call(
                black_box(&stores.rules),
                &stores.names,
                &mut out.borrow_mut()
            ));
        })
    };
    let mut contestants: Vec<Contestant> = Vec::new();
    contestants.extend(writers.engine.map(|call| ("engine", lent(call))));
    contestants.push((
        "Rust",
        Box::new(move || drop(black_box(fast(black_box(stores))))),
    ));
    contestants.push(("reference", lent(writers.reference)));
    contestants
}

fn write_row(writers: &Writers, stores: &twin::Stores, text: &Vec<u8>) {
    let what = format!("{}, {} bytes", writers.what, text.len());
    let contestants = those_who_write(writers, stores, text);
    row(&what, text.len() as f64, "MB/s", &contestants);
}

/// 4,200 rules of so many atoms: the fewer atoms, the more of them are equal and the shorter is the
/// text.
fn canonical_row(atoms: usize) {
    let stores = inputs::many_rules(atoms);
    let text = twin::write_canonical(&stores).expect("stores that fit");
    let contestants = those_who_write(&WRITE_CANONICAL, &stores, &text);
    let what = format!(
        "write canonical, 4,200 rules of {atoms} atoms, {} bytes",
        text.len()
    );
    let times = times(TURNS, &contestants);
    print_row(&what, &contestants, &times, microseconds);
}

/// The readers by their refusals.
type Refusing = fn(&[u8]) -> Option<Refused>;

#[cfg(feature = "engine")]
fn engine_refusing() -> Option<(&'static str, Refusing)> {
    let read: Refusing = |text| {
        let read = rigtomato::lent::read(text, &mut [], &mut []);
        let refused = read.err()?;
        Some((refused.refusal as u64, refused.line.unwrap_or(0)))
    };
    Some(("engine", read))
}

#[cfg(not(feature = "engine"))]
fn engine_refusing() -> Option<(&'static str, Refusing)> {
    None
}

/// No text of the permitted length may take longer.
const BAR: f64 = 0.2;

/// The longest texts of what says least; each is refused, in a time that is held to the bar.
fn longest_rows() {
    println!("\nTexts of 917,504 bytes, each of them refused; at most {BAR} s are allowed.");
    let others: [(&'static str, Refusing); 2] = [
        ("Rust", |text| twin::read(text).err()),
        ("reference", |text| {
            let refused = lent::read(text, &mut [], &mut []).err()?;
            Some((refused.number(), refused.line))
        }),
    ];
    for (what, text, refused) in inputs::longest_texts() {
        let text = &text;
        let contestant = |(name, read): (&'static str, Refusing)| -> Contestant<'_> {
            let given = move || assert_eq!(read(black_box(text)), Some(refused), "{name}, {what}");
            (name, Box::new(given))
        };
        let readers = engine_refusing().into_iter().chain(others);
        let contestants: Vec<Contestant> = readers.map(contestant).collect();
        let times = times(3, &contestants);
        print_row(&format!("read, {what}"), &contestants, &times, |time| {
            let over = if time > BAR { ", over the bar" } else { "" };
            format!("{:>8.3} ms{over}", time * 1e3)
        });
    }
}

/// A long preference file, its translation, and what can be done with them.
fn text_rows() {
    let file = inputs::long_file(1);
    let stores = twin::read(&file).expect("an accepted text");
    let delivered = twin::translate(&stores).expect("a preference file");
    let plain = twin::read(&delivered).expect("an accepted text");
    read_row("256 atoms, all in rules", &file);
    read_row("256 atoms, half in no rule", &inputs::long_file(2));
    read_row("256 atoms, hand-typed", &inputs::typed(&file));
    let conditions = inputs::conditions_file();
    read_row("conditions", &conditions);
    read_row("conditions, hand-typed", &inputs::typed(&conditions));
    read_row("a translation", &delivered);
    read_row("a translation, hand-typed", &inputs::typed(&delivered));
    clauses_row("8,192 literals", &inputs::clause_file(1, 0));
    clauses_row("comments and spaces", &inputs::clause_file(3, 2));
    write_row(&WRITE, &stores, &file);
    write_row(&WRITE, &plain, &delivered);
    write_row(&TRANSLATE, &stores, &delivered);
    for atoms in [1_100, 60, 3] {
        canonical_row(atoms);
    }
}

fn main() {
    println!("Mu/s: million units a second; MB/s: million bytes of text a second.");
    println!(
        "C: rust/bench/c/walks.c, gcc -O3; Rust: hand-written, release; reference: rust/reference."
    );
    println!(
        "Lent outputs are not cleared between calls; Rust allocates its own, but for clauses and the index."
    );
    println!("In the walks C and Rust trust the store that they are handed; the engine checks it.");
    println!("A ratio over 1 means that the engine is faster.");
    walk_rows();
    beaten_row(29);
    text_rows();
    longest_rows();
    index_rows::print();
    inverters_rows();
}
