//! One call of both engines on the same input, and everything that may differ afterwards.
//!
//! Each engine gets its own copies. A lent output lies inside a larger piece of memory filled
//! with a pattern; after the call the whole piece is compared, so a write before or past the lent
//! part shows, and so does a byte that should have kept its content.

use crate::engine::{Engine, ReadAnswer, Reference, TextAnswer, VerdictAnswer};
use crate::indexes::{Adding, Flip};
use std::collections::BTreeMap;
use std::fmt::Debug;

/// What two engines answered differently.
#[derive(Debug)]
pub struct Difference {
    pub text: String,
}

pub type Checked = Result<(), Difference>;

const GUARD: usize = 8;

/// An output to lend: the memory around it and its place there.
struct Output<T> {
    memory: Vec<T>,
    length: usize,
}

impl<T> Output<T> {
    fn new(length: usize, pattern: impl Fn(usize) -> T) -> Output<T> {
        Output {
            memory: (0..length + 2 * GUARD).map(pattern).collect(),
            length,
        }
    }

    fn lend(&mut self) -> &mut [T] {
        &mut self.memory[GUARD..GUARD + self.length]
    }
}

fn words(length: usize) -> Output<u16> {
    Output::new(length, |i| 0xa500 ^ (i as u16).wrapping_mul(0x1235))
}

fn bytes(length: usize) -> Output<u8> {
    Output::new(length, |i| 0xa5 ^ (i as u8).wrapping_mul(29))
}

/// Bytes as a person can read them, cut where they are many.
fn shown(bytes: &[u8]) -> String {
    let cut = &bytes[..bytes.len().min(4_000)];
    let more = bytes.len() - cut.len();
    let text = cut.escape_ascii().to_string().replace("\\n", "\\n\n");
    if more == 0 {
        text
    } else {
        format!("{text} .. and {more} bytes more")
    }
}

fn shown_words(words: &[u16]) -> String {
    let cut = &words[..words.len().min(600)];
    format!("{} words {:?}", words.len(), cut)
}

pub struct Checker<'e> {
    engine: &'e dyn Engine,
    /// How many calls were compared.
    pub comparisons: u64,
    /// How often each function gave which outcome: a refusal's number, or 0, or a verdict's kind.
    pub outcomes: BTreeMap<(&'static str, Outcome), u64>,
}

/// The outcome of a call, without its values.
#[derive(Clone, Copy, Debug, PartialEq, Eq, PartialOrd, Ord)]
pub enum Outcome {
    Done,
    /// A verdict's or a next state's kind: 0 to 3.
    Kind(u64),
    Refused(u64),
}

fn outcome_of_refusal(refusal: u64) -> Outcome {
    match refusal {
        0 => Outcome::Done,
        number => Outcome::Refused(number),
    }
}

fn outcome_of_verdict(answer: VerdictAnswer) -> Outcome {
    match answer.kind {
        4 => Outcome::Refused(answer.value),
        kind => Outcome::Kind(kind),
    }
}

impl<'e> Checker<'e> {
    pub fn new(engine: &'e dyn Engine) -> Checker<'e> {
        Checker {
            engine,
            comparisons: 0,
            outcomes: BTreeMap::new(),
        }
    }

    /// Counts one comparison; gives a difference where the two outcomes are not equal.
    fn same<T: PartialEq + Debug>(
        &mut self,
        function: &'static str,
        outcome: Outcome,
        ours: &T,
        theirs: &T,
        call: impl Fn() -> String,
    ) -> Checked {
        self.comparisons += 1;
        *self.outcomes.entry((function, outcome)).or_default() += 1;
        if ours == theirs {
            return Ok(());
        }
        let mut text = call();
        text += &format!(
            "\nreference: {ours:?}\n{}: {theirs:?}\n",
            self.engine.name()
        );
        Err(Difference { text })
    }

    fn read_call(
        &mut self,
        name: &'static str,
        text: &[u8],
        (rules_len, names_len): (usize, usize),
        call: impl Fn(&dyn Engine, &[u8], &mut [u16], &mut [u8]) -> ReadAnswer,
    ) -> Checked {
        let outcome = |engine: &dyn Engine| {
            let input = text.to_vec();
            let (mut rules, mut names) = (words(rules_len), bytes(names_len));
            let answer = call(engine, &input, rules.lend(), names.lend());
            (answer, rules.memory, names.memory, input == text)
        };
        let (ours, theirs) = (outcome(&Reference), outcome(self.engine));
        let outcome = outcome_of_refusal(ours.0.refusal);
        self.same(name, outcome, &ours, &theirs, || {
            format!(
                "{name}, outputs {rules_len} and {names_len}, text:\n{}",
                shown(text)
            )
        })
    }

    pub fn read(&mut self, text: &[u8], rules_len: usize, names_len: usize) -> Checked {
        let lengths = (rules_len, names_len);
        self.read_call("read", text, lengths, |engine, text, rules, names| {
            engine.read(text, rules, names)
        })
    }

    pub fn read_clauses(&mut self, text: &[u8], rules_len: usize, names_len: usize) -> Checked {
        let lengths = (rules_len, names_len);
        self.read_call(
            "read_clauses",
            text,
            lengths,
            |engine, text, rules, names| engine.read_clauses(text, rules, names),
        )
    }

    fn text_call(
        &mut self,
        name: &'static str,
        rules: &[u16],
        names: &[u8],
        out_len: usize,
        call: impl Fn(&dyn Engine, &[u16], &[u8], &mut [u8]) -> TextAnswer,
    ) -> Checked {
        let outcome = |engine: &dyn Engine| {
            let input = (rules.to_vec(), names.to_vec());
            let mut out = bytes(out_len);
            let answer = call(engine, &input.0, &input.1, out.lend());
            (answer, out.memory, input.0 == rules && input.1 == names)
        };
        let (ours, theirs) = (outcome(&Reference), outcome(self.engine));
        let outcome = outcome_of_refusal(ours.0.refusal);
        self.same(name, outcome, &ours, &theirs, || {
            format!(
                "{name}, output {out_len}, rules: {}\nnames: {}",
                shown_words(rules),
                shown(names)
            )
        })
    }

    pub fn write(&mut self, rules: &[u16], names: &[u8], out_len: usize) -> Checked {
        self.text_call(
            "write",
            rules,
            names,
            out_len,
            |engine, rules, names, out| engine.write(rules, names, out),
        )
    }

    pub fn write_canonical(&mut self, rules: &[u16], names: &[u8], out_len: usize) -> Checked {
        self.text_call(
            "write_canonical",
            rules,
            names,
            out_len,
            |engine, rules, names, out| engine.write_canonical(rules, names, out),
        )
    }

    pub fn translate(&mut self, rules: &[u16], names: &[u8], out_len: usize) -> Checked {
        self.text_call(
            "translate",
            rules,
            names,
            out_len,
            |engine, rules, names, out| engine.translate(rules, names, out),
        )
    }

    fn verdict_call(
        &mut self,
        name: &'static str,
        rules: &[u16],
        number: u64,
        budget: u64,
        call: impl Fn(&dyn Engine, &[u16]) -> VerdictAnswer,
    ) -> Checked {
        let outcome = |engine: &dyn Engine| {
            let input = rules.to_vec();
            let answer = call(engine, &input);
            (answer, input == rules)
        };
        let (ours, theirs) = (outcome(&Reference), outcome(self.engine));
        let outcome = outcome_of_verdict(ours.0);
        self.same(name, outcome, &ours, &theirs, || {
            format!(
                "{name} {number}, budget {budget}, rules: {}",
                shown_words(rules)
            )
        })
    }

    pub fn preferred(&mut self, rules: &[u16], set: u64, budget: u64) -> Checked {
        self.verdict_call("preferred", rules, set, budget, |engine, rules| {
            engine.preferred(rules, set, budget)
        })
    }

    pub fn stable(&mut self, rules: &[u16], set: u64, budget: u64) -> Checked {
        self.verdict_call("stable", rules, set, budget, |engine, rules| {
            engine.stable(rules, set, budget)
        })
    }

    pub fn next_state(&mut self, rules: &[u16], start: u64, budget: u64) -> Checked {
        self.verdict_call("next_state", rules, start, budget, |engine, rules| {
            engine.next_state(rules, start, budget)
        })
    }

    pub fn place(&mut self, rules: &[u16], set: u64) -> Checked {
        let outcome = |engine: &dyn Engine| {
            let input = rules.to_vec();
            let answer = engine.place(&input, set);
            (answer, input == rules)
        };
        let (ours, theirs) = (outcome(&Reference), outcome(self.engine));
        let outcome = outcome_of_refusal(ours.0.refusal);
        self.same("place", outcome, &ours, &theirs, || {
            format!("place of {set}, rules: {}", shown_words(rules))
        })
    }

    pub fn index_rules(&mut self, rules: &[u16], out_len: usize) -> Checked {
        let outcome = |engine: &dyn Engine| {
            let input = rules.to_vec();
            let mut out = words(out_len);
            let answer = engine.index_rules(&input, out.lend());
            (answer, out.memory, input == rules)
        };
        let (ours, theirs) = (outcome(&Reference), outcome(self.engine));
        let outcome = outcome_of_refusal(ours.0.refusal);
        self.same("index_rules", outcome, &ours, &theirs, || {
            format!(
                "index_rules, output {out_len}, rules: {}",
                shown_words(rules)
            )
        })
    }

    pub fn add_rule(&mut self, call: &Adding, rules_len: usize, index_len: usize) -> Checked {
        let outcome = |engine: &dyn Engine| {
            let input = call.clone();
            let (mut rules, mut index) = (words(rules_len), words(index_len));
            let (rules_out, index_out) = (rules.lend(), index.lend());
            let answer = engine.add_rule(
                &input.rules,
                &input.index,
                &input.rule,
                rules_out,
                index_out,
            );
            (answer, rules.memory, index.memory, input == *call)
        };
        let (ours, theirs) = (outcome(&Reference), outcome(self.engine));
        let outcome = outcome_of_refusal(ours.0.refusal);
        self.same("add_rule", outcome, &ours, &theirs, || {
            format!(
                "add_rule, outputs {rules_len} and {index_len}, rules: {}\nindex: {}\nrule: {}",
                shown_words(&call.rules),
                shown_words(&call.index),
                shown_words(&call.rule)
            )
        })
    }

    pub fn flip(&mut self, call: &Flip, out_len: usize) -> Checked {
        let (set, atom) = (call.set, call.atom);
        let outcome = |engine: &dyn Engine| {
            let input = call.clone();
            let mut out = words(out_len);
            let (rules, index, list) = (&input.rules, &input.index, &input.list);
            let answer = engine.flip(rules, index, list, set, atom, out.lend());
            (answer, out.memory, input == *call)
        };
        let (ours, theirs) = (outcome(&Reference), outcome(self.engine));
        let outcome = outcome_of_refusal(ours.0.refusal);
        self.same("flip", outcome, &ours, &theirs, || {
            format!(
                "flip of {atom} in {set}, output {out_len}, rules: {}\nindex: {}\nlist: {}",
                shown_words(&call.rules),
                shown_words(&call.index),
                shown_words(&call.list)
            )
        })
    }

    /// Compares what the engine lists, going on from the place of each answer plus one, with these
    /// states.
    pub fn listing(&mut self, rules: &[u16], states: &[u64], budget: u64) -> Checked {
        let mut listed = Vec::new();
        let mut next = self.engine.next_state(rules, 0, budget);
        while next.kind == 0 && listed.len() <= states.len() {
            listed.push(next.value);
            let start = self.engine.place(rules, next.value).value.wrapping_add(1);
            next = self.engine.next_state(rules, start, budget);
        }
        let (ours, theirs) = ((states, 1), (listed.as_slice(), next.kind));
        self.same("listing", Outcome::Done, &ours, &theirs, || {
            format!("listing, budget {budget}, rules: {}", shown_words(rules))
        })
    }
}
