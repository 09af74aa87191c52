//! What is compared: anything that has the public functions, with answers in one common form,
//! that of the C interface.

use reference::lent::{self, Accepted, Grown};
use reference::refusal::{Reason, Refusal};
use reference::verdicts::{Next, Verdict};

#[derive(Clone, Copy, Debug, PartialEq, Eq)]
pub struct ReadAnswer {
    pub refusal: u64,
    pub line: u64,
    pub words: u64,
    pub bytes: u64,
}

#[derive(Clone, Copy, Debug, PartialEq, Eq)]
pub struct TextAnswer {
    pub refusal: u64,
    pub bytes: u64,
}

#[derive(Clone, Copy, Debug, PartialEq, Eq)]
pub struct VerdictAnswer {
    pub kind: u64,
    pub value: u64,
    pub units: u64,
}

#[derive(Clone, Copy, Debug, PartialEq, Eq)]
pub struct ValueAnswer {
    pub refusal: u64,
    pub value: u64,
}

#[derive(Clone, Copy, Debug, PartialEq, Eq)]
pub struct GrownAnswer {
    pub refusal: u64,
    pub words: u64,
    pub index_words: u64,
}

pub trait Engine {
    fn name(&self) -> &str;
    fn read(&self, text: &[u8], rules: &mut [u16], names: &mut [u8]) -> ReadAnswer;
    fn read_clauses(&self, text: &[u8], rules: &mut [u16], names: &mut [u8]) -> ReadAnswer;
    fn write(&self, rules: &[u16], names: &[u8], out: &mut [u8]) -> TextAnswer;
    fn write_canonical(&self, rules: &[u16], names: &[u8], out: &mut [u8]) -> TextAnswer;
    fn translate(&self, rules: &[u16], names: &[u8], out: &mut [u8]) -> TextAnswer;
    fn preferred(&self, rules: &[u16], set: u64, budget: u64) -> VerdictAnswer;
    fn stable(&self, rules: &[u16], set: u64, budget: u64) -> VerdictAnswer;
    fn next_state(&self, rules: &[u16], start: u64, budget: u64) -> VerdictAnswer;
    fn place(&self, rules: &[u16], set: u64) -> ValueAnswer;
    fn index_rules(&self, rules: &[u16], out: &mut [u16]) -> ValueAnswer;
    fn add_rule(
        &self,
        rules: &[u16],
        index: &[u16],
        rule: &[u16],
        rules_out: &mut [u16],
        index_out: &mut [u16],
    ) -> GrownAnswer;
    fn flip(
        &self,
        rules: &[u16],
        index: &[u16],
        list: &[u16],
        set: u64,
        atom: u64,
        out: &mut [u16],
    ) -> ValueAnswer;
}

/// The second implementation.
pub struct Reference;

fn read_answer(result: Result<Accepted, Refusal>) -> ReadAnswer {
    match result {
        Ok(written) => ReadAnswer {
            refusal: 0,
            line: 0,
            words: written.words as u64,
            bytes: written.bytes as u64,
        },
        Err(Refusal { reason, line }) => ReadAnswer {
            refusal: reason as u64,
            line,
            words: 0,
            bytes: 0,
        },
    }
}

fn text_answer(result: Result<usize, Reason>) -> TextAnswer {
    match result {
        Ok(bytes) => TextAnswer {
            refusal: 0,
            bytes: bytes as u64,
        },
        Err(reason) => TextAnswer {
            refusal: reason as u64,
            bytes: 0,
        },
    }
}

fn answer(kind: u64, value: u64, units: u64) -> VerdictAnswer {
    VerdictAnswer { kind, value, units }
}

fn verdict_answer(result: Result<Verdict, Reason>) -> VerdictAnswer {
    match result {
        Ok(Verdict::Yes { units }) => answer(0, 0, units),
        Ok(Verdict::Broken { rule }) => answer(1, rule, 0),
        Ok(Verdict::Beaten { set, units }) => answer(2, set, units),
        Ok(Verdict::Spent { units }) => answer(3, 0, units),
        Err(reason) => answer(4, reason as u64, 0),
    }
}

fn value_answer(result: Result<u64, Reason>) -> ValueAnswer {
    ValueAnswer {
        refusal: result.map_or_else(|reason| reason as u64, |_| 0),
        value: result.unwrap_or(0),
    }
}

fn grown_answer(result: Result<Grown, Reason>) -> GrownAnswer {
    GrownAnswer {
        refusal: result.map_or_else(|reason| reason as u64, |_| 0),
        words: result.map_or(0, |grown| grown.words as u64),
        index_words: result.map_or(0, |grown| grown.index_words as u64),
    }
}

impl Engine for Reference {
    fn name(&self) -> &str {
        "reference"
    }

    fn read(&self, text: &[u8], rules: &mut [u16], names: &mut [u8]) -> ReadAnswer {
        read_answer(lent::read(text, rules, names))
    }

    fn read_clauses(&self, text: &[u8], rules: &mut [u16], names: &mut [u8]) -> ReadAnswer {
        read_answer(lent::read_clauses(text, rules, names))
    }

    fn write(&self, rules: &[u16], names: &[u8], out: &mut [u8]) -> TextAnswer {
        text_answer(lent::write(rules, names, out))
    }

    fn write_canonical(&self, rules: &[u16], names: &[u8], out: &mut [u8]) -> TextAnswer {
        text_answer(lent::write_canonical(rules, names, out))
    }

    fn translate(&self, rules: &[u16], names: &[u8], out: &mut [u8]) -> TextAnswer {
        text_answer(lent::translate(rules, names, out))
    }

    fn preferred(&self, rules: &[u16], set: u64, budget: u64) -> VerdictAnswer {
        verdict_answer(lent::preferred(rules, set, budget))
    }

    fn stable(&self, rules: &[u16], set: u64, budget: u64) -> VerdictAnswer {
        verdict_answer(lent::stable(rules, set, budget))
    }

    fn next_state(&self, rules: &[u16], start: u64, budget: u64) -> VerdictAnswer {
        match lent::next_state(rules, start, budget) {
            Ok(Next::State { set, units }) => answer(0, set, units),
            Ok(Next::None { units }) => answer(1, 0, units),
            Ok(Next::Spent { units }) => answer(3, 0, units),
            Err(reason) => answer(4, reason as u64, 0),
        }
    }

    fn place(&self, rules: &[u16], set: u64) -> ValueAnswer {
        value_answer(lent::place(rules, set))
    }

    fn index_rules(&self, rules: &[u16], out: &mut [u16]) -> ValueAnswer {
        value_answer(lent::index_rules(rules, out).map(|words| words as u64))
    }

    fn add_rule(
        &self,
        rules: &[u16],
        index: &[u16],
        rule: &[u16],
        rules_out: &mut [u16],
        index_out: &mut [u16],
    ) -> GrownAnswer {
        grown_answer(lent::add_rule(rules, index, rule, rules_out, index_out))
    }

    fn flip(
        &self,
        rules: &[u16],
        index: &[u16],
        list: &[u16],
        set: u64,
        atom: u64,
        out: &mut [u16],
    ) -> ValueAnswer {
        let count = lent::flip(rules, index, list, set, atom, out);
        value_answer(count.map(|count| count as u64))
    }
}
