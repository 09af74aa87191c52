//! The proved engine, twice: through the C interface as it is, and through the safe binding.

use crate::engine::{Engine, GrownAnswer, ReadAnswer, TextAnswer, ValueAnswer, VerdictAnswer};
use rigtomato::{lent, sys, Next, Refusal, TextRefusal, Verdict};

/// The static library through the C interface, each field of each answer taken as it comes.
pub struct Library;

fn read_answer(answer: sys::ReadAnswer) -> ReadAnswer {
    ReadAnswer {
        refusal: answer.refusal,
        line: answer.line,
        words: answer.words,
        bytes: answer.bytes,
    }
}

fn text_answer(answer: sys::TextAnswer) -> TextAnswer {
    TextAnswer {
        refusal: answer.refusal,
        bytes: answer.bytes,
    }
}

fn verdict_answer(answer: sys::VerdictAnswer) -> VerdictAnswer {
    VerdictAnswer {
        kind: answer.kind,
        value: answer.value,
        units: answer.units,
    }
}

fn value_answer(answer: sys::ValueAnswer) -> ValueAnswer {
    ValueAnswer {
        refusal: answer.refusal,
        value: answer.value,
    }
}

fn grown_answer(answer: sys::GrownAnswer) -> GrownAnswer {
    GrownAnswer {
        refusal: answer.refusal,
        words: answer.words,
        index_words: answer.index_words,
    }
}

// SAFETY, for each call below: a pointer and the length after it are one slice, and outputs are
// borrowed for the call alone.
impl Engine for Library {
    fn name(&self) -> &str {
        "library"
    }

    fn read(&self, text: &[u8], rules: &mut [u16], names: &mut [u8]) -> ReadAnswer {
        let (rules_at, names_at) = (rules.as_mut_ptr(), names.as_mut_ptr());
        read_answer(unsafe {
            sys::rigtomato_read(
                text.as_ptr(),
                text.len(),
                rules_at,
                rules.len(),
                names_at,
                names.len(),
            )
        })
    }

    fn read_clauses(&self, text: &[u8], rules: &mut [u16], names: &mut [u8]) -> ReadAnswer {
        let (rules_at, names_at) = (rules.as_mut_ptr(), names.as_mut_ptr());
        read_answer(unsafe {
            sys::rigtomato_read_clauses(
                text.as_ptr(),
                text.len(),
                rules_at,
                rules.len(),
                names_at,
                names.len(),
            )
        })
    }

    fn write(&self, rules: &[u16], names: &[u8], out: &mut [u8]) -> TextAnswer {
        let (out_at, out_len) = (out.as_mut_ptr(), out.len());
        text_answer(unsafe {
            sys::rigtomato_write(
                rules.as_ptr(),
                rules.len(),
                names.as_ptr(),
                names.len(),
                out_at,
                out_len,
            )
        })
    }

    fn write_canonical(&self, rules: &[u16], names: &[u8], out: &mut [u8]) -> TextAnswer {
        let (out_at, out_len) = (out.as_mut_ptr(), out.len());
        text_answer(unsafe {
            sys::rigtomato_write_canonical(
                rules.as_ptr(),
                rules.len(),
                names.as_ptr(),
                names.len(),
                out_at,
                out_len,
            )
        })
    }

    fn translate(&self, rules: &[u16], names: &[u8], out: &mut [u8]) -> TextAnswer {
        let (out_at, out_len) = (out.as_mut_ptr(), out.len());
        text_answer(unsafe {
            sys::rigtomato_translate(
                rules.as_ptr(),
                rules.len(),
                names.as_ptr(),
                names.len(),
                out_at,
                out_len,
            )
        })
    }

    fn preferred(&self, rules: &[u16], set: u64, budget: u64) -> VerdictAnswer {
        let (at, length) = (rules.as_ptr(), rules.len());
        verdict_answer(unsafe { sys::rigtomato_preferred(at, length, set, budget) })
    }

    fn stable(&self, rules: &[u16], set: u64, budget: u64) -> VerdictAnswer {
        let (at, length) = (rules.as_ptr(), rules.len());
        verdict_answer(unsafe { sys::rigtomato_stable(at, length, set, budget) })
    }

    fn next_state(&self, rules: &[u16], start: u64, budget: u64) -> VerdictAnswer {
        let (at, length) = (rules.as_ptr(), rules.len());
        verdict_answer(unsafe { sys::rigtomato_next_state(at, length, start, budget) })
    }

    fn place(&self, rules: &[u16], set: u64) -> ValueAnswer {
        value_answer(unsafe { sys::rigtomato_place(rules.as_ptr(), rules.len(), set) })
    }

    fn index_rules(&self, rules: &[u16], out: &mut [u16]) -> ValueAnswer {
        let (out_at, out_len) = (out.as_mut_ptr(), out.len());
        value_answer(unsafe {
            sys::rigtomato_index_rules(rules.as_ptr(), rules.len(), out_at, out_len)
        })
    }

    fn add_rule(
        &self,
        rules: &[u16],
        index: &[u16],
        rule: &[u16],
        rules_out: &mut [u16],
        index_out: &mut [u16],
    ) -> GrownAnswer {
        let (rules_at, index_at) = (rules_out.as_mut_ptr(), index_out.as_mut_ptr());
        grown_answer(unsafe {
            sys::rigtomato_add_rule(
                rules.as_ptr(),
                rules.len(),
                index.as_ptr(),
                index.len(),
                rule.as_ptr(),
                rule.len(),
                rules_at,
                rules_out.len(),
                index_at,
                index_out.len(),
            )
        })
    }

    fn flip(
        &self,
        rules: &[u16],
        index: &[u16],
        list: &[u16],
        set: u64,
        atom: u64,
        out: &mut [u16],
    ) -> ValueAnswer {
        let (out_at, out_len) = (out.as_mut_ptr(), out.len());
        value_answer(unsafe {
            sys::rigtomato_flip(
                rules.as_ptr(),
                rules.len(),
                index.as_ptr(),
                index.len(),
                list.as_ptr(),
                list.len(),
                set,
                atom,
                out_at,
                out_len,
            )
        })
    }
}

/// The safe binding.
pub struct Binding;

fn read_result(result: Result<lent::Accepted, TextRefusal>) -> ReadAnswer {
    match result {
        Ok(accepted) => ReadAnswer {
            refusal: 0,
            line: 0,
            words: accepted.words as u64,
            bytes: accepted.bytes as u64,
        },
        Err(refused) => ReadAnswer {
            refusal: refused.refusal as u64,
            line: refused.line.unwrap_or(0),
            words: 0,
            bytes: 0,
        },
    }
}

fn text_result(result: Result<usize, Refusal>) -> TextAnswer {
    TextAnswer {
        refusal: result.map_or_else(|refusal| refusal as u64, |_| 0),
        bytes: result.map_or(0, |bytes| bytes as u64),
    }
}

fn value_result(result: Result<u64, Refusal>) -> ValueAnswer {
    ValueAnswer {
        refusal: result.map_or_else(|refusal| refusal as u64, |_| 0),
        value: result.unwrap_or(0),
    }
}

fn grown_result(result: Result<lent::Grown, Refusal>) -> GrownAnswer {
    GrownAnswer {
        refusal: result.map_or_else(|refusal| refusal as u64, |_| 0),
        words: result.map_or(0, |grown| grown.words as u64),
        index_words: result.map_or(0, |grown| grown.index_words as u64),
    }
}

fn answer(kind: u64, value: u64, units: u64) -> VerdictAnswer {
    VerdictAnswer { kind, value, units }
}

fn verdict_result(result: Result<Verdict, Refusal>, budget: u64) -> VerdictAnswer {
    match result {
        Ok(Verdict::Yes { units }) => answer(0, 0, units),
        Ok(Verdict::Broken { rule }) => answer(1, rule, 0),
        Ok(Verdict::Beaten { set, units }) => answer(2, set, units),
        Ok(Verdict::Spent) => answer(3, 0, budget),
        Err(refusal) => answer(4, refusal as u64, 0),
    }
}

impl Engine for Binding {
    fn name(&self) -> &str {
        "binding"
    }

    fn read(&self, text: &[u8], rules: &mut [u16], names: &mut [u8]) -> ReadAnswer {
        read_result(lent::read(text, rules, names))
    }

    fn read_clauses(&self, text: &[u8], rules: &mut [u16], names: &mut [u8]) -> ReadAnswer {
        read_result(lent::read_clauses(text, rules, names))
    }

    fn write(&self, rules: &[u16], names: &[u8], out: &mut [u8]) -> TextAnswer {
        text_result(lent::write(rules, names, out))
    }

    fn write_canonical(&self, rules: &[u16], names: &[u8], out: &mut [u8]) -> TextAnswer {
        text_result(lent::write_canonical(rules, names, out))
    }

    fn translate(&self, rules: &[u16], names: &[u8], out: &mut [u8]) -> TextAnswer {
        text_result(lent::translate(rules, names, out))
    }

    fn preferred(&self, rules: &[u16], set: u64, budget: u64) -> VerdictAnswer {
        verdict_result(lent::preferred(rules, set, budget), budget)
    }

    fn stable(&self, rules: &[u16], set: u64, budget: u64) -> VerdictAnswer {
        verdict_result(lent::stable(rules, set, budget), budget)
    }

    fn next_state(&self, rules: &[u16], start: u64, budget: u64) -> VerdictAnswer {
        match lent::next_state(rules, start, budget) {
            Ok(Next::State { set, units }) => answer(0, set, units),
            Ok(Next::None { units }) => answer(1, 0, units),
            Ok(Next::Spent) => answer(3, 0, budget),
            Err(refusal) => answer(4, refusal as u64, 0),
        }
    }

    fn place(&self, rules: &[u16], set: u64) -> ValueAnswer {
        value_result(lent::place(rules, set))
    }

    fn index_rules(&self, rules: &[u16], out: &mut [u16]) -> ValueAnswer {
        value_result(lent::index_rules(rules, out).map(|words| words as u64))
    }

    fn add_rule(
        &self,
        rules: &[u16],
        index: &[u16],
        rule: &[u16],
        rules_out: &mut [u16],
        index_out: &mut [u16],
    ) -> GrownAnswer {
        grown_result(lent::add_rule(rules, index, rule, rules_out, index_out))
    }

    fn flip(
        &self,
        rules: &[u16],
        index: &[u16],
        list: &[u16],
        set: u64,
        atom: u64,
        out: &mut [u16],
    ) -> ValueAnswer {
        let count = lent::flip(rules, index, list, set, atom, out);
        value_result(count.map(|count| count as u64))
    }
}
