//! The second implementation of Rigtomato, written from the documents alone.
//!
//! It exists to be compared with the proved engine, so it is brute force over the definitions:
//! at every choice that a walk visits all rules are looked at, every fault of a line is looked for,
//! names are found by looking at each of them. Where the documents have a word of their own, the
//! code uses that word.

pub mod canonical;
pub mod choices;
pub mod clauses;
pub mod conditions;
pub mod direct;
pub mod index;
pub mod lent;
pub mod limits;
pub mod names;
pub mod pieces;
pub mod program;
pub mod programs;
pub mod reader;
pub mod refusal;
pub mod stores;
pub mod translator;
pub mod used_atoms;
pub mod verdicts;
pub mod writer;
