//! What the engine's speed is measured against: hand-written C and Rust for the walks, fast
//! readers, writers and translator, a fast index of rules.

pub mod clauses;
pub mod flips;
pub mod inputs;
pub mod twin;
pub mod walks;
