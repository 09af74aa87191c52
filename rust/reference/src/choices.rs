//! Partial choices and the walk over them (document 02, W-207).

use crate::program::Rule;
use crate::verdicts::{holds, place};

/// The first `decided` atoms are decided; `set` has those of them that are in.
#[derive(Clone, Copy, Debug, PartialEq, Eq)]
pub struct Choice {
    pub decided: usize,
    pub set: u64,
}

impl Choice {
    pub const EMPTY: Choice = Choice { decided: 0, set: 0 };

    fn is_in(self, atom: usize) -> bool {
        atom < self.decided && holds(self.set, atom)
    }

    fn is_out(self, atom: usize) -> bool {
        atom < self.decided && !holds(self.set, atom)
    }

    /// Has some rule all its body in and all its head out? The rules have no `not` atoms.
    pub fn is_closed(self, rules: &[Rule]) -> bool {
        rules.iter().any(|rule| {
            rule.body.iter().all(|&b| self.is_in(b)) && rule.head.iter().all(|&a| self.is_out(a))
        })
    }

    /// The choice that also decides the next atom.
    pub fn then(self, is_in: bool) -> Choice {
        Choice {
            decided: self.decided + 1,
            set: self.set | u64::from(is_in) << self.decided,
        }
    }

    /// The last place of the sets that this choice may still become.
    pub fn last_place(self, atoms: usize) -> u64 {
        let undecided = self.decided..atoms;
        place(atoms, undecided.fold(self.set, |set, a| set | 1 << a))
    }
}

/// More units are needed than the budget.
#[derive(Clone, Copy, Debug, PartialEq, Eq)]
pub struct Spent;

/// Units taken, never more than the budget.
#[derive(Clone, Copy, Debug)]
pub struct Units {
    pub taken: u64,
    budget: u64,
}

impl Units {
    pub fn within(budget: u64) -> Units {
        Units { taken: 0, budget }
    }

    pub fn left(&self) -> u64 {
        self.budget - self.taken
    }

    pub fn take(&mut self, more: u64) -> Result<(), Spent> {
        if more > self.left() {
            return Err(Spent);
        }
        self.taken += more;
        Ok(())
    }
}

/// A walk that looks for a model. Atoms are decided one after another in declared order, out before
/// in, and no deeper once a choice is closed.
pub struct Walk<'w> {
    pub atoms: usize,
    pub rules: &'w [Rule],
    /// May the atom be in, or out?
    pub allows: &'w dyn Fn(usize, bool) -> bool,
    /// Is the choice neither visited nor counted?
    pub leaves_out: &'w dyn Fn(Choice) -> bool,
    /// Is the model looked for? The test may take units of its own.
    pub accepts: &'w dyn Fn(u64, &mut Units) -> Result<bool, Spent>,
}

impl Walk<'_> {
    /// The first model that is accepted, of those that the choice may still become.
    pub fn first_below(&self, choice: Choice, units: &mut Units) -> Result<Option<u64>, Spent> {
        if (self.leaves_out)(choice) {
            return Ok(None);
        }
        units.take(1)?;
        if choice.is_closed(self.rules) {
            return Ok(None);
        }
        if choice.decided == self.atoms {
            let accepted = (self.accepts)(choice.set, units)?;
            return Ok(accepted.then_some(choice.set));
        }
        for is_in in [false, true] {
            if (self.allows)(choice.decided, is_in) {
                let found = self.first_below(choice.then(is_in), units)?;
                if found.is_some() {
                    return Ok(found);
                }
            }
        }
        Ok(None)
    }

    /// The same of all models.
    pub fn first(&self, units: &mut Units) -> Result<Option<u64>, Spent> {
        self.first_below(Choice::EMPTY, units)
    }
}
