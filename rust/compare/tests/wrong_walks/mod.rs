//! The walks over partial choices (document 02, W-207), each with one thing wrong.

use reference::choices::{Choice, Spent, Units};
use reference::program::{Program, Rule};
use reference::verdicts::{beats, first_broken, holds, place, reduct, Next, Verdict};

/// What is wrong with a walk.
#[derive(Clone, Copy, Debug, PartialEq, Eq)]
pub enum WalkSlip {
    Nothing,
    EmptyChoiceNotCounted,
    ClosedNotCounted,
    DeeperBelowAClosedOne,
    UndecidedHeadTakenAsOut,
    InBeforeOut,
    FinalSetCounted,
    FixedFreeInAVerdict,
    BeforeTheStartVisited,
    UnitsOfTheBeatenForgotten,
}

use WalkSlip::*;

pub const WALK_SLIPS: [WalkSlip; 9] = [
    EmptyChoiceNotCounted,
    ClosedNotCounted,
    DeeperBelowAClosedOne,
    UndecidedHeadTakenAsOut,
    InBeforeOut,
    FinalSetCounted,
    FixedFreeInAVerdict,
    BeforeTheStartVisited,
    UnitsOfTheBeatenForgotten,
];

type Accepts<'w> = &'w dyn Fn(u64, &mut Units) -> Result<bool, Spent>;

struct Walk<'w> {
    slip: WalkSlip,
    atoms: usize,
    rules: &'w [Rule],
    allows: &'w dyn Fn(usize, bool) -> bool,
    leaves_out: &'w dyn Fn(Choice) -> bool,
    accepts: Accepts<'w>,
}

impl Walk<'_> {
    fn is_closed(&self, choice: Choice) -> bool {
        if self.slip != UndecidedHeadTakenAsOut {
            return choice.is_closed(self.rules);
        }
        let is_in = |&a: &usize| a < choice.decided && holds(choice.set, a);
        let closes = |rule: &Rule| rule.body.iter().all(is_in) && !rule.head.iter().any(is_in);
        self.rules.iter().any(closes)
    }

    fn is_counted(&self, choice: Choice) -> bool {
        match self.slip {
            EmptyChoiceNotCounted => choice.decided > 0,
            ClosedNotCounted => !self.is_closed(choice),
            _ => true,
        }
    }

    fn first_below(&self, choice: Choice, units: &mut Units) -> Result<Option<u64>, Spent> {
        if (self.leaves_out)(choice) {
            return Ok(None);
        }
        units.take(u64::from(self.is_counted(choice)))?;
        let is_final = choice.decided == self.atoms;
        if self.is_closed(choice) && (is_final || self.slip != DeeperBelowAClosedOne) {
            return Ok(None);
        }
        if is_final {
            let accepted = (self.accepts)(choice.set, units)?;
            return Ok(accepted.then_some(choice.set));
        }
        for later in [false, true] {
            let is_in = later != (self.slip == InBeforeOut);
            if (self.allows)(choice.decided, is_in) {
                let found = self.first_below(choice.then(is_in), units)?;
                if found.is_some() {
                    return Ok(found);
                }
            }
        }
        Ok(None)
    }

    fn verdict(&self, budget: u64) -> Verdict {
        let mut units = Units::within(budget);
        let better = self.first_below(Choice::EMPTY, &mut units);
        let units = units.taken;
        match better {
            Ok(None) => Verdict::Yes { units },
            Ok(Some(set)) => Verdict::Beaten { set, units },
            Err(Spent) => Verdict::Spent { units: budget },
        }
    }
}

pub fn preferred(slip: WalkSlip, file: &Program, m: u64, budget: u64) -> Verdict {
    if let Some(rule) = first_broken(&file.rules, m) {
        return Verdict::Broken { rule };
    }
    let free = |atom| slip == FixedFreeInAVerdict || !file.is_fixed(atom);
    let walk = Walk {
        slip,
        atoms: file.atoms,
        rules: &file.rules,
        allows: &|atom, is_in| free(atom) || is_in == holds(m, atom),
        leaves_out: &|_| false,
        accepts: &|n, _| Ok(beats(file, n, m)),
    };
    walk.verdict(budget)
}

pub fn stable(slip: WalkSlip, plain: &Program, m: u64, budget: u64) -> Verdict {
    if let Some(rule) = first_broken(&plain.rules, m) {
        return Verdict::Broken { rule };
    }
    let is_m = |choice: Choice| choice.decided == plain.atoms && choice.set == m;
    let walk = Walk {
        slip,
        atoms: plain.atoms,
        rules: &reduct(&plain.rules, m),
        allows: &|atom, is_in| !is_in || holds(m, atom),
        leaves_out: &|choice| slip != FinalSetCounted && is_m(choice),
        accepts: &|n, _| Ok(n != m),
    };
    walk.verdict(budget)
}

/// Is the model preferred? Its verdict's units are taken, if not forgotten.
fn is_state(slip: WalkSlip, file: &Program, model: u64, units: &mut Units) -> Result<bool, Spent> {
    let (yes, more) = match preferred(slip, file, model, units.left()) {
        Verdict::Yes { units } => (true, units),
        Verdict::Beaten { .. } if slip == UnitsOfTheBeatenForgotten => (false, 0),
        Verdict::Beaten { units, .. } => (false, units),
        Verdict::Spent { .. } => return Err(Spent),
        Verdict::Broken { .. } => unreachable!("it is a model"),
    };
    units.take(more)?;
    Ok(yes)
}

pub fn next_state(slip: WalkSlip, file: &Program, start: u64, budget: u64) -> Next {
    let atoms = file.atoms;
    let visits_all = slip == BeforeTheStartVisited && start < 1 << atoms;
    let walk = Walk {
        slip,
        atoms,
        rules: &file.rules,
        allows: &|_, _| true,
        leaves_out: &|choice| !visits_all && choice.last_place(atoms) < start,
        accepts: &|model, units| {
            Ok(place(atoms, model) >= start && is_state(slip, file, model, units)?)
        },
    };
    let mut units = Units::within(budget);
    let state = walk.first_below(Choice::EMPTY, &mut units);
    let units = units.taken;
    match state {
        Ok(Some(set)) => Next::State { set, units },
        Ok(None) => Next::None { units },
        Err(Spent) => Next::Spent { units: budget },
    }
}
