//! Conditions read directly (document 02, W-208): as and, or, not over the planner's atoms, without
//! an atom or a rule made of them.

use crate::conditions::Condition;
use crate::program::{Names, Program, Rule};
use crate::used_atoms::restricted;
use crate::verdicts::{self, holds};

/// `then` holds wherever the condition does.
#[derive(Clone, Debug, PartialEq, Eq)]
pub struct Then {
    pub condition: Condition<usize>,
    pub then: usize,
}

impl Then {
    /// The atoms that stand in it.
    fn atoms(&self) -> Vec<usize> {
        use crate::conditions::Part;
        let parts = self.condition.connectives.iter().flat_map(|c| &c.1);
        let named = parts
            .chain([&self.condition.whole])
            .filter_map(|part| match part {
                Part::Name(atom) => Some(*atom),
                Part::Joined(_) => None,
            });
        named.chain([self.then]).collect()
    }

    fn is_kept(&self, set: u64) -> bool {
        !self.condition.holds(&|atom| holds(set, atom)) || holds(set, self.then)
    }
}

/// A preference file with its conditions as they stand. The rules are the typed ones.
#[derive(Clone, Debug, PartialEq, Eq)]
pub struct Direct {
    pub file: Program,
    pub names: Names,
    pub conditions: Vec<Then>,
}

impl Direct {
    /// Over the planner's atoms: the declared ones that stand in a rule or a condition.
    pub fn of_the_planner(&self) -> Direct {
        let in_rules = self.file.rules.iter().flat_map(Rule::lists).flatten();
        let mut used: Vec<usize> = in_rules.copied().collect();
        used.extend(self.conditions.iter().flat_map(Then::atoms));
        let left: Vec<usize> = (0..self.file.atoms).filter(|a| used.contains(a)).collect();
        let number = |atom: usize| left.iter().position(|&stays| stays == atom);
        let then = |then: &Then| -> Option<Then> {
            Some(Then {
                condition: then.condition.renamed(number)?,
                then: number(then.then)?,
            })
        };
        let conditions: Option<Vec<Then>> = self.conditions.iter().map(then).collect();
        Direct {
            file: restricted(&self.file, &left),
            names: left.iter().map(|&atom| self.names[atom].clone()).collect(),
            conditions: conditions.expect("an atom of a condition is left"),
        }
    }

    /// The rules hold, and the atom of each condition that does.
    pub fn is_model(&self, set: u64) -> bool {
        verdicts::is_model(&self.file.rules, set)
            && self.conditions.iter().all(|then| then.is_kept(set))
    }

    /// N beats M (document 001, Definition 3) over these models.
    fn beats(&self, n: u64, m: u64) -> bool {
        self.is_model(n) && verdicts::beats(&self.file, n, m)
    }

    /// All preferred sets, by trying every set; for few atoms.
    pub fn preferred_sets(&self) -> Vec<u64> {
        let models: Vec<u64> = (0..1 << self.file.atoms)
            .filter(|&set| self.is_model(set))
            .collect();
        let unbeaten = |m: &&u64| !models.iter().any(|&n| self.beats(n, **m));
        models.iter().filter(unbeaten).copied().collect()
    }
}
