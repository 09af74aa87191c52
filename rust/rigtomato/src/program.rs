//! What an accepted text says, read from its rule store.

use crate::{Kind, Program};

/// The most of everything that a file of one kind may have. Atoms count even if no rule has them.
#[derive(Clone, Copy, Debug, PartialEq, Eq)]
pub struct Limits {
    pub atoms: usize,
    pub rules: usize,
    /// Atom places in the lists of rules.
    pub occurrences: usize,
    /// A plain program has no classes.
    pub classes: usize,
}

impl Kind {
    pub fn limits(self) -> Limits {
        match self {
            Kind::Plain => Limits {
                atoms: 1_100,
                rules: 4_200,
                occurrences: 24_000,
                classes: 0,
            },
            Kind::Preference => Limits {
                atoms: 256,
                rules: 1_024,
                occurrences: 8_192,
                classes: 16,
            },
        }
    }
}

/// What a preference file declares an atom as.
#[derive(Clone, Copy, Debug, PartialEq, Eq)]
pub enum Role {
    /// Minimised, in this class from 1, the gravest.
    Minimised(u16),
    Varying,
    Fixed,
}

impl Role {
    fn of_word(word: u16) -> Role {
        match word {
            17 => Role::Varying,
            18 => Role::Fixed,
            class => Role::Minimised(class),
        }
    }
}

/// The three lists of a rule, as atom numbers.
#[derive(Clone, Copy, Debug, PartialEq, Eq)]
pub struct Rule<'p> {
    pub head: &'p [u16],
    pub body: &'p [u16],
    pub not: &'p [u16],
}

impl Rule<'_> {
    /// The atom places in the three lists.
    pub fn occurrences(&self) -> usize {
        self.head.len() + self.body.len() + self.not.len()
    }
}

/// The rule at the front of these words, and the words after it.
fn split_rule(words: &[u16]) -> Option<(Rule<'_>, &[u16])> {
    let (counts, rest) = words.split_at_checked(3)?;
    let (head, rest) = rest.split_at_checked(counts[0].into())?;
    let (body, rest) = rest.split_at_checked(counts[1].into())?;
    let (not, rest) = rest.split_at_checked(counts[2].into())?;
    Some((Rule { head, body, not }, rest))
}

impl Program {
    /// How many classes there are, empty ones too; none in a plain program.
    pub fn classes(&self) -> usize {
        usize::from(self.rules[2])
    }

    /// Where the class words end and the rules begin.
    fn first_rule(&self) -> usize {
        match self.kind() {
            Kind::Plain => 4,
            Kind::Preference => 4 + self.atoms(),
        }
    }

    /// What each atom is declared as, in declared order; nothing in a plain program.
    pub fn roles(&self) -> impl Iterator<Item = Role> + '_ {
        let words = &self.rules[4..self.first_rule()];
        words.iter().map(|word| Role::of_word(*word))
    }

    /// The lists of each rule, in the text's order.
    pub fn rule_lists(&self) -> impl Iterator<Item = Rule<'_>> {
        let mut left = &self.rules[self.first_rule()..];
        std::iter::from_fn(move || {
            let (rule, rest) = split_rule(left)?;
            left = rest;
            Some(rule)
        })
    }

    /// The atom places in the lists of all rules.
    pub fn occurrences(&self) -> usize {
        self.rule_lists().map(|rule| rule.occurrences()).sum()
    }
}
