//! A program: declared atoms and rules.

use crate::limits::Kind;

/// What a preference file declares an atom as.
#[derive(Clone, Copy, Debug, PartialEq, Eq)]
pub enum Role {
    /// Minimised, with its class from 1.
    Minimised(usize),
    Varying,
    Fixed,
}

/// The three lists of a rule, as atom numbers.
#[derive(Clone, Debug, Default, PartialEq, Eq)]
pub struct Rule {
    pub head: Vec<usize>,
    pub body: Vec<usize>,
    pub not: Vec<usize>,
}

impl Rule {
    pub fn lists(&self) -> [&[usize]; 3] {
        [&self.head, &self.body, &self.not]
    }

    /// The atom places in the rule's lists.
    pub fn occurrences(&self) -> usize {
        self.head.len() + self.body.len() + self.not.len()
    }
}

/// What a rule store says. Names are kept apart, as the stores do.
#[derive(Clone, Debug, PartialEq, Eq)]
pub struct Program {
    pub kind: Kind,
    pub atoms: usize,
    /// The number of classes, empty ones too; 0 in a plain program.
    pub classes: usize,
    /// One role for each atom of a preference file; none in a plain program.
    pub roles: Vec<Role>,
    pub rules: Vec<Rule>,
}

pub type Names = Vec<Vec<u8>>;

impl Program {
    pub fn empty(kind: Kind) -> Program {
        Program {
            kind,
            atoms: 0,
            classes: 0,
            roles: Vec::new(),
            rules: Vec::new(),
        }
    }

    pub fn occurrences(&self) -> usize {
        self.rules.iter().map(Rule::occurrences).sum()
    }

    pub fn is_fixed(&self, atom: usize) -> bool {
        self.roles[atom] == Role::Fixed
    }

    /// The class of a minimised atom.
    pub fn class(&self, atom: usize) -> Option<usize> {
        match self.roles[atom] {
            Role::Minimised(class) => Some(class),
            _ => None,
        }
    }

    /// The atoms of a class, in declared order.
    pub fn class_atoms(&self, class: usize) -> Vec<usize> {
        (0..self.atoms)
            .filter(|&a| self.class(a) == Some(class))
            .collect()
    }

    pub fn minimised(&self) -> Vec<usize> {
        (0..self.atoms)
            .filter(|&a| self.class(a).is_some())
            .collect()
    }

    pub fn unfixed(&self) -> Vec<usize> {
        (0..self.atoms).filter(|&a| !self.is_fixed(a)).collect()
    }
}
