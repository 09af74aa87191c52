//! The two kinds of file and the numbers that bound them.

#[derive(Clone, Copy, Debug, PartialEq, Eq)]
pub enum Kind {
    Plain,
    Preference,
}

impl Kind {
    pub fn atom_limit(self) -> usize {
        match self {
            Kind::Plain => 1_100,
            Kind::Preference => 256,
        }
    }

    pub fn rule_limit(self) -> usize {
        match self {
            Kind::Plain => 4_200,
            Kind::Preference => 1_024,
        }
    }

    /// The limit of atom occurrences in rules.
    pub fn occurrence_limit(self) -> usize {
        match self {
            Kind::Plain => 24_000,
            Kind::Preference => 8_192,
        }
    }

    /// A plain program has no classes.
    pub fn class_limit(self) -> usize {
        match self {
            Kind::Plain => 0,
            Kind::Preference => 16,
        }
    }
}

/// The most bytes of a text.
pub const TEXT_LIMIT: usize = 917_504;
/// The most bytes that the two programs read, and the size of the outputs that they lend.
pub const PROGRAM_LIMIT: usize = 65_536;
/// The most bytes of a house name.
pub const HOUSE_NAME_LIMIT: usize = 24;
/// The largest number of a name `T.`number.
pub const MADE_LIMIT: usize = 256;
/// The most atoms with which a verdict or the lister answers.
pub const VERDICT_ATOM_LIMIT: usize = 60;
/// The largest budget.
pub const BUDGET_LIMIT: u64 = 1 << 40;
