//! Which rules each atom stands in, and which rules a set breaks once an atom flips.

use crate::{lent, Program, Refusal, Rule};

/// The index of a program's rules: for each atom the rules that hold it, in any of their three lists.
/// With it a flip tests the rules of one atom and no other.
///
/// ```
/// use rigtomato::{Program, Rule, RuleIndex};
///
/// let text = "(min sensor)\n(min lamp)\n(vary dark)\n(fix)\n\
///     (rule (head sensor lamp) (body) (not))\n(rule (head dark) (body lamp) (not))\n";
/// let file = Program::read(text.as_bytes())?;
/// let index = RuleIndex::new(&file);
/// let (lamp, dark) = (1, 2);
/// // The empty set breaks the rules without a body.
/// let broken = index.flip(&file, &[0], 0b000, lamp)?;
/// assert_eq!(broken, [1]);
/// let broken = index.flip(&file, &broken, 0b010, dark)?;
/// assert_eq!(broken, []);
///
/// // The sensor is at fault if it is dark.
/// let rule = Rule { head: &[0], body: &[2], not: &[] };
/// let (file, index) = index.add_rule(&file, rule)?;
/// assert_eq!(index.lists().collect::<Vec<_>>(), [[0, 2], [0, 1], [1, 2]]);
/// // The set of lamp and dark breaks the rule that is new.
/// assert_eq!(index.flip(&file, &[2], 0b110, dark)?, [1]);
/// # Ok::<(), Box<dyn std::error::Error>>(())
/// ```
#[derive(Clone, Debug, PartialEq, Eq)]
pub struct RuleIndex {
    words: Vec<u16>,
}

impl RuleIndex {
    pub fn new(program: &Program) -> RuleIndex {
        let mut words = vec![0; program.atoms() + program.occurrences()];
        let length = lent::index_rules(&program.rules, &mut words);
        words.truncate(length.expect("the store of an accepted text has an index"));
        RuleIndex { words }
    }

    /// For each atom in declared order the count of its rules and then their numbers, rising.
    pub fn words(&self) -> &[u16] {
        &self.words
    }

    /// The numbers of each atom's rules, rising; the atoms in declared order.
    pub fn lists(&self) -> impl Iterator<Item = &[u16]> {
        let mut left = self.words.as_slice();
        std::iter::from_fn(move || {
            let (count, rest) = left.split_first()?;
            let (list, rest) = rest.split_at(usize::from(*count));
            left = rest;
            Some(list)
        })
    }

    /// The program with the rule behind its last one, and its index. The names stay. Refused are a rule
    /// that breaks the form or passes a limit, and a program of which this is not the index.
    ///
    /// To go on with flips, put the new rule's number behind the list where the set breaks it.
    pub fn add_rule(
        &self,
        program: &Program,
        rule: Rule<'_>,
    ) -> Result<(Program, RuleIndex), Refusal> {
        let rule = words_of(rule).ok_or(Refusal::RuleStore)?;
        let mut rules = vec![0; program.rules.len() + rule.len()];
        let mut words = vec![0; self.words.len() + rule.len()];
        let grown = lent::add_rule(&program.rules, &self.words, &rule, &mut rules, &mut words)?;
        rules.truncate(grown.words);
        words.truncate(grown.index_words);
        let names = program.names.clone();
        Ok((Program { rules, names }, RuleIndex { words }))
    }

    /// The list's rules that don't hold the atom, joined with those of the atom's rules that the flipped
    /// set breaks, in rising order. The set is the one before the flip, and the list one of rising rule
    /// numbers. From the rules that the set breaks this gives those that the flipped set breaks: for a
    /// model start with none, for the empty set with the rules that have no body.
    ///
    /// Refused are a program of which this is not the index, a list that is not so, over 60 atoms, and a
    /// set or an atom that the program does not have.
    pub fn flip(
        &self,
        program: &Program,
        list: &[u16],
        set: u64,
        atom: usize,
    ) -> Result<Vec<u16>, Refusal> {
        let mut out = vec![0; program.rules()];
        let index = &self.words;
        let count = lent::flip(&program.rules, index, list, set, atom as u64, &mut out)?;
        out.truncate(count);
        Ok(out)
    }
}

/// The rule in a store's words; nothing where a list is too long for any store.
fn words_of(rule: Rule<'_>) -> Option<Vec<u16>> {
    let lists = [rule.head, rule.body, rule.not];
    let counts = lists.iter().map(|list| u16::try_from(list.len()));
    let mut words: Vec<u16> = counts.collect::<Result<_, _>>().ok()?;
    words.extend(lists.into_iter().flatten());
    Some(words)
}
