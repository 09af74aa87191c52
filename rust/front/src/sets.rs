//! Sets of up to 256 atoms.

const HIGHEST: u64 = 1 << 63;

/// A set of atoms. Of two sets, the lesser is the one lacking the first declared atom on which they
/// differ: the first atom is the highest bit of the first word.
#[derive(Clone, Copy, Debug, Default, PartialEq, Eq, PartialOrd, Ord)]
pub struct Set {
    words: [u64; 4],
}

impl Set {
    pub fn insert(&mut self, atom: usize) {
        self.words[atom / 64] |= HIGHEST >> (atom % 64);
    }

    /// The atoms in declared order.
    pub fn atoms(self) -> impl Iterator<Item = usize> {
        let words = self.words.into_iter().enumerate();
        words.flat_map(|(place, word)| ones(word).map(move |bit| 64 * place + bit))
    }

    /// The set's number, of a set of the first 64 atoms.
    pub fn number(self) -> u64 {
        self.words[0].reverse_bits()
    }
}

impl From<u64> for Set {
    fn from(number: u64) -> Set {
        Set {
            words: [number.reverse_bits(), 0, 0, 0],
        }
    }
}

impl FromIterator<usize> for Set {
    fn from_iter<I: IntoIterator<Item = usize>>(atoms: I) -> Set {
        let mut set = Set::default();
        for atom in atoms {
            set.insert(atom);
        }
        set
    }
}

/// The places of a word's ones, counted from the highest bit.
fn ones(mut word: u64) -> impl Iterator<Item = usize> {
    std::iter::from_fn(move || {
        let highest = (word != 0).then(|| word.leading_zeros() as usize)?;
        word ^= HIGHEST >> highest;
        Some(highest)
    })
}

#[cfg(test)]
mod tests {
    use super::*;

    #[test]
    fn members() {
        let atoms = [0, 1, 63, 64, 127, 128, 200, 255];
        let set: Set = atoms.into_iter().collect();
        assert_eq!(set.atoms().collect::<Vec<_>>(), atoms);
        assert_eq!(Set::from(6).atoms().collect::<Vec<_>>(), [1, 2]);
        assert_eq!(Set::from(6).number(), 6);
        assert_eq!(Set::default().atoms().count(), 0);
    }

    #[test]
    fn the_lesser_lacks_the_first_atom_on_which_they_differ() {
        let sets: [&[usize]; 11] = [
            &[],
            &[255],
            &[64, 65],
            &[63],
            &[63, 255],
            &[1],
            &[1, 64],
            &[1, 2],
            &[0],
            &[0, 64],
            &[0, 1],
        ];
        let mut sorted: Vec<Set> = sets.map(|atoms| atoms.iter().copied().collect()).to_vec();
        let expected = sorted.clone();
        sorted.reverse();
        sorted.sort_unstable();
        assert_eq!(sorted, expected);
    }
}
