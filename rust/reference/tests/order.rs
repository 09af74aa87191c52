//! Document 02, W-206: the order of sets and their places, tried on all sets of few atoms.

use reference::verdicts::{holds, place};

/// Of two sets, the earlier is the one lacking the first declared atom on which they differ.
fn earlier(atoms: usize, one: u64, other: u64) -> bool {
    let first = (0..atoms).find(|&a| holds(one, a) != holds(other, a));
    first.is_some_and(|a| !holds(one, a))
}

#[test]
fn each_place_belongs_to_one_set() {
    for atoms in 0..=10 {
        let sets = 1u64 << atoms;
        let mut places: Vec<u64> = (0..sets).map(|set| place(atoms, set)).collect();
        places.sort_unstable();
        assert!(places.into_iter().eq(0..sets), "{atoms} atoms");
    }
}

#[test]
fn the_earlier_set_has_the_lower_place() {
    for atoms in 0..=6 {
        for one in 0..1 << atoms {
            for other in 0..1 << atoms {
                let lower = place(atoms, one) < place(atoms, other);
                assert_eq!(lower, earlier(atoms, one, other), "{one} {other}");
            }
        }
    }
}
