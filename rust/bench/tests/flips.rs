//! What is timed of the index of rules has to answer as document 02, W-209, words it.

use bench::flips::{self, Checked};
use bench::inputs;
use compare::generate::{plain, preference, Size};
use compare::random::Random;
use compare::spoil;
use reference::program::{Program, Rule};
use reference::stores::{check_rules, rule_store};

const MARK: u16 = 0xa5a5;

fn holds_atom(rule: &Rule, atom: usize) -> bool {
    rule.lists().iter().any(|list| list.contains(&atom))
}

fn is_broken(rule: &Rule, set: u64) -> bool {
    let is_in = |atom: &usize| (set >> atom) & 1 == 1;
    rule.body.iter().all(is_in) && !rule.not.iter().any(is_in) && !rule.head.iter().any(is_in)
}

/// The numbers of the rules that pass.
fn numbers(program: &Program, mut passes: impl FnMut(u16, &Rule) -> bool) -> Vec<u16> {
    let numbered = (0..).zip(&program.rules);
    let passing = numbered.filter(|(number, rule)| passes(*number, rule));
    passing.map(|(number, _)| number).collect()
}

fn index_of(program: &Program) -> Vec<u16> {
    let lists = (0..program.atoms).map(|atom| numbers(program, |_, rule| holds_atom(rule, atom)));
    lists
        .flat_map(|list| [vec![list.len() as u16], list].concat())
        .collect()
}

/// Everything that can be handed in.
#[derive(Clone, Debug, Default)]
struct Handed {
    rules: Vec<u16>,
    index: Vec<u16>,
    rule: Vec<u16>,
    list: Vec<u16>,
    set: u64,
    atom: u64,
}

impl Handed {
    fn program(&self) -> Result<Program, u64> {
        check_rules(&self.rules).map_err(|reason| reason as u64)
    }

    fn defined_index(&self) -> Result<Vec<u16>, u64> {
        Ok(index_of(&self.program()?))
    }

    fn defined_growth(&self) -> Result<[Vec<u16>; 2], u64> {
        let program = self.program()?;
        let mut grown = [&self.rules[..], &self.rule].concat();
        grown[3] += 1;
        let with_rule = check_rules(&grown).map_err(|reason| reason as u64)?;
        if self.index != index_of(&program) {
            return Err(19);
        }
        Ok([grown, index_of(&with_rule)])
    }

    fn defined_flip(&self) -> Result<Vec<u16>, u64> {
        let program = self.program()?;
        let rules = program.rules.len();
        let rising = self.list.windows(2).all(|pair| pair[0] < pair[1]);
        let below = self.list.iter().all(|rule| usize::from(*rule) < rules);
        if self.index != index_of(&program) || !rising || !below {
            return Err(19);
        }
        if program.atoms > 60 {
            return Err(11);
        }
        if self.set >= 1 << program.atoms || self.atom >= program.atoms as u64 {
            return Err(12);
        }
        let flipped = self.set ^ (1 << self.atom);
        Ok(numbers(&program, |number, rule| {
            match holds_atom(rule, self.atom as usize) {
                true => is_broken(rule, flipped),
                false => self.list.contains(&number),
            }
        }))
    }

    /// Holds the three fast calls to what is defined, with outputs of so many words.
    fn hold(&self, room: usize) {
        let Handed {
            rules,
            index,
            rule,
            list,
            ..
        } = self;
        let mut out = vec![MARK; room];
        let words = flips::index_rules(rules, &mut out);
        let expected = lent(self.defined_index().map(|index| [index]), [room]);
        assert_eq!((words.map(|words| [words]), [out]), expected, "{self:?}");

        let (mut rules_out, mut index_out) = (vec![MARK; room], vec![MARK; room]);
        let words = flips::add_rule(rules, index, rule, &mut rules_out, &mut index_out);
        let words = words.map(|(words, index_words)| [words, index_words]);
        let expected = lent(self.defined_growth(), [room, room]);
        assert_eq!((words, [rules_out, index_out]), expected, "{self:?}");

        let mut out = vec![MARK; room];
        let count = flips::flip(rules, index, list, self.set, self.atom, &mut out);
        let expected = lent(self.defined_flip().map(|list| [list]), [room]);
        assert_eq!((count.map(|count| [count]), [out]), expected, "{self:?}");
    }
}

/// Lengths or a refusal's number, and the outputs afterwards.
type Left<const N: usize> = (Result<[usize; N], u64>, [Vec<u16>; N]);

/// What is left by a call that writes these words into marked outputs of these lengths.
fn lent<const N: usize>(words: Result<[Vec<u16>; N], u64>, rooms: [usize; N]) -> Left<N> {
    let mut outputs = rooms.map(|room| vec![MARK; room]);
    let words = words.and_then(|words| {
        let fit = words
            .iter()
            .zip(rooms)
            .all(|(words, room)| words.len() <= room);
        fit.then_some(words).ok_or(9)
    });
    if let Ok(words) = &words {
        for (out, words) in outputs.iter_mut().zip(words) {
            out[..words.len()].copy_from_slice(words);
        }
    }
    (words.map(|words| words.map(|words| words.len())), outputs)
}

/// The rule in a store's words.
fn rule_words(rule: &Rule) -> Vec<u16> {
    let counts = rule.lists().map(<[usize]>::len);
    let words = counts.into_iter().chain(rule.lists().concat());
    words.map(|word| word as u16).collect()
}

/// A store with its index, a rule of its last one's form, a rising list, a set and an atom.
fn right(random: &mut Random, size: Size) -> Handed {
    let (mut program, _) = match random.once_in(2) {
        true => plain(random, size),
        false => preference(random, size),
    };
    let rule = program.rules.pop().unwrap_or_default();
    let list = numbers(&program, |_, _| random.once_in(2));
    let all = 1u64.checked_shl(program.atoms as u32);
    Handed {
        rules: rule_store(&program),
        index: index_of(&program),
        rule: rule_words(&rule),
        list,
        set: all.map_or(random.any(), |all| random.any() % all),
        atom: random.below(program.atoms.max(1)) as u64,
    }
}

fn damage(random: &mut Random, handed: &mut Handed) {
    match random.below(7) {
        0 => spoil::rules(random, &mut handed.rules),
        1 => spoil::rules(random, &mut handed.rule),
        2 | 3 => spoil::rules(random, &mut handed.index),
        4 => spoil::rules(random, &mut handed.list),
        5 => handed.set = random.any() >> random.below(64),
        _ => handed.atom = random.any() >> random.below(64),
    }
}

#[test]
fn the_fast_index_and_flips() {
    let mut random = Random::new(209);
    for (atoms, turns) in [(1, 2_000), (8, 20_000), (62, 6_000)] {
        for turn in 0..turns {
            let size = Size {
                atoms,
                ..Size::SMALL
            };
            let mut handed = right(&mut random, size);
            for _ in 0..turn % 3 {
                damage(&mut random, &mut handed);
            }
            handed.hold(random.within(0, 60));
            handed.hold(200);
        }
    }
}

/// Stores with as many rules, as many places and as many atoms as may be.
#[test]
fn the_limits() {
    let run = inputs::flips(24_000);
    let (others, rule) = run.rules.split_at(run.last_rule);
    let mut others = others.to_vec();
    others[3] -= 1;
    let index = index_of(&check_rules(&others).expect("a store of the form"));
    let (set, atom) = run.flips[60];
    let handed = Handed {
        rules: others,
        index,
        rule: rule.to_vec(),
        list: run.broken[60].clone(),
        set,
        atom,
    };
    assert_eq!(
        handed.defined_growth(),
        Ok([run.rules.clone(), run.index.clone()])
    );
    handed.hold(40_000);
    // One place more, and one rule more.
    let longer = Handed {
        rule: [
            &[0, 0, rule.len() as u16 - 2],
            &(0..).take(rule.len() - 2).collect::<Vec<_>>()[..],
        ]
        .concat(),
        ..handed.clone()
    };
    assert_eq!(longer.defined_growth(), Err(10));
    longer.hold(40_000);
    let full = Handed {
        rules: run.rules,
        index: run.index,
        rule: vec![0, 0, 0],
        ..handed
    };
    assert_eq!(full.defined_growth(), Err(10));
    full.hold(40_000);
    let mut random = Random::new(1_100);
    let size = Size {
        atoms: 1_100,
        rules: 4_200,
        list: 2,
    };
    let (most, _) = plain(&mut random, size);
    let handed = Handed {
        rules: rule_store(&most),
        index: index_of(&most),
        ..Handed::default()
    };
    assert_eq!(handed.defined_flip(), Err(11));
    handed.hold(40_000);
}

/// The inputs of the rows are what they say.
#[test]
fn the_flips() {
    for places in [24_000, 12_600] {
        let run = inputs::flips(places);
        let program = check_rules(&run.rules).expect("a store of the form");
        assert_eq!((program.atoms, program.rules.len()), (60, 4_200));
        assert_eq!(program.occurrences(), places);
        assert_eq!(run.index, index_of(&program));
        let broken = |set| numbers(&program, |_, rule| is_broken(rule, set));
        assert_eq!(run.broken[0], broken(0));
        let checked = Checked::new(&run.rules, &run.index).expect("a store with its index");
        let mut out = vec![0; 4_200];
        for (i, (set, atom)) in run.flips.iter().enumerate() {
            let flipped = set ^ (1 << atom);
            assert_eq!(run.broken[i + 1], broken(flipped));
            let count = checked.flip(&run.broken[i], *set, *atom as usize, &mut out);
            assert_eq!(out[..count.unwrap()], run.broken[i + 1]);
            let count = flips::checked_broken_rules(&run.rules, flipped, &mut out);
            assert_eq!(out[..count.unwrap()], run.broken[i + 1]);
            if let Some((next, _)) = run.flips.get(i + 1) {
                assert_eq!(*next, flipped);
            }
        }
        assert_eq!(
            flips::checked_broken_rules(&run.rules[1..], 0, &mut out),
            Err(10)
        );
    }
}
