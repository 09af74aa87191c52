//! Document 02, W-209, through the binding: the index of rules, its growth, and flips.

use rigtomato::{lent, Program, Refusal, Rule, RuleIndex};

const FILE_A: &str = "(min sensor)\n(min lamp)\n(vary dark)\n(fix)\n\
    (rule (head sensor lamp) (body) (not))\n(rule (head dark) (body lamp) (not))\n";

/// An atom in two lists of a rule, one in no rule, and a rule without atoms.
const PLAIN: &str = "(atoms a b c d)\n(rule (head a b) (body) (not c))\n\
    (rule (head b) (body a) (not))\n(rule (head) (body c) (not a))\n\
    (rule (head c) (body) (not c))\n(rule (head) (body) (not))\n";

fn read(text: &str) -> Program {
    Program::read(text.as_bytes()).unwrap()
}

fn lists(index: &RuleIndex) -> Vec<Vec<u16>> {
    index.lists().map(<[u16]>::to_vec).collect()
}

/// The rules that the set breaks, by testing each of them.
fn broken_rules(program: &Program, set: u64) -> Vec<u16> {
    let has = |atom: &u16| (set >> atom) & 1 == 1;
    let broken = |rule: &Rule| {
        rule.body.iter().all(has) && !rule.not.iter().any(has) && !rule.head.iter().any(has)
    };
    let numbered = (0..).zip(program.rule_lists());
    let found = numbered.filter(|(_, rule)| broken(rule));
    found.map(|(number, _)| number).collect()
}

/// A run of numbers that is always the same (splitmix64).
struct Random(u64);

impl Random {
    fn any(&mut self) -> u64 {
        self.0 = self.0.wrapping_add(0x9e37_79b9_7f4a_7c15);
        let z = (self.0 ^ (self.0 >> 30)).wrapping_mul(0xbf58_476d_1ce4_e5b9);
        let z = (z ^ (z >> 27)).wrapping_mul(0x94d0_49bb_1331_11eb);
        z ^ (z >> 31)
    }

    fn below(&mut self, bound: usize) -> usize {
        (self.any() % bound as u64) as usize
    }

    /// A list of up to so many different atoms.
    fn list(&mut self, atoms: usize, most: usize) -> Vec<u16> {
        let mut list: Vec<u16> = Vec::new();
        for _ in 0..self.below(most + 1) {
            let atom = self.below(atoms) as u16;
            if !list.contains(&atom) {
                list.push(atom);
            }
        }
        list
    }
}

fn names(count: usize) -> String {
    (0..count).map(|i| format!(" a{i}")).collect()
}

fn line(lists: [&[u16]; 3]) -> String {
    let [head, body, not] = lists.map(|list| -> String {
        let names = list.iter().map(|atom| format!(" a{atom}"));
        names.collect()
    });
    format!("(rule (head{head}) (body{body}) (not{not}))\n")
}

/// A plain program of 60 atoms with 4,200 rules.
fn plain_of_60_atoms() -> Program {
    let mut random = Random(209);
    let mut text = format!("(atoms{})\n", names(60));
    for _ in 0..4_200 {
        let [head, body, not] = [3, 4, 3].map(|most| random.list(60, most));
        text += &line([&head, &body, &not]);
    }
    read(&text)
}

/// A preference file of seven atoms with twelve rules, which have them all.
fn small_file() -> Program {
    let mut random = Random(7);
    let mut text = "(min a0 a1)\n(min a2)\n(vary a3 a4)\n(fix a5 a6)\n".to_string();
    text += &line([&[0, 1, 2, 3], &[4, 5, 6], &[]]);
    for _ in 0..11 {
        let [head, body] = [2, 2].map(|most| random.list(7, most));
        text += &line([&head, &body, &[]]);
    }
    read(&text)
}

#[test]
fn the_index_of_a_program_of_each_kind() {
    let index = RuleIndex::new(&read(FILE_A));
    assert_eq!(index.words(), [1, 0, 2, 0, 1, 1, 1]);
    let index = RuleIndex::new(&read(PLAIN));
    assert_eq!(index.words(), [3, 0, 1, 2, 2, 0, 1, 3, 0, 2, 3, 0]);
    assert_eq!(
        lists(&index),
        [vec![0, 1, 2], vec![0, 1], vec![0, 2, 3], vec![]]
    );
    for nothing in ["(vary a)\n(fix)\n", "(atoms)\n(rule (head) (body) (not))\n"] {
        assert_eq!(RuleIndex::new(&read(nothing)).words(), []);
    }
}

#[test]
fn flips() {
    let file = read(FILE_A);
    let index = RuleIndex::new(&file);
    assert_eq!(index.flip(&file, &[0], 0b000, 1), Ok(vec![1]));
    assert_eq!(index.flip(&file, &[1], 0b010, 2), Ok(vec![]));
    assert_eq!(index.flip(&file, &[], 0b110, 1), Ok(vec![0]));
    let plain = read(PLAIN);
    let index = RuleIndex::new(&plain);
    let flip = |list: &[u16], set, atom| index.flip(&plain, list, set, atom).unwrap();
    assert_eq!(flip(&[0, 3, 4], 0b0000, 0), [1, 3, 4]);
    assert_eq!(flip(&[1, 3, 4], 0b0001, 2), [1, 4]);
    assert_eq!(flip(&[1, 4], 0b0101, 0), [2, 4]);
    assert_eq!(flip(&[2, 4], 0b0100, 3), [2, 4]);
    // Lists that are no set's broken rules.
    assert_eq!(flip(&[], 0b0000, 2), [2]);
    assert_eq!(flip(&[0, 2, 4], 0b0000, 1), [2, 4]);
    assert_eq!(flip(&[0, 1, 2, 3, 4], 0b0000, 3), [0, 1, 2, 3, 4]);
    assert_eq!(flip(&[1], 0b0100, 2), [0, 1, 3]);
}

/// From a set's broken rules each flip gives the flipped set's.
fn run_of_flips(program: &Program, seed: u64) {
    let index = RuleIndex::new(program);
    let mut random = Random(seed);
    let mut set = 0;
    let bodiless = (0..)
        .zip(program.rule_lists())
        .filter(|(_, rule)| rule.body.is_empty());
    let mut broken: Vec<u16> = bodiless.map(|(number, _)| number).collect();
    for _ in 0..10_000 {
        let atom = random.below(program.atoms());
        broken = index.flip(program, &broken, set, atom).unwrap();
        set ^= 1 << atom;
        assert_eq!(broken, broken_rules(program, set), "set {set}");
    }
}

#[test]
fn flips_beside_testing_every_rule() {
    let plain = plain_of_60_atoms();
    assert_eq!((plain.atoms(), plain.rules()), (60, 4_200));
    run_of_flips(&plain, 1);
    let small = small_file();
    assert_eq!((small.atoms(), small.rules()), (7, 12));
    run_of_flips(&small, 2);
}

/// For any rising list: its rules without the atom, and those of the atom that the flipped set breaks.
#[test]
fn flips_of_any_list() {
    for program in [read(PLAIN), small_file()] {
        let index = RuleIndex::new(&program);
        let lists = lists(&index);
        let mut random = Random(3);
        for _ in 0..10_000 {
            let all = 0..program.rules() as u16;
            let list: Vec<u16> = all.clone().filter(|_| random.below(2) == 0).collect();
            let set = random.any() % (1 << program.atoms());
            let atom = random.below(program.atoms());
            let broken = broken_rules(&program, set ^ (1 << atom));
            let stays = |rule: &u16| match lists[atom].contains(rule) {
                true => broken.contains(rule),
                false => list.contains(rule),
            };
            let expected: Vec<u16> = all.filter(stays).collect();
            assert_eq!(index.flip(&program, &list, set, atom), Ok(expected));
        }
    }
}

#[test]
fn rules_are_added() {
    for whole in [read(FILE_A), read(PLAIN), small_file()] {
        let mut program = whole.clone();
        let mut index = RuleIndex::new(&program);
        for rule in whole.rule_lists() {
            (program, index) = index.add_rule(&program, rule).unwrap();
            assert_eq!(index, RuleIndex::new(&program));
            // What is added is the text's, as if it had been read.
            assert_eq!(Program::read(&program.write()), Ok(program.clone()));
        }
        assert_eq!(program.rules(), 2 * whole.rules());
        assert!(program
            .rule_lists()
            .skip(whole.rules())
            .eq(whole.rule_lists()));
        assert!(program.roles().eq(whole.roles()));
        assert_eq!(program.name_store(), whole.name_store());
    }
}

/// Rules added between flips: the new one joins the list where the set breaks it.
#[test]
fn flips_go_on_as_rules_are_added() {
    let mut random = Random(4);
    let mut program = small_file();
    let mut index = RuleIndex::new(&program);
    let (mut set, mut broken) = (0, broken_rules(&program, 0));
    for turn in 0..1_000 {
        let [head, body] = [2, 2].map(|most| random.list(7, most));
        let rule = Rule {
            head: &head,
            body: &body,
            not: &[],
        };
        (program, index) = index.add_rule(&program, rule).unwrap();
        let has = |atom: &u16| (set >> atom) & 1 == 1;
        if body.iter().all(has) && !head.iter().any(has) {
            broken.push(12 + turn);
        }
        let atom = random.below(7);
        broken = index.flip(&program, &broken, set, atom).unwrap();
        set ^= 1 << atom;
        assert_eq!(broken, broken_rules(&program, set));
    }
    assert_eq!(program.rules(), 1_012);
}

#[test]
fn refusals_of_the_binding() {
    let (file, plain) = (read(FILE_A), read(PLAIN));
    let (of_file, of_plain) = (RuleIndex::new(&file), RuleIndex::new(&plain));
    let rule = |head, body, not| Rule { head, body, not };
    let empty = rule(&[], &[], &[]);
    assert_eq!(of_plain.flip(&file, &[], 0, 0), Err(Refusal::RuleIndex));
    assert_eq!(of_plain.add_rule(&file, empty), Err(Refusal::RuleIndex));
    let (grown, _) = of_file
        .add_rule(&file, rule(&[0], &[2], &[]))
        .expect("it is of the form");
    assert_eq!(of_file.flip(&grown, &[], 0, 0), Err(Refusal::RuleIndex));
    assert_eq!(of_file.flip(&file, &[2], 0, 0), Err(Refusal::RuleIndex));
    assert_eq!(of_file.flip(&file, &[], 8, 0), Err(Refusal::SetTooLarge));
    assert_eq!(of_file.flip(&file, &[], 0, 3), Err(Refusal::SetTooLarge));
    let long = vec![0; 70_000];
    for broken in [
        rule(&[3], &[], &[]),
        rule(&[], &[1, 1], &[]),
        rule(&[], &[], &[0]),
        rule(&long, &[], &[]),
    ] {
        let refused = of_file.add_rule(&file, broken);
        assert_eq!(refused, Err(Refusal::RuleStore));
    }
    assert!(of_plain.add_rule(&plain, rule(&[], &[], &[0])).is_ok());
    assert_eq!(Refusal::RuleIndex as u64, 19);
    assert_eq!(
        Refusal::RuleIndex.to_string(),
        "the index is not that of the rule store, or the list is not of rising rule numbers \
         (refusal 19)"
    );
}

const MARK: u16 = 0xa5a5;

/// What a call wrote at the front of an output of marks, or its refusal. All else is marked still.
fn written(mut out: Vec<u16>, answer: Result<usize, Refusal>) -> Result<Vec<u16>, Refusal> {
    let rest = out.split_off(answer.unwrap_or(0));
    assert!(rest.iter().all(|word| *word == MARK));
    answer.map(|_| out)
}

/// What is handed to `index_rules`, `add_rule` and `flip`.
#[derive(Clone)]
struct Handed {
    rules: Vec<u16>,
    index: Vec<u16>,
    rule: Vec<u16>,
    list: Vec<u16>,
    set: u64,
    atom: u64,
}

impl Handed {
    fn of(program: &Program, rule: &[u16]) -> Handed {
        Handed {
            rules: program.rule_store().to_vec(),
            index: RuleIndex::new(program).words().to_vec(),
            rule: rule.to_vec(),
            list: vec![0, 1],
            set: 1,
            atom: 2,
        }
    }

    fn with(&self, change: impl FnOnce(&mut Handed)) -> Handed {
        let mut handed = self.clone();
        change(&mut handed);
        handed
    }

    fn index_rules(&self, room: usize) -> Result<Vec<u16>, Refusal> {
        let mut out = vec![MARK; room];
        let words = lent::index_rules(&self.rules, &mut out);
        written(out, words)
    }

    fn add_rule(&self, rooms: (usize, usize)) -> Result<(Vec<u16>, Vec<u16>), Refusal> {
        let (mut rules, mut index) = (vec![MARK; rooms.0], vec![MARK; rooms.1]);
        let grown = lent::add_rule(&self.rules, &self.index, &self.rule, &mut rules, &mut index);
        let rules = written(rules, grown.map(|grown| grown.words));
        let index = written(index, grown.map(|grown| grown.index_words));
        Ok((rules?, index?))
    }

    fn flip(&self, room: usize) -> Result<Vec<u16>, Refusal> {
        let mut out = vec![MARK; room];
        let (rules, index, list) = (&self.rules, &self.index, &self.list);
        let count = lent::flip(rules, index, list, self.set, self.atom, &mut out);
        written(out, count)
    }
}

/// A preference store and a plain one, each with a rule that may be added.
fn both() -> [Handed; 2] {
    [
        Handed::of(&read(FILE_A), &[1, 1, 0, 0, 2]),
        Handed::of(&read(PLAIN), &[0, 0, 2, 3, 1]),
    ]
}

/// The words with each one raised, lowered, doubled or left out, with one more, and without any.
fn damaged(words: &[u16]) -> Vec<Vec<u16>> {
    let mut all = vec![[words, &[0]].concat(), [words, &[1]].concat()];
    for place in 0..words.len() {
        let (before, behind) = words.split_at(place);
        let (word, behind) = (behind[0], &behind[1..]);
        all.push([before, &[word.wrapping_add(1)], behind].concat());
        all.push([before, &[word.wrapping_sub(1)], behind].concat());
        all.push([before, &[word, word], behind].concat());
        all.push([before, behind].concat());
    }
    all.push(Vec::new());
    all
}

/// Rooms in which everything fits.
const ROOM: usize = 40;

#[test]
fn stores_that_are_not_of_the_form() {
    let [file, plain] = both();
    let stores = [
        vec![],
        vec![0, 0, 0],
        vec![2, 0, 0, 0],
        vec![0, 1_101, 0, 0],
        vec![0, 0, 1, 0],
        vec![0, 0, 0, 1],
        vec![0, 0, 0, 0, 0],
        vec![0, 1, 0, 1, 1, 0, 0, 1],
        vec![0, 1, 0, 1, 0, 2, 0, 0, 0],
        vec![0, 1, 0, 1, 0, 65_535, 0, 0],
        vec![1, 1, 0, 0, 1],
        vec![1, 2, 1, 0, 17, 1],
        vec![1, 1, 0, 1, 17, 0, 0, 1, 0],
    ];
    let cut = [&file, &plain].map(|whole| whole.rules[..whole.rules.len() - 1].to_vec());
    for rules in stores.into_iter().chain(cut) {
        for whole in [&file, &plain] {
            // A fault of every later check stands behind.
            let handed = Handed {
                rules: rules.clone(),
                set: u64::MAX,
                list: vec![1, 0],
                ..whole.clone()
            };
            for room in [0, ROOM] {
                assert_eq!(handed.index_rules(room), Err(Refusal::RuleStore));
                assert_eq!(handed.add_rule((room, room)), Err(Refusal::RuleStore));
                assert_eq!(handed.flip(room), Err(Refusal::RuleStore));
            }
        }
    }
}

#[test]
fn rules_that_break_the_form() {
    for handed in both() {
        let atoms = handed.rules[1];
        let broken = [
            vec![],
            vec![0, 0],
            vec![1, 0, 0],
            vec![0, 0, 0, 0],
            vec![1, 0, 0, atoms],
            vec![0, 1, 0, u16::MAX],
            vec![2, 0, 0, 1, 1],
            vec![0, 2, 0, 1, 1],
            vec![0, 0, 2, 1, 1],
            vec![0, 0, 0, 0, 0, 0],
            vec![65_535, 0, 0],
            vec![65_535, 65_535, 65_535, 0],
        ];
        let filled_not = (handed.rules[0] == 1).then(|| vec![0, 0, 1, 0]);
        for rule in broken.into_iter().chain(filled_not) {
            let handed = handed.with(|handed| handed.rule = rule);
            let refused = Err(Refusal::RuleStore);
            assert_eq!(handed.add_rule((ROOM, ROOM)), refused);
            let without_index = handed.with(|handed| handed.index.clear());
            assert_eq!(without_index.add_rule((0, 0)), refused);
        }
    }
}

/// Stores with as many rules or as many atom places as may be.
#[test]
fn rules_past_the_limits() {
    for (store, classes, rules, occurrences) in [
        ([0, 32, 0], 0, 4_200, 24_000),
        ([1, 32, 0], 32, 1_024, 8_192),
    ] {
        let header = |rules: usize| [&store[..], &[rules as u16], &vec![17; classes]].concat();
        let all: Vec<u16> = (0..32).collect();
        let mut full = [&[32, 32, 0], &all[..], &all[..]]
            .concat()
            .repeat(occurrences / 64);
        full.splice(..0, header(occurrences / 64));
        let many = [header(rules), vec![0; 3 * rules]].concat();
        let add = |rules: &[u16], rule: &[u16]| {
            let mut index = vec![0; 25_100];
            let words = lent::index_rules(rules, &mut index).unwrap();
            index.truncate(words);
            let handed = Handed {
                rules: rules.to_vec(),
                index,
                rule: rule.to_vec(),
                list: vec![],
                set: 0,
                atom: 0,
            };
            handed.add_rule((36_604, 25_100)).map(|(rules, _)| rules)
        };
        let refused = Err(Refusal::RuleStore);
        assert_eq!(add(&full, &[0, 0, 0]).unwrap().len(), full.len() + 3);
        assert_eq!(add(&full, &[1, 0, 0, 7]), refused);
        assert_eq!(add(&many, &[0, 0, 0]), refused);
        let one_less = [header(rules - 1), vec![0; 3 * (rules - 1)]].concat();
        assert_eq!(add(&one_less, &[0, 0, 0]), Ok(many));
    }
}

#[test]
fn indexes_of_another_store() {
    let [file, plain] = both();
    for (whole, other) in [(&file, &plain), (&plain, &file)] {
        let mut indexes = damaged(&whole.index);
        indexes.push(other.index.clone());
        indexes.push(whole.rules.clone());
        for index in indexes {
            assert_ne!(index, whole.index);
            let handed = whole.with(|handed| handed.index = index);
            let later = handed.with(|handed| handed.set = u64::MAX);
            for room in [0, ROOM] {
                assert_eq!(handed.add_rule((room, room)), Err(Refusal::RuleIndex));
                assert_eq!(handed.flip(room), Err(Refusal::RuleIndex));
                assert_eq!(later.flip(room), Err(Refusal::RuleIndex));
            }
        }
    }
    // Every index with one word less or more, of one atom and one rule.
    let one = Handed::of(
        &read("(atoms a)\n(rule (head a) (body a) (not a))\n"),
        &[0; 3],
    );
    assert_eq!(one.index, [1, 0]);
    for words in [
        &[0][..],
        &[1],
        &[0, 0],
        &[1, 1],
        &[2, 0],
        &[1, 0, 0],
        &[2, 0, 0],
    ] {
        let handed = one.with(|handed| {
            handed.index = words.to_vec();
            handed.list.clear();
        });
        assert_eq!(handed.flip(ROOM), Err(Refusal::RuleIndex));
    }
}

#[test]
fn lists_that_are_not_rising_rule_numbers() {
    let [file, plain] = both();
    let refused = Err(Refusal::RuleIndex);
    for (whole, rules) in [(&file, 2), (&plain, 5)] {
        let lists = [
            vec![rules],
            vec![0, rules],
            vec![u16::MAX],
            vec![0, 0],
            vec![1, 1],
            vec![1, 0],
            vec![0, 1, 0],
            vec![0, 1, 1],
            vec![0; ROOM],
            (0..=rules).collect(),
        ];
        for list in lists {
            let handed = whole.with(|handed| handed.list = list);
            let later = handed.with(|handed| handed.atom = u64::MAX);
            for room in [0, ROOM] {
                assert_eq!(handed.flip(room), refused);
                assert_eq!(later.flip(room), refused);
            }
        }
        let all = whole.with(|handed| handed.list = (0..rules).collect());
        assert!(all.flip(ROOM).is_ok());
    }
}

#[test]
fn sets_and_atoms_past_the_last() {
    for whole in both() {
        let atoms = u64::from(whole.rules[1]);
        let sets = [1 << atoms, (1 << atoms) + 1, 1 << 60, 1 << 63, u64::MAX];
        for set in sets {
            let handed = whole.with(|handed| handed.set = set);
            for room in [0, ROOM] {
                assert_eq!(handed.flip(room), Err(Refusal::SetTooLarge));
            }
        }
        for atom in [atoms, atoms + 1, 60, 64, 65_536, 1 << 32, 1 << 63, u64::MAX] {
            let handed = whole.with(|handed| handed.atom = atom);
            for room in [0, ROOM] {
                assert_eq!(handed.flip(room), Err(Refusal::SetTooLarge));
            }
        }
        let last = whole.with(|handed| (handed.set, handed.atom) = ((1 << atoms) - 1, atoms - 1));
        assert!(last.flip(ROOM).is_ok());
    }
    let many = |count: usize| {
        let rule = format!("(rule (head{}) (body a0) (not))\n", names(count));
        let program = read(&format!("(atoms{})\n{rule}", names(count)));
        let handed = Handed::of(&program, &[0; 3]);
        handed.with(|handed| handed.list = vec![0])
    };
    let sixty = many(60);
    assert_eq!(sixty.flip(ROOM), Ok(vec![]));
    let last = sixty.with(|handed| (handed.set, handed.atom) = (u64::MAX >> 4, 59));
    assert_eq!(last.flip(ROOM), Ok(vec![]));
    let past = sixty.with(|handed| handed.set = 1 << 60);
    assert_eq!(past.flip(ROOM), Err(Refusal::SetTooLarge));
    let past = sixty.with(|handed| handed.atom = 60);
    assert_eq!(past.flip(ROOM), Err(Refusal::SetTooLarge));
    for change in [1, u64::MAX] {
        let over = many(61).with(|handed| (handed.set, handed.atom) = (change, change));
        assert_eq!(over.flip(ROOM), Err(Refusal::TooManyAtoms));
        assert_eq!(over.flip(0), Err(Refusal::TooManyAtoms));
        let index = over.with(|handed| handed.index.clear());
        assert_eq!(index.flip(ROOM), Err(Refusal::RuleIndex));
        let list = over.with(|handed| handed.list.push(1));
        assert_eq!(list.flip(ROOM), Err(Refusal::RuleIndex));
    }
    // A program without atoms has none to flip.
    let none = Handed::of(&read("(atoms)\n(rule (head) (body) (not))\n"), &[0; 3]);
    let none = none.with(|handed| (handed.list, handed.set, handed.atom) = (vec![0], 0, 0));
    assert_eq!(none.flip(ROOM), Err(Refusal::SetTooLarge));
}

/// Outputs exact, one short and longer.
#[test]
fn lent_outputs() {
    let short = Refusal::OutputShort;
    for handed in both() {
        let words = handed.index.len();
        assert_eq!(handed.index_rules(words - 1), Err(short));
        assert_eq!(handed.index_rules(words), Ok(handed.index.clone()));
        assert_eq!(handed.index_rules(words + 9), Ok(handed.index.clone()));

        let grown = handed.add_rule((ROOM, ROOM)).unwrap();
        let mut store = [&handed.rules[..], &handed.rule].concat();
        store[3] += 1;
        assert_eq!(grown.0, store);
        let of_store = handed.with(|handed| handed.rules = store);
        assert_eq!(of_store.index_rules(ROOM).as_ref(), Ok(&grown.1));
        let (words, index_words) = (grown.0.len(), grown.1.len());
        assert_eq!(handed.add_rule((words, index_words)), Ok(grown));
        assert_eq!(handed.add_rule((words - 1, index_words)), Err(short));
        assert_eq!(handed.add_rule((words, index_words - 1)), Err(short));
        assert_eq!(handed.add_rule((ROOM, 0)), Err(short));
        assert_eq!(handed.add_rule((0, ROOM)), Err(short));

        let all: Vec<u16> = (0..handed.rules[3]).collect();
        let handed = handed.with(|handed| (handed.list, handed.atom) = (all, 0));
        let answer = handed.flip(ROOM).unwrap();
        assert!(answer.len() > 1);
        for room in 0..answer.len() {
            assert_eq!(handed.flip(room), Err(short));
        }
        assert_eq!(handed.flip(answer.len()), Ok(answer));
    }
}

/// The longest index, on a thread of the ordinary size.
#[test]
fn an_ordinary_thread_is_enough() {
    let mut text = format!("(atoms{})\n", names(1_100));
    for rule in 0..4_000_u16 {
        let atoms: Vec<u16> = (0..6).map(|i| (6 * rule + i) % 1_100).collect();
        text += &line([&atoms[..2], &atoms[2..4], &atoms[4..]]);
    }
    let work = move || {
        let plain = read(&text);
        let index = RuleIndex::new(&plain);
        assert_eq!(index.words().len(), 25_100);
        let empty = Rule {
            head: &[],
            body: &[],
            not: &[],
        };
        let (grown, same) = index.add_rule(&plain, empty).unwrap();
        assert_eq!((grown.rules(), &same), (4_001, &index));
        assert_eq!(index.flip(&plain, &[], 0, 0), Err(Refusal::TooManyAtoms));
        let plain = plain_of_60_atoms();
        let all: Vec<u16> = (0..4_200).collect();
        let flipped = RuleIndex::new(&plain).flip(&plain, &all, 0, 0);
        assert!(flipped.unwrap().len() < 4_200);
    };
    std::thread::spawn(work).join().unwrap();
}
