//! Programs of few atoms: every one of a kind, or drawn from a seed (splitmix64).

use reference::limits::Kind;
use reference::program::{Program, Role, Rule};

pub struct Draw(pub u64);

impl Draw {
    pub fn below(&mut self, bound: usize) -> usize {
        self.0 = self.0.wrapping_add(0x9e37_79b9_7f4a_7c15);
        let mut z = self.0;
        z = (z ^ (z >> 30)).wrapping_mul(0xbf58_476d_1ce4_e5b9);
        z = (z ^ (z >> 27)).wrapping_mul(0x94d0_49bb_1331_11eb);
        ((z ^ (z >> 31)) % bound as u64) as usize
    }

    /// Each atom with one chance in `often`.
    fn list(&mut self, atoms: usize, often: usize) -> Vec<usize> {
        (0..atoms).filter(|_| self.below(often) == 0).collect()
    }

    fn rule(&mut self, kind: Kind, atoms: usize) -> Rule {
        Rule {
            head: self.list(atoms, 3),
            body: self.list(atoms, 4),
            not: match kind {
                Kind::Plain => self.list(atoms, 5),
                Kind::Preference => Vec::new(),
            },
        }
    }

    /// A program of either kind with at most so many atoms and rules.
    pub fn program(&mut self, kind: Kind, most_atoms: usize, most_rules: usize) -> Program {
        let mut program = Program::empty(kind);
        program.atoms = self.below(most_atoms + 1);
        if kind == Kind::Preference {
            let mut words: Vec<usize> = (0..program.atoms).map(|_| self.below(4)).collect();
            words.sort_unstable();
            set_roles(&mut program, &words);
        }
        let rules = self.below(most_rules + 1);
        program.rules = (0..rules).map(|_| self.rule(kind, program.atoms)).collect();
        program
    }
}

/// Two classes, then varying, then fixed: 0 to 3.
fn set_roles(program: &mut Program, words: &[usize]) {
    const ROLES: [Role; 4] = [
        Role::Minimised(1),
        Role::Minimised(2),
        Role::Varying,
        Role::Fixed,
    ];
    program.classes = 2;
    program.roles = words.iter().map(|&word| ROLES[word]).collect();
}

/// Every list of so many digits below the base.
fn digits(base: usize, count: usize) -> Vec<Vec<usize>> {
    let mut all = vec![Vec::new()];
    for _ in 0..count {
        let longer = |list: &Vec<usize>| -> Vec<Vec<usize>> {
            let with = |digit| [&list[..], &[digit]].concat();
            (0..base).map(with).collect()
        };
        all = all.iter().flat_map(longer).collect();
    }
    all
}

/// Every rule of so many atoms: an atom stands in any of the lists, in none or in several.
fn every_rule(kind: Kind, atoms: usize) -> Vec<Rule> {
    let ways = match kind {
        Kind::Plain => 8,
        Kind::Preference => 4,
    };
    let rule = |places: Vec<usize>| {
        let list = |bit: usize| (0..atoms).filter(|&a| places[a] >> bit & 1 == 1).collect();
        Rule {
            head: list(0),
            body: list(1),
            not: list(2),
        }
    };
    digits(ways, atoms).into_iter().map(rule).collect()
}

/// Every way to declare so many atoms.
fn declarations(kind: Kind, atoms: usize) -> Vec<Program> {
    let mut bare = Program::empty(kind);
    bare.atoms = atoms;
    if kind == Kind::Plain {
        return vec![bare];
    }
    let mut words = digits(4, atoms);
    words.retain(|words| words.windows(2).all(|pair| pair[0] <= pair[1]));
    let file = |words: Vec<usize>| {
        let mut file = bare.clone();
        set_roles(&mut file, &words);
        file
    };
    words.into_iter().map(file).collect()
}

/// No rule, each rule, and each two of them up to their order.
fn up_to_two(rules: &[Rule]) -> Vec<Vec<Rule>> {
    let mut lists = vec![Vec::new()];
    for (at, one) in rules.iter().enumerate() {
        lists.push(vec![one.clone()]);
        lists.extend(rules[at..].iter().map(|two| vec![one.clone(), two.clone()]));
    }
    lists
}

fn every_program_of(kind: Kind, atoms: usize) -> Vec<Program> {
    let lists = up_to_two(&every_rule(kind, atoms));
    let mut programs = Vec::new();
    for program in declarations(kind, atoms) {
        for rules in lists.clone() {
            let program = program.clone();
            programs.push(Program { rules, ..program });
        }
    }
    programs
}

/// Every program of up to two atoms and two rules, and so many that are drawn and larger.
pub fn programs(kind: Kind, drawn: usize) -> Vec<Program> {
    let small = (0..=2).flat_map(|atoms| every_program_of(kind, atoms));
    let mut draw = Draw(207);
    let larger = (0..drawn).map(|_| draw.program(kind, 6, 12));
    small.chain(larger).collect()
}
