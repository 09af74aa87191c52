//! The families of cases, each of which compares some calls.

use crate::checker::{Checked, Checker, Difference};
use crate::generate::{
    bare, edge_name, either, inverters, mixed, one_at_fault, partly_used, plain, preference, Size,
};
use crate::random::Random;
use crate::spoil;
use reference::lent;
use reference::limits::{Kind, BUDGET_LIMIT, HOUSE_NAME_LIMIT, TEXT_LIMIT};
use reference::program::{Names, Program, Role, Rule};
use reference::reader;
use reference::stores::{name_store, rule_store};
use reference::translator;
use reference::used_atoms::used_atoms;
use reference::verdicts::{self, holds, is_model, place, Next, Verdict};
use reference::writer;

/// The lengths of outputs worth lending where the result has this length.
pub fn lengths(random: &mut Random, length: usize) -> Vec<usize> {
    let mut all = vec![length, length + random.within(1, 40)];
    if length > 0 {
        all.push(length - 1);
        all.push(random.below(length));
    }
    all
}

/// Reads the text with outputs exact, short and long; where it is refused, with some outputs.
pub fn read(check: &mut Checker, random: &mut Random, text: &[u8]) -> Checked {
    let Ok((program, names)) = reader::read(text) else {
        let (rules_len, names_len) = *random.pick(&[(0, 0), (40, 40), (400, 400), (0, 999)]);
        return check.read(text, rules_len, names_len);
    };
    let words = rule_store(&program).len();
    let bytes = name_store(&names).len();
    check.read(text, words, bytes)?;
    check.read(
        text,
        words + random.within(1, 40),
        bytes + random.within(1, 40),
    )?;
    check.read(text, words - 1, bytes)?;
    if bytes > 0 {
        check.read(text, words, bytes - 1)?;
        check.read(text, random.below(words), random.below(bytes))?;
    }
    Ok(())
}

/// Writes the stores in both ways and translates them, with outputs exact, short and long.
pub fn texts_of_stores(
    check: &mut Checker,
    random: &mut Random,
    rules: &[u16],
    names: &[u8],
) -> Checked {
    let mut most = vec![0; TEXT_LIMIT];
    for out_len in match lent::write(rules, names, &mut most) {
        Ok(length) => lengths(random, length),
        Err(_) => vec![random.below(300)],
    } {
        check.write(rules, names, out_len)?;
    }
    for out_len in match lent::write_canonical(rules, names, &mut most) {
        Ok(length) => lengths(random, length),
        Err(_) => vec![random.below(300)],
    } {
        check.write_canonical(rules, names, out_len)?;
    }
    for out_len in match lent::translate(rules, names, &mut most) {
        Ok(length) => lengths(random, length),
        Err(_) => vec![random.below(300)],
    } {
        check.translate(rules, names, out_len)?;
    }
    Ok(())
}

/// A budget that is too small, just enough, more than enough or too large.
fn budgets(random: &mut Random, needed: u64) -> [u64; 3] {
    let small = if needed == 0 { 0 } else { needed - 1 };
    let other = match random.below(5) {
        0 => BUDGET_LIMIT,
        1 => BUDGET_LIMIT + 1,
        2 => u64::MAX,
        3 => random.any() % (needed + 1),
        _ => needed + 1,
    };
    [needed, small, other]
}

fn verdict_units(verdict: &Verdict) -> u64 {
    match verdict {
        Verdict::Yes { units } | Verdict::Beaten { units, .. } | Verdict::Spent { units } => *units,
        Verdict::Broken { .. } => 0,
    }
}

/// Verdicts on sets of a small program of either kind, and its next states.
pub fn verdicts(check: &mut Checker, random: &mut Random, program: &Program) -> Checked {
    let rules = rule_store(program);
    let sets = 1u64 << program.atoms;
    let mut chosen: Vec<u64> = if sets <= 8 {
        (0..sets).collect()
    } else {
        let models: Vec<u64> = (0..sets)
            .filter(|&set| is_model(&program.rules, set))
            .collect();
        let places = random.choose(5, models.len());
        let some = places.into_iter().map(|place| models[place]);
        some.chain([random.any() % sets, random.any() % sets])
            .collect()
    };
    chosen.extend([sets - 1, sets, u64::MAX]);
    for set in chosen {
        let verdict = match program.kind {
            Kind::Preference => lent::preferred(&rules, set, BUDGET_LIMIT),
            Kind::Plain => lent::stable(&rules, set, BUDGET_LIMIT),
        };
        for budget in budgets(random, verdict.as_ref().map_or(0, verdict_units)) {
            check.preferred(&rules, set, budget)?;
            check.stable(&rules, set, budget)?;
        }
    }
    next_states(check, random, &rules, sets)
}

fn next_states(check: &mut Checker, random: &mut Random, rules: &[u16], sets: u64) -> Checked {
    check.next_state(rules, sets, 0)?;
    check.next_state(rules, sets + 1, random.any() % 9)?;
    let mut start = 0;
    for _ in 0..6 {
        let Ok(next) = lent::next_state(rules, start, BUDGET_LIMIT) else {
            return check.next_state(rules, start, BUDGET_LIMIT);
        };
        let (set, needed) = match next {
            Next::State { set, units } => (Some(set), units),
            Next::None { units } | Next::Spent { units } => (None, units),
        };
        for budget in budgets(random, needed) {
            check.next_state(rules, start, budget)?;
        }
        match set {
            Some(set) => start = lent::place(rules, set).expect("a state has a place") + 1,
            None => break,
        }
    }
    check.next_state(rules, random.any() % sets, BUDGET_LIMIT)
}

/// A valid small file and all that can be asked of it.
pub fn valid(check: &mut Checker, random: &mut Random) -> Checked {
    let (program, names) = either(random, Size::SMALL);
    let text = writer::write(&program, &names);
    read(check, random, &text)?;
    texts_of_stores(check, random, &rule_store(&program), &name_store(&names))?;
    verdicts(check, random, &program)
}

/// A file's plain program: its text read again and, where it is small, verdicts on its sets.
fn plain_program(
    check: &mut Checker,
    random: &mut Random,
    file: &Program,
    names: &Names,
) -> Checked {
    let (plain, plain_names) = translator::translate(file, names);
    read(check, random, &writer::write(&plain, &plain_names))?;
    if plain.atoms > 16 {
        return Ok(());
    }
    let rules = rule_store(&plain);
    // Sets with the generated atoms that a stable set has, so that verdicts go deep.
    for _ in 0..8 {
        let chosen = random.any() & ((1 << file.atoms) - 1);
        let unchosen = (!chosen & ((1 << file.atoms) - 1)) << file.atoms;
        let others = ((1u64 << plain.atoms) - 1) & !((1 << (2 * file.atoms)) - 1);
        check.stable(&rules, chosen | unchosen | others, BUDGET_LIMIT)?;
        check.stable(&rules, random.any() & ((1 << plain.atoms) - 1), 1_000)?;
    }
    Ok(())
}

/// The stable sets of a small translation.
pub fn translated(check: &mut Checker, random: &mut Random) -> Checked {
    let size = Size {
        atoms: 3,
        rules: 3,
        list: 2,
    };
    let (file, names) = preference(random, size);
    plain_program(check, random, &file, &names)
}

/// The translation of a file whose rules mix minimised, varying and fixed atoms on both sides: the
/// choice rules of steps 1 and 2 go by these.
pub fn choices(check: &mut Checker, random: &mut Random) -> Checked {
    let most = random.within(1, 3);
    let (file, names) = mixed(random, most);
    texts_of_stores(check, random, &rule_store(&file), &name_store(&names))?;
    plain_program(check, random, &file, &names)
}

/// Faults in the names of atoms that stand in no rule: at the edges of what is allowed, or the name
/// of another atom.
fn unused_names(
    check: &mut Checker,
    random: &mut Random,
    file: &Program,
    names: &Names,
) -> Checked {
    let used = used_atoms(file);
    let unused: Vec<usize> = (0..file.atoms).filter(|a| !used.contains(a)).collect();
    for place in random.choose(3, unused.len()) {
        for name in [edge_name(random), random.pick(names).clone()] {
            let mut names = names.clone();
            names[unused[place]] = name;
            read(check, random, &writer::write(file, &names))?;
        }
    }
    Ok(())
}

/// A file of which some atoms stand in no rule: read, also with the room of all that is typed; then
/// what remains written back, read again, translated and walked through; the stores with all atoms
/// handed in; faults in the names that no rule has; the same rules in a plain program.
pub fn unused_atoms(check: &mut Checker, random: &mut Random) -> Checked {
    let size = match random.below(8) {
        0 => Size {
            atoms: 256,
            ..Size::SMALL
        },
        _ => Size::SMALL,
    };
    let (file, names) = partly_used(random, size);
    let text = writer::write(&file, &names);
    read(check, random, &text)?;
    check.read(&text, rule_store(&file).len(), name_store(&names).len())?;
    unused_names(check, random, &file, &names)?;
    let (left, left_names) = reader::read(&text).expect("an accepted text");
    for (file, names) in [(&file, &names), (&left, &left_names)] {
        texts_of_stores(check, random, &rule_store(file), &name_store(names))?;
        if file.atoms <= Size::SMALL.atoms {
            verdicts(check, random, file)?;
        }
    }
    read(check, random, &writer::write(&left, &left_names))?;
    plain_program(check, random, &left, &left_names)?;
    let plain = Program {
        atoms: file.atoms,
        rules: file.rules,
        ..Program::empty(Kind::Plain)
    };
    read(check, random, &writer::write(&plain, &names))
}

/// A small file with one to three damages.
pub fn damaged_text(check: &mut Checker, random: &mut Random) -> Checked {
    let (program, names) = either(random, Size::SMALL);
    let whole = writer::write(&program, &names);
    for turn in 0..40 {
        let mut text = whole.clone();
        for _ in 0..random.within(1, 3) {
            if turn % 2 == 0 {
                spoil::text(random, &mut text);
            } else {
                spoil::names_of_text(random, &mut text);
            }
        }
        read(check, random, &text)?;
    }
    Ok(())
}

/// A small file with one name at the edges of what is allowed, as a text and as stores.
pub fn edges_of_names(check: &mut Checker, random: &mut Random) -> Checked {
    let (program, mut names) = either(random, Size::SMALL);
    if names.is_empty() {
        return Ok(());
    }
    for _ in 0..10 {
        let place = random.below(names.len());
        let kept = std::mem::replace(&mut names[place], edge_name(random));
        read(check, random, &writer::write(&program, &names))?;
        texts_of_stores(check, random, &rule_store(&program), &name_store(&names))?;
        names[place] = kept;
    }
    Ok(())
}

/// No file at all.
pub fn soup(check: &mut Checker, random: &mut Random) -> Checked {
    for _ in 0..20 {
        let text = spoil::soup(random, 24);
        read(check, random, &text)?;
    }
    Ok(())
}

/// All functions that take stores, on whatever words and bytes.
fn any_stores(check: &mut Checker, random: &mut Random, rules: &[u16], names: &[u8]) -> Checked {
    texts_of_stores(check, random, rules, names)?;
    let number = *random.pick(&[0, 1, 5, 255, 256, u64::MAX]);
    let budget = *random.pick(&[0, 1, 20, BUDGET_LIMIT, BUDGET_LIMIT + 1]);
    // A damaged store may still say a program with more atoms than can be walked through.
    let budget = match rules.get(1) {
        Some(9..=60) => budget.min(300),
        _ => budget,
    };
    check.preferred(rules, number, budget)?;
    check.stable(rules, number, budget)?;
    check.next_state(rules, number, budget.min(2_000))?;
    check.place(rules, number)?;
    check.index_rules(rules, random.below(60))
}

/// Small stores with one to three damages.
pub fn damaged_stores(check: &mut Checker, random: &mut Random) -> Checked {
    let (program, names) = either(random, Size::SMALL);
    let whole = (rule_store(&program), name_store(&names));
    for _ in 0..10 {
        let (mut rules, mut names) = whole.clone();
        let (rule_damages, name_damages) = *random.pick(&[(1, 0), (0, 1), (2, 0), (0, 2), (1, 1)]);
        for _ in 0..rule_damages {
            spoil::rules(random, &mut rules);
        }
        for _ in 0..name_damages {
            spoil::names(random, &mut names);
        }
        any_stores(check, random, &rules, &names)?;
    }
    Ok(())
}

/// Each word of a small store replaced by each interesting word, and each byte of its name store
/// by each byte.
pub fn every_word(check: &mut Checker, random: &mut Random) -> Checked {
    let size = Size {
        atoms: 4,
        rules: 3,
        list: 2,
    };
    let (program, names) = either(random, size);
    let (rules, names) = (rule_store(&program), name_store(&names));
    for place in 0..rules.len() {
        for word in spoil::interesting_words(&rules) {
            let mut spoiled = rules.clone();
            spoiled[place] = word;
            any_stores(check, random, &spoiled, &names)?;
        }
    }
    for place in 0..names.len().min(8) {
        for byte in 0..=255 {
            let mut spoiled = names.clone();
            spoiled[place] = byte;
            check.write(&rules, &spoiled, 400)?;
            check.write_canonical(&rules, &spoiled, 400)?;
            check.translate(&rules, &spoiled, 4_000)?;
        }
    }
    Ok(())
}

/// Programs of up to 61 atoms, with budgets that a walk can be brought to its end with.
pub fn many_atoms(check: &mut Checker, random: &mut Random) -> Checked {
    let size = Size {
        atoms: 61,
        rules: 40,
        list: 4,
    };
    let (mut program, _) = either(random, size);
    if random.once_in(2) {
        // Nearly all fixed, so that the preferred walk has an end.
        for role in program.roles.iter_mut().skip(4) {
            *role = Role::Fixed;
        }
    }
    let rules = rule_store(&program);
    let sets = 1u64 << program.atoms;
    for _ in 0..6 {
        // The models among the sets near the full one and near the empty one.
        let mut set = random.any() & random.any() & random.any() & (sets - 1);
        if random.once_in(2) {
            set ^= sets - 1;
        }
        for budget in [0, 1, random.any() % 700] {
            check.preferred(&rules, set, budget)?;
            check.stable(&rules, set, budget)?;
            check.next_state(&rules, place(program.atoms, set), budget)?;
        }
    }
    for number in [sets - 1, sets, sets + 1, 1 << 60, u64::MAX] {
        let budget = *random.pick(&[0, 3, BUDGET_LIMIT + 1]);
        check.preferred(&rules, number, budget)?;
        check.stable(&rules, number, budget)?;
        check.next_state(&rules, number, budget)?;
    }
    Ok(())
}

/// A rule of short lists that holds at the set, or one that the set breaks. There is an atom.
fn rule_at(random: &mut Random, program: &Program, set: u64, holds: bool) -> Rule {
    loop {
        let mut list = || {
            let count = random.below(3);
            random.choose(count, program.atoms)
        };
        let rule = Rule {
            head: list(),
            body: list(),
            not: match program.kind {
                Kind::Plain => list(),
                Kind::Preference => Vec::new(),
            },
        };
        if is_model(std::slice::from_ref(&rule), set) == holds {
            return rule;
        }
    }
}

/// Stable verdicts by programs of which the reduct drops some rules, small ones and the largest:
/// on a model, on a set that breaks a rule or two, and on sets beside it.
pub fn reducts(check: &mut Checker, random: &mut Random) -> Checked {
    let mut program = Program::empty(Kind::Plain);
    program.atoms = random.within(1, 9);
    let sets = 1u64 << program.atoms;
    let set = random.any() % sets;
    let most = *random.pick(&[4, 4, 12, 12, 12, 60, 300, 4_200]);
    let count = random.within(most / 2, most);
    for _ in 0..count {
        let rule = rule_at(random, &program, set, true);
        program.rules.push(rule);
    }
    for _ in 0..random.below(3) {
        let place = random.below(count);
        program.rules[place] = rule_at(random, &program, set, false);
    }
    let rules = rule_store(&program);
    let beside = set ^ (1 << random.below(program.atoms));
    for set in [set, beside, random.any() % sets] {
        let verdict = lent::stable(&rules, set, BUDGET_LIMIT);
        for budget in budgets(random, verdict.as_ref().map_or(0, verdict_units)) {
            check.stable(&rules, set, budget)?;
        }
    }
    Ok(())
}

/// Budgets that are just enough, one less, one more, and any up to that.
fn around(random: &mut Random, needed: u64) -> [u64; 4] {
    let any = random.any() % (needed + 1);
    [needed, needed.saturating_sub(1), needed + 1, any]
}

/// The verdict on the set by the program's kind, with budgets around the units needed.
fn verdict_around(
    check: &mut Checker,
    random: &mut Random,
    program: &Program,
    set: u64,
) -> Result<Verdict, Difference> {
    let rules = rule_store(program);
    let verdict = match program.kind {
        Kind::Preference => verdicts::preferred(program, set, BUDGET_LIMIT),
        Kind::Plain => verdicts::stable(program, set, BUDGET_LIMIT),
    };
    for budget in around(random, verdict_units(&verdict)) {
        match program.kind {
            Kind::Preference => check.preferred(&rules, set, budget)?,
            Kind::Plain => check.stable(&rules, set, budget)?,
        }
    }
    Ok(verdict)
}

/// The next state from the start, with budgets around the units needed.
fn next_around(check: &mut Checker, random: &mut Random, file: &Program, start: u64) -> Checked {
    let rules = rule_store(file);
    let (Next::State { units, .. } | Next::None { units } | Next::Spent { units }) =
        verdicts::next_state(file, start, BUDGET_LIMIT);
    for budget in around(random, units) {
        check.next_state(&rules, start, budget)?;
    }
    Ok(())
}

/// Starts of every kind: the ends, the middle, a place from which a choice of some atoms goes on, the
/// places beside these, any.
fn starts(random: &mut Random, atoms: usize) -> Vec<u64> {
    let sets = 1u64 << atoms;
    let step = 1u64 << random.below(atoms + 1);
    let edges = [0, sets / 2, random.any() % (sets / step + 1) * step, sets];
    let beside = |edge: u64| [edge.saturating_sub(1), edge, edge + 1];
    let mut all: Vec<u64> = edges.into_iter().flat_map(beside).collect();
    all.push(random.any() % (sets + 1));
    all.retain(|&start| start <= sets);
    all
}

/// A small program with a set at which all its rules hold: none, few, or so many that most choices
/// are closed early.
fn with_a_model(random: &mut Random, kind: Kind) -> (Program, u64) {
    let size = Size {
        atoms: 8,
        rules: 0,
        list: 0,
    };
    let (mut program, _) = match kind {
        Kind::Preference => preference(random, size),
        Kind::Plain => plain(random, size),
    };
    let model = random.any() % (1 << program.atoms);
    if program.atoms > 0 {
        for _ in 0..*random.pick(&[0, 1, 2, 4, 8, 16, 60, 300]) {
            let rule = rule_at(random, &program, model, true);
            program.rules.push(rule);
        }
    }
    (program, model)
}

/// Walks over partial choices: verdicts on a model, on each set that beats the one before and on sets
/// beside it, and the next state from starts of every kind, all with budgets around the units needed.
pub fn partial_choices(check: &mut Checker, random: &mut Random) -> Checked {
    for kind in [Kind::Preference, Kind::Plain] {
        let (program, model) = with_a_model(random, kind);
        let sets = 1u64 << program.atoms;
        for set in [0, sets - 1, random.any() % sets] {
            verdict_around(check, random, &program, set)?;
        }
        let mut set = model;
        while let Verdict::Beaten { set: better, .. } =
            verdict_around(check, random, &program, set)?
        {
            set = better;
        }
        if kind == Kind::Preference {
            for start in starts(random, program.atoms) {
                next_around(check, random, &program, start)?;
            }
        }
    }
    Ok(())
}

/// A short row of inverters, with the faults in one class or each in its own, the last wires at times
/// fixed: verdicts on the sets with one fault, on all faults without a wire and on any set, and its
/// next states.
fn short_row(check: &mut Checker, random: &mut Random) -> Checked {
    let count = random.within(1, 3);
    let mut row = inverters(count);
    if random.once_in(3) {
        row.classes = count;
        row.roles = (1..=count).map(Role::Minimised).collect();
        row.roles.resize(row.atoms, Role::Varying);
    }
    if random.once_in(3) {
        let first = random.within(count, row.atoms - 1);
        row.roles[first..].fill(Role::Fixed);
    }
    for fault in 0..count {
        verdict_around(check, random, &row, one_at_fault(count, fault))?;
    }
    for set in [(1 << count) - 1, random.any() % (1 << row.atoms)] {
        verdict_around(check, random, &row, set)?;
    }
    for start in starts(random, row.atoms) {
        next_around(check, random, &row, start)?;
    }
    Ok(())
}

/// Rows of inverters: short ones, and long ones on which a set is soon beaten or a budget spent.
pub fn rows_of_inverters(check: &mut Checker, random: &mut Random) -> Checked {
    short_row(check, random)?;
    let count = random.within(6, 29);
    let row = inverters(count);
    verdict_around(check, random, &row, (1 << count) - 1)?;
    let rules = rule_store(&row);
    let fault = random.below(count);
    check.preferred(&rules, one_at_fault(count, fault), random.any() % 1_000)?;
    let start = random.any() % (1 << row.atoms);
    check.next_state(&rules, start, random.any() % 1_000)
}

/// A long file of either kind, near the limits or past them, and the same damaged.
pub fn long(check: &mut Checker, random: &mut Random) -> Checked {
    let sizes = [(256, 1_024, 8), (256, 60, 256), (120, 300, 12)];
    let plain_sizes = [(1_100, 4_200, 4), (1_100, 40, 1_100), (700, 900, 12)];
    let chosen = random.below(3);
    let (atoms, rules, list) = sizes[chosen];
    let (plain_atoms, plain_rules, plain_list) = plain_sizes[chosen];
    let (program, names) = if random.once_in(2) {
        preference(random, Size { atoms, rules, list })
    } else {
        let size = Size {
            atoms: plain_atoms,
            rules: plain_rules,
            list: plain_list,
        };
        plain(random, size)
    };
    let text = writer::write(&program, &names);
    let (rules, names) = (rule_store(&program), name_store(&names));
    read(check, random, &text)?;
    texts_of_stores(check, random, &rules, &names)?;
    for _ in 0..3 {
        let mut text = text.clone();
        spoil::text(random, &mut text);
        read(check, random, &text)?;
        let (mut rules, mut names) = (rules.clone(), names.clone());
        if random.once_in(2) {
            spoil::rules(random, &mut rules);
        } else {
            spoil::names(random, &mut names);
        }
        check.write(&rules, &names, TEXT_LIMIT)?;
        check.write_canonical(&rules, &names, TEXT_LIMIT)?;
        check.translate(&rules, &names, TEXT_LIMIT)?;
        check.preferred(&rules, random.any(), 5)?;
        check.stable(&rules, random.any(), 5)?;
        check.next_state(&rules, random.any(), 5)?;
        check.place(&rules, random.any())?;
    }
    Ok(())
}

/// Few of the atoms, most, or any.
fn some_set(random: &mut Random, sets: u64) -> u64 {
    let (any, few) = (random.any(), random.any() & random.any() & random.any());
    *random.pick(&[any, few, !few]) & (sets - 1)
}

/// Places of sets of up to 60 atoms, and what is refused a place: stores of the other kind and of
/// no form, more atoms, larger numbers, and which of these counts.
pub fn places(check: &mut Checker, random: &mut Random) -> Checked {
    let atoms = match random.below(6) {
        0 => *random.pick(&[0, 1, 2, 59, 60]),
        1 => *random.pick(&[61, 62, 63, 64, 65, 256]),
        _ => random.within(0, 60),
    };
    let (program, _) = exact(Kind::Preference, atoms, random.below(3), random.below(5));
    let rules = rule_store(&program);
    let sets = 1u64 << atoms.min(63);
    for _ in 0..6 {
        check.place(&rules, some_set(random, sets))?;
        check.place(&rules, 1 << random.below(64))?;
        check.place(&rules, sets >> random.within(1, 8))?;
    }
    let (plain, _) = exact(Kind::Plain, atoms, 0, 0);
    let mut spoiled = rules.clone();
    spoil::rules(random, &mut spoiled);
    for set in [0, sets - 1, sets, sets + 1, 1 << 60, u64::MAX] {
        check.place(&rules, set)?;
        check.place(&rule_store(&plain), set)?;
        check.place(&spoiled, set)?;
    }
    Ok(())
}

/// Of two sets, the earlier lacks the first declared atom on which they differ.
fn sort_by_order(atoms: usize, sets: &mut [u64]) {
    let members = |set: &u64| -> Vec<bool> { (0..atoms).map(|a| holds(*set, a)).collect() };
    sets.sort_by_key(members);
}

/// The states of a small file: all of them in their order, going on from the place of each, and the
/// next one from the places around it and from its own number.
pub fn orders(check: &mut Checker, random: &mut Random) -> Checked {
    let (file, _) = preference(random, Size::SMALL);
    let rules = rule_store(&file);
    let sets = 1u64 << file.atoms;
    let yes = |set: &u64| {
        let verdict = verdicts::preferred(&file, *set, BUDGET_LIMIT);
        matches!(verdict, Verdict::Yes { .. })
    };
    let mut states: Vec<u64> = (0..sets).filter(yes).collect();
    sort_by_order(file.atoms, &mut states);
    check.listing(&rules, &states, BUDGET_LIMIT)?;
    for chosen in random.choose(4, states.len()) {
        let set = states[chosen];
        check.place(&rules, set)?;
        let at = place(file.atoms, set);
        for start in [at.saturating_sub(1), at, at + 1, set] {
            check.next_state(&rules, start, BUDGET_LIMIT)?;
        }
    }
    Ok(())
}

/// Names as long as the kind takes them.
fn longest(kind: Kind, count: usize) -> Names {
    let before = match kind {
        Kind::Plain => "N.",
        Kind::Preference => "",
    };
    let name = |i: usize| format!("{before}{i:0HOUSE_NAME_LIMIT$}").into_bytes();
    (0..count).map(name).collect()
}

/// A program with exactly so many atoms, rules and occurrences.
pub fn exact(kind: Kind, atoms: usize, rules: usize, occurrences: usize) -> (Program, Names) {
    let mut program = bare(kind, atoms);
    let mut left = occurrences;
    for _ in 0..rules {
        let head = left.min(atoms);
        left -= head;
        let body = left.min(atoms);
        left -= body;
        program.rules.push(Rule {
            head: (0..head).collect(),
            body: (0..body).collect(),
            not: Vec::new(),
        });
    }
    (program, longest(kind, atoms))
}

/// Each limit met and passed by one, as a text and as a store. Done once a run.
pub fn limits(check: &mut Checker, random: &mut Random) -> Checked {
    for (kind, atoms, rules, occurrences) in [
        (Kind::Preference, 256, 1_024, 8_192),
        (Kind::Plain, 1_100, 4_200, 24_000),
    ] {
        for (a, r, o) in [(0, 0, 0), (1, 0, 0), (0, 1, 0), (0, 0, 1), (1, 1, 1)] {
            let (program, names) = exact(kind, atoms + a, rules + r, occurrences + o);
            let text = writer::write(&program, &names);
            read(check, random, &text)?;
            texts_of_stores(check, random, &rule_store(&program), &name_store(&names))?;
        }
    }
    // Atoms that stand in no rule count toward the limit.
    for atoms in 255..=257 {
        for occurrences in [0, 3, 200] {
            let (program, names) = exact(Kind::Preference, atoms, 1, occurrences);
            read(check, random, &writer::write(&program, &names))?;
            texts_of_stores(check, random, &rule_store(&program), &name_store(&names))?;
        }
    }
    for classes in 15..=18 {
        let (mut program, names) = exact(Kind::Preference, 2, 1, 2);
        program.classes = classes;
        for last in [Role::Minimised(classes), Role::Varying, Role::Fixed] {
            program.roles = vec![Role::Minimised(1), last];
            read(check, random, &writer::write(&program, &names))?;
            any_stores(check, random, &rule_store(&program), &name_store(&names))?;
        }
    }
    for length in [TEXT_LIMIT - 1, TEXT_LIMIT, TEXT_LIMIT + 1, TEXT_LIMIT + 9] {
        for start in ["", "(vary)\n(fix)\n", "(atoms)\n", "(atoms", "(vary"] {
            for fill in [b'\n', b' ', b'a', b'('] {
                let mut text = start.as_bytes().to_vec();
                text.resize(length, fill);
                check.read(&text, 50, 50)?;
                text.pop();
                text.push(b'\n');
                check.read(&text, 50, 50)?;
            }
        }
    }
    Ok(())
}
