//! Rule indexes with a slip: how they are built, grown and gone by (document 02, W-209).

use compare::engine::{GrownAnswer, ValueAnswer};
use reference::index::with_rule;
use reference::limits::{Kind, VERDICT_ATOM_LIMIT};
use reference::program::{Program, Rule};
use reference::stores::check_rules;
use reference::verdicts::breaks;

/// What is wrong with the functions of the index.
#[derive(Clone, Copy, Debug, PartialEq, Eq)]
pub enum IndexSlip {
    Nothing,
    NotListsForgotten,
    BodiesForgotten,
    NotHoldersForgotten,
    TwiceInTheIndex,
    CountsOfOccurrences,
    RulesFromOne,
    CountsBeforeLists,
    ListsFalling,
    UnusedAtomsLeftOut,
    PlainRefused,
    PreferenceRefused,
    RoomForEveryOccurrence,
    HoldersKept,
    HoldersTwice,
    HoldersUntested,
    SetBeforeTheFlip,
    OnlyPutIn,
    OnlyTakenOut,
    NotAtomsUntested,
    NotInOrder,
    ListForgotten,
    EveryRuleTested,
    IndexUnchecked,
    IndexLengthAlone,
    IndexInAnyOrder,
    OwnRulesAlone,
    WordsBehindTheIndexTaken,
    ListUnchecked,
    EqualNeighboursTaken,
    RuleCountTaken,
    SixtyOneAtomsTaken,
    SetUnchecked,
    AtomCountTaken,
    AtomUnchecked,
    AtomCutToSixBits,
    AtomCutToSixteenBits,
    AtomsBeforeIndex,
    NumbersBeforeIndex,
    NumbersBeforeAtoms,
    OutputBeforeNumbers,
    RoomForListAndOwn,
    RoomForAllRules,
    RoomForListAlone,
    IndexBeforeRule,
    RuleCountKept,
    IndexKept,
    NewRuleFirst,
    RuleLimitOneLess,
    RuleLimitOneMore,
    OccurrenceLimitOneLess,
    OccurrenceLimitOneMore,
    WordsBehindTheRuleTaken,
    AtomCountInRuleTaken,
    AtomTwiceTaken,
    FilledNotTaken,
    IndexUncheckedWhenAdding,
    StoreOutputUnchecked,
    IndexOutputUnchecked,
    StoreWrittenOnRefusal,
    WritesOnShortOutput,
    WritesOnWrongIndex,
    WritesPastTheEnd,
}

use IndexSlip::*;

pub const INDEX_SLIPS: [IndexSlip; 62] = [
    NotListsForgotten,
    BodiesForgotten,
    NotHoldersForgotten,
    TwiceInTheIndex,
    CountsOfOccurrences,
    RulesFromOne,
    CountsBeforeLists,
    ListsFalling,
    UnusedAtomsLeftOut,
    PlainRefused,
    PreferenceRefused,
    RoomForEveryOccurrence,
    HoldersKept,
    HoldersTwice,
    HoldersUntested,
    SetBeforeTheFlip,
    OnlyPutIn,
    OnlyTakenOut,
    NotAtomsUntested,
    NotInOrder,
    ListForgotten,
    EveryRuleTested,
    IndexUnchecked,
    IndexLengthAlone,
    IndexInAnyOrder,
    OwnRulesAlone,
    WordsBehindTheIndexTaken,
    ListUnchecked,
    EqualNeighboursTaken,
    RuleCountTaken,
    SixtyOneAtomsTaken,
    SetUnchecked,
    AtomCountTaken,
    AtomUnchecked,
    AtomCutToSixBits,
    AtomCutToSixteenBits,
    AtomsBeforeIndex,
    NumbersBeforeIndex,
    NumbersBeforeAtoms,
    OutputBeforeNumbers,
    RoomForListAndOwn,
    RoomForAllRules,
    RoomForListAlone,
    IndexBeforeRule,
    RuleCountKept,
    IndexKept,
    NewRuleFirst,
    RuleLimitOneLess,
    RuleLimitOneMore,
    OccurrenceLimitOneLess,
    OccurrenceLimitOneMore,
    WordsBehindTheRuleTaken,
    AtomCountInRuleTaken,
    AtomTwiceTaken,
    FilledNotTaken,
    IndexUncheckedWhenAdding,
    StoreOutputUnchecked,
    IndexOutputUnchecked,
    StoreWrittenOnRefusal,
    WritesOnShortOutput,
    WritesOnWrongIndex,
    WritesPastTheEnd,
];

/// The rule's lists that the slip looks at.
fn looked_at(slip: IndexSlip, rule: &Rule) -> Vec<&[usize]> {
    match slip {
        NotListsForgotten => vec![&rule.head, &rule.body],
        BodiesForgotten => vec![&rule.head, &rule.not],
        _ => rule.lists().to_vec(),
    }
}

fn holds(slip: IndexSlip, rule: &Rule, atom: usize) -> bool {
    let slip = match slip {
        NotHoldersForgotten => NotListsForgotten,
        _ => slip,
    };
    let lists = looked_at(slip, rule);
    lists.iter().any(|list| list.contains(&atom))
}

/// For each atom its count and its rules.
fn lists(slip: IndexSlip, program: &Program) -> Vec<(u16, Vec<u16>)> {
    let mut lists = vec![(0, Vec::new()); program.atoms];
    let first = u16::from(slip == RulesFromOne);
    for (number, rule) in (first..).zip(&program.rules) {
        for &atom in looked_at(slip, rule).into_iter().flatten() {
            let Some((count, list)) = lists.get_mut(atom) else {
                continue;
            };
            let again = list.last() == Some(&number);
            if slip == TwiceInTheIndex || !again {
                list.push(number);
            }
            if slip == TwiceInTheIndex || slip == CountsOfOccurrences || !again {
                *count += 1;
            }
        }
    }
    lists
}

fn index(slip: IndexSlip, program: &Program) -> Vec<u16> {
    let mut lists = lists(slip, program);
    match slip {
        UnusedAtomsLeftOut => lists.retain(|(count, _)| *count > 0),
        ListsFalling => lists.iter_mut().for_each(|(_, list)| list.reverse()),
        CountsBeforeLists => {
            let (counts, lists): (Vec<u16>, Vec<Vec<u16>>) = lists.into_iter().unzip();
            return [counts, lists.concat()].concat();
        }
        _ => {}
    }
    let words = |(count, list): (u16, Vec<u16>)| [vec![count], list].concat();
    lists.into_iter().flat_map(words).collect()
}

/// The index of a store with a rule more.
fn grown_index(slip: IndexSlip, program: &Program, before: &[u16]) -> Vec<u16> {
    match slip {
        IndexKept => before.to_vec(),
        NewRuleFirst => {
            let last = program.rules.len() as u16 - 1;
            let words = lists(slip, program)
                .into_iter()
                .flat_map(|(count, mut list)| {
                    if list.last() == Some(&last) {
                        list.rotate_right(1);
                    }
                    [vec![count], list].concat()
                });
            words.collect()
        }
        _ => index(slip, program),
    }
}

/// The program of a store that the slip takes.
fn taken(slip: IndexSlip, rules: &[u16]) -> Option<Program> {
    let program = check_rules(rules).ok()?;
    match (slip, program.kind) {
        (PlainRefused, Kind::Plain) | (PreferenceRefused, Kind::Preference) => None,
        _ => Some(program),
    }
}

fn sorted(words: &[u16]) -> Vec<u16> {
    let mut sorted = words.to_vec();
    sorted.sort_unstable();
    sorted
}

fn is_index(slip: IndexSlip, program: &Program, words: &[u16]) -> bool {
    let right = index(slip, program);
    match slip {
        IndexUnchecked => true,
        IndexLengthAlone => words.len() == right.len(),
        IndexInAnyOrder => sorted(words) == sorted(&right),
        WordsBehindTheIndexTaken => words.starts_with(&right),
        _ => words == right,
    }
}

fn value(refusal: u64, value: usize) -> ValueAnswer {
    let value = value as u64;
    ValueAnswer { refusal, value }
}

/// Writes the words as far as there is room.
fn put(slip: IndexSlip, words: &[u16], out: &mut [u16]) {
    for (word, lent) in words.iter().zip(out.iter_mut()) {
        *lent = *word;
    }
    if let (WritesPastTheEnd, Some(word)) = (slip, out.get_mut(words.len())) {
        *word ^= 1;
    }
}

fn refused(slip: IndexSlip, refusal: u64, out: &mut [u16]) -> ValueAnswer {
    match (slip, refusal, out.first_mut()) {
        (WritesOnShortOutput, 9, Some(word)) | (WritesOnWrongIndex, 19, Some(word)) => *word ^= 1,
        _ => {}
    }
    value(refusal, 0)
}

pub fn index_rules(slip: IndexSlip, rules: &[u16], out: &mut [u16]) -> ValueAnswer {
    let Some(program) = taken(slip, rules) else {
        return refused(slip, 10, out);
    };
    let words = index(slip, &program);
    let room = match slip {
        RoomForEveryOccurrence => program.atoms + program.occurrences(),
        _ => words.len(),
    };
    if out.len() < room {
        return refused(slip, 9, out);
    }
    put(slip, &words, out);
    value(0, words.len())
}

/// The rule that the words say, where the slip takes it.
fn rule_of_words(slip: IndexSlip, program: &Program, words: &[u16]) -> Option<Rule> {
    let words: Vec<usize> = words.iter().map(|word| usize::from(*word)).collect();
    let (counts, atoms) = words.split_at_checked(3)?;
    let (head, atoms) = atoms.split_at_checked(counts[0])?;
    let (body, atoms) = atoms.split_at_checked(counts[1])?;
    let (not, behind) = atoms.split_at_checked(counts[2])?;
    let last = match slip {
        AtomCountInRuleTaken => program.atoms + 1,
        _ => program.atoms,
    };
    for list in [head, body, not] {
        let twice = (0..list.len()).any(|place| list[..place].contains(&list[place]));
        if list.iter().any(|&atom| atom >= last) || (twice && slip != AtomTwiceTaken) {
            return None;
        }
    }
    let rule_limit = match slip {
        RuleLimitOneLess => program.kind.rule_limit() - 1,
        RuleLimitOneMore => program.kind.rule_limit() + 1,
        _ => program.kind.rule_limit(),
    };
    let occurrence_limit = match slip {
        OccurrenceLimitOneLess => program.kind.occurrence_limit() - 1,
        OccurrenceLimitOneMore => program.kind.occurrence_limit() + 1,
        _ => program.kind.occurrence_limit(),
    };
    let filled = program.kind == Kind::Preference && !not.is_empty();
    let rule = Rule {
        head: head.to_vec(),
        body: body.to_vec(),
        not: not.to_vec(),
    };
    let wrong = (!behind.is_empty() && slip != WordsBehindTheRuleTaken)
        || (filled && slip != FilledNotTaken)
        || program.rules.len() + 1 > rule_limit
        || program.occurrences() + rule.occurrences() > occurrence_limit;
    (!wrong).then_some(rule)
}

pub fn add_rule(
    slip: IndexSlip,
    rules: &[u16],
    index_words: &[u16],
    rule: &[u16],
    rules_out: &mut [u16],
    index_out: &mut [u16],
) -> GrownAnswer {
    let refused = |refusal, index_out: &mut [u16]| {
        refused(slip, refusal, index_out);
        GrownAnswer {
            refusal,
            words: 0,
            index_words: 0,
        }
    };
    let Some(mut program) = taken(slip, rules) else {
        return refused(10, index_out);
    };
    let index_fits = slip == IndexUncheckedWhenAdding || is_index(slip, &program, index_words);
    if slip == IndexBeforeRule && !index_fits {
        return refused(19, index_out);
    }
    let Some(read) = rule_of_words(slip, &program, rule) else {
        return refused(10, index_out);
    };
    if !index_fits {
        return refused(19, index_out);
    }
    let mut store = with_rule(rules, rule);
    if slip == RuleCountKept {
        store[3] -= 1;
    }
    program.rules.push(read);
    let grown = grown_index(slip, &program, index_words);
    let store_fits = slip == StoreOutputUnchecked || rules_out.len() >= store.len();
    let grown_fits = slip == IndexOutputUnchecked || index_out.len() >= grown.len();
    if slip == StoreWrittenOnRefusal && store_fits {
        put(slip, &store, rules_out);
    }
    if !store_fits || !grown_fits {
        return refused(9, index_out);
    }
    put(slip, &store, rules_out);
    put(slip, &grown, index_out);
    GrownAnswer {
        refusal: 0,
        words: store.len() as u64,
        index_words: grown.len() as u64,
    }
}

fn is_list(slip: IndexSlip, program: &Program, list: &[u16]) -> bool {
    let rising = |pair: &[u16]| match slip {
        EqualNeighboursTaken => pair[0] <= pair[1],
        _ => pair[0] < pair[1],
    };
    let below = |number: &u16| match slip {
        RuleCountTaken => usize::from(*number) <= program.rules.len(),
        _ => usize::from(*number) < program.rules.len(),
    };
    slip == ListUnchecked || (list.windows(2).all(rising) && list.iter().all(below))
}

/// The atom's part of an index.
fn own_rules(words: &[u16], atom: u64) -> Option<&[u16]> {
    let (count, rest) = words.split_first()?;
    let (list, rest) = rest.split_at_checked(usize::from(*count))?;
    match atom {
        0 => Some(list),
        _ => own_rules(rest, atom - 1),
    }
}

/// The first refusal of a flip, but for an output that is shorter than the answer; 0 where there is
/// none.
fn first_refusal(
    slip: IndexSlip,
    program: &Program,
    (index_words, list_words): (&[u16], &[u16]),
    (set, atom): (u64, u64),
    out: &[u16],
) -> u64 {
    let atoms = program.atoms;
    let index_fits = match slip {
        OwnRulesAlone => own_rules(index_words, atom) == own_rules(&index(slip, program), atom),
        _ => is_index(slip, program, index_words),
    };
    let most_atoms = VERDICT_ATOM_LIMIT + usize::from(slip == SixtyOneAtomsTaken);
    let set_fits = slip == SetUnchecked || atoms > 63 || set >> atoms == 0;
    let last_atom = atoms as u64 + u64::from(slip == AtomCountTaken);
    let atom_fits = slip == AtomUnchecked || atom < last_atom;
    let no_room = slip == OutputBeforeNumbers && out.is_empty() && !list_words.is_empty();
    let mut checks = [
        (19, index_fits && is_list(slip, program, list_words)),
        (11, atoms <= most_atoms),
        (12, set_fits && atom_fits),
        (9, !no_room),
    ];
    match slip {
        AtomsBeforeIndex => checks.swap(0, 1),
        NumbersBeforeIndex => checks[..3].rotate_right(1),
        NumbersBeforeAtoms => checks.swap(1, 2),
        OutputBeforeNumbers => checks.swap(2, 3),
        _ => {}
    }
    let first = checks.iter().find(|(_, fits)| !fits);
    first.map_or(0, |(refusal, _)| *refusal)
}

/// What the slip gives for a list that it takes.
fn flipped(
    slip: IndexSlip,
    program: &Program,
    list_words: &[u16],
    (set, atom): (u64, u64),
) -> Vec<u16> {
    let bit = 1u64.checked_shl(atom as u32).unwrap_or(0);
    let flipped = match slip {
        SetBeforeTheFlip => set,
        OnlyPutIn => set | bit,
        OnlyTakenOut => set & !bit,
        _ => set ^ bit,
    };
    let broken = |rule: &Rule| match slip {
        HoldersUntested => true,
        NotAtomsUntested => {
            let mut rule = rule.clone();
            rule.not.clear();
            breaks(flipped, &rule)
        }
        _ => breaks(flipped, rule),
    };
    let holder = |number: u16| {
        let rule = program.rules.get(usize::from(number));
        rule.filter(|rule| holds(slip, rule, atom as usize))
    };
    let all = 0..program.rules.len() as u16;
    if slip == EveryRuleTested {
        let rule = |number: &u16| &program.rules[usize::from(*number)];
        return all.filter(|number| broken(rule(number))).collect();
    }
    let mut answer = list_words.to_vec();
    match slip {
        HoldersKept | HoldersTwice => {}
        ListForgotten => answer.clear(),
        _ => answer.retain(|number| holder(*number).is_none()),
    }
    answer.extend(all.filter(|number| holder(*number).is_some_and(broken)));
    if slip != NotInOrder {
        answer.sort_unstable();
    }
    if slip != HoldersTwice {
        answer.dedup();
    }
    answer
}

pub fn flip(
    slip: IndexSlip,
    rules: &[u16],
    index_words: &[u16],
    list_words: &[u16],
    (set, atom): (u64, u64),
    out: &mut [u16],
) -> ValueAnswer {
    let Some(program) = taken(slip, rules) else {
        return refused(slip, 10, out);
    };
    let atom = match slip {
        AtomCutToSixBits => atom % 64,
        AtomCutToSixteenBits => atom % (1 << 16),
        _ => atom,
    };
    let handed_in = (index_words, list_words);
    let refusal = first_refusal(slip, &program, handed_in, (set, atom), out);
    if refusal != 0 {
        return refused(slip, refusal, out);
    }
    let answer = flipped(slip, &program, list_words, (set, atom));
    let room = match slip {
        RoomForListAndOwn => list_words.len() + lists(slip, &program)[atom as usize].1.len(),
        RoomForAllRules => program.rules.len(),
        RoomForListAlone => list_words.len().min(answer.len()),
        _ => answer.len(),
    };
    if out.len() < room {
        return refused(slip, 9, out);
    }
    put(slip, &answer, out);
    value(0, answer.len())
}
