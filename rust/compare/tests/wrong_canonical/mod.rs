//! Canonical writers with a slip (document 02, W-205).

use compare::engine::TextAnswer;
use reference::limits::Kind;
use reference::program::{Names, Program, Role, Rule};
use reference::stores::{check_names, check_rules};
use reference::used_atoms::without_unused;
use reference::writer;
use std::cmp::Ordering;

/// What is wrong with a canonical writer.
#[derive(Clone, Copy, Debug, PartialEq, Eq)]
pub enum CanonicalSlip {
    Nothing,
    AsTheWriter,
    ListsNotSorted,
    HeadsNotSorted,
    BodiesNotSorted,
    NotsNotSorted,
    ListsFalling,
    ListsByName,
    RulesNotSorted,
    RulesFalling,
    RulesByText,
    RulesBeforeLists,
    BodyFirst,
    NotFirst,
    NotBeforeBody,
    HeadAlone,
    HeadAndBodyAlone,
    FourAtomsAlone,
    LongerBeforeItsBeginning,
    ShorterFirst,
    ListsAsOne,
    EqualKept,
    EqualAsTypedAlone,
    EqualNeighboursAlone,
    EqualByHead,
    EqualByHeadAndBody,
    EqualByFourAtoms,
    AllEqualDropped,
    AlwaysHoldingDropped,
    UnusedLeftOut,
    EmptyClassesDropped,
    PlainRefused,
    PreferenceRefused,
    NamesBeforeRules,
    OutputBeforeNames,
    RoomForAllRules,
    WritesOnRefusal,
    WritesPastTheEnd,
    ReturnsWithoutWriting,
}

use CanonicalSlip::*;

pub const CANONICAL_SLIPS: [CanonicalSlip; 38] = [
    AsTheWriter,
    ListsNotSorted,
    HeadsNotSorted,
    BodiesNotSorted,
    NotsNotSorted,
    ListsFalling,
    ListsByName,
    RulesNotSorted,
    RulesFalling,
    RulesByText,
    RulesBeforeLists,
    BodyFirst,
    NotFirst,
    NotBeforeBody,
    HeadAlone,
    HeadAndBodyAlone,
    FourAtomsAlone,
    LongerBeforeItsBeginning,
    ShorterFirst,
    ListsAsOne,
    EqualKept,
    EqualAsTypedAlone,
    EqualNeighboursAlone,
    EqualByHead,
    EqualByHeadAndBody,
    EqualByFourAtoms,
    AllEqualDropped,
    AlwaysHoldingDropped,
    UnusedLeftOut,
    EmptyClassesDropped,
    PlainRefused,
    PreferenceRefused,
    NamesBeforeRules,
    OutputBeforeNames,
    RoomForAllRules,
    WritesOnRefusal,
    WritesPastTheEnd,
    ReturnsWithoutWriting,
];

fn sort_lists(slip: CanonicalSlip, rule: &mut Rule, names: &Names) {
    let kept = [
        slip == HeadsNotSorted,
        slip == BodiesNotSorted,
        slip == NotsNotSorted,
    ];
    let lists = [&mut rule.head, &mut rule.body, &mut rule.not];
    for (list, kept) in lists.into_iter().zip(kept) {
        match slip {
            AsTheWriter | ListsNotSorted => {}
            _ if kept => {}
            ListsFalling => list.sort_unstable_by(|a, b| b.cmp(a)),
            ListsByName => list.sort_unstable_by_key(|atom| &names[*atom]),
            _ => list.sort_unstable(),
        }
    }
}

/// A list that goes on stands before the one that it begins with.
fn longer_before(one: &[usize], other: &[usize]) -> Ordering {
    let common = one.len().min(other.len());
    let beginnings = one[..common].cmp(&other[..common]);
    beginnings.then(other.len().cmp(&one.len()))
}

/// The first four words of the lists, where one that ends gives a word below all atoms.
fn four_atoms(rule: &Rule) -> Vec<usize> {
    let word = |atom: &usize| atom + 1;
    let lists = rule.lists().into_iter();
    let words = lists.flat_map(|list| list.iter().map(word).chain([0]));
    words.take(4).collect()
}

fn text_of(rule: &Rule, names: &Names) -> Vec<u8> {
    let lists = rule.lists().map(|list| {
        let names = list.iter().map(|atom| names[*atom].as_slice());
        names.collect::<Vec<_>>().join(&b' ')
    });
    lists.join(&b')')
}

fn compared(slip: CanonicalSlip, one: &Rule, other: &Rule, names: &Names) -> Ordering {
    let ([h, b, n], [g, c, m]) = (one.lists(), other.lists());
    match slip {
        AsTheWriter | RulesNotSorted => Ordering::Equal,
        RulesFalling => [g, c, m].cmp(&[h, b, n]),
        RulesByText => text_of(one, names).cmp(&text_of(other, names)),
        BodyFirst => [b, h, n].cmp(&[c, g, m]),
        NotFirst => [n, h, b].cmp(&[m, g, c]),
        NotBeforeBody => [h, n, b].cmp(&[g, m, c]),
        HeadAlone => h.cmp(g),
        HeadAndBodyAlone => [h, b].cmp(&[g, c]),
        FourAtomsAlone => four_atoms(one).cmp(&four_atoms(other)),
        LongerBeforeItsBeginning => {
            longer_before(h, g).then_with(|| longer_before(b, c).then_with(|| longer_before(n, m)))
        }
        ShorterFirst => {
            let key = |list: &[usize]| (list.len(), list.to_vec());
            [h, b, n].map(key).cmp(&[g, c, m].map(key))
        }
        ListsAsOne => {
            let (one, other) = ([h, b, n].concat(), [g, c, m].concat());
            one.cmp(&other).then([h, b, n].cmp(&[g, c, m]))
        }
        _ => [h, b, n].cmp(&[g, c, m]),
    }
}

/// Drops rules that are equal to one before them, wherever that stands.
fn drop_repeated(rules: &mut Vec<Rule>) {
    let mut kept: Vec<Rule> = Vec::new();
    rules.retain(|rule| {
        let new = !kept.contains(rule);
        if new {
            kept.push(rule.clone());
        }
        new
    });
}

fn drop_equal(slip: CanonicalSlip, rules: &mut Vec<Rule>) {
    match slip {
        AsTheWriter | EqualKept | EqualAsTypedAlone | EqualNeighboursAlone => {}
        EqualByHead => rules.dedup_by(|one, other| one.head == other.head),
        EqualByHeadAndBody => {
            rules.dedup_by(|one, other| one.head == other.head && one.body == other.body);
        }
        EqualByFourAtoms => rules.dedup_by(|one, other| four_atoms(one) == four_atoms(other)),
        AllEqualDropped => {
            let before = rules.clone();
            rules.retain(|rule| before.iter().filter(|other| *other == rule).count() == 1);
        }
        _ => rules.dedup(),
    }
}

fn without_empty_classes(program: &mut Program) {
    let classes: Vec<usize> = (1..=program.classes)
        .filter(|class| !program.class_atoms(*class).is_empty())
        .collect();
    for role in &mut program.roles {
        if let Role::Minimised(class) = role {
            let place = classes.iter().position(|stays| stays == class);
            *class = place.expect("a class with an atom stays") + 1;
        }
    }
    program.classes = classes.len();
}

/// The text that the slip writes of checked stores.
fn written(slip: CanonicalSlip, program: &Program, names: &Names) -> Vec<u8> {
    let (mut program, names) = match slip {
        UnusedLeftOut if program.kind == Kind::Preference => without_unused(program, names),
        _ => (program.clone(), names.clone()),
    };
    let mut rules = std::mem::take(&mut program.rules);
    match slip {
        EqualAsTypedAlone => drop_repeated(&mut rules),
        RulesBeforeLists => rules.sort_by(|one, other| one.lists().cmp(&other.lists())),
        AlwaysHoldingDropped => {
            let holds = |rule: &Rule| rule.head.iter().any(|atom| rule.body.contains(atom));
            rules.retain(|rule| !holds(rule));
        }
        EmptyClassesDropped => without_empty_classes(&mut program),
        _ => {}
    }
    for rule in &mut rules {
        sort_lists(slip, rule, &names);
    }
    if slip == EqualNeighboursAlone {
        rules.dedup();
    }
    if slip != RulesBeforeLists {
        rules.sort_by(|one, other| compared(slip, one, other, &names));
    }
    drop_equal(slip, &mut rules);
    program.rules = rules;
    writer::write(&program, &names)
}

fn refused(refusal: u64) -> TextAnswer {
    TextAnswer { refusal, bytes: 0 }
}

/// Refusals in another sequence: 0 where there is none before the output.
fn first_refusal(slip: CanonicalSlip, rules: &[u16], names: &[u8], out: &[u8]) -> u64 {
    let Ok(program) = check_rules(rules) else {
        // What names would fit is not known; those of no store at all do not.
        let no_names = names.is_empty() || usize::from(names[0]) + 1 > names.len();
        return if slip == NamesBeforeRules && no_names {
            14
        } else {
            10
        };
    };
    match (slip, program.kind) {
        (PlainRefused, Kind::Plain) | (PreferenceRefused, Kind::Preference) => return 10,
        _ => {}
    }
    match check_names(&program, names) {
        Err(_) if slip == OutputBeforeNames && out.is_empty() => 9,
        Err(_) => 14,
        Ok(_) => 0,
    }
}

pub fn write(slip: CanonicalSlip, rules: &[u16], names: &[u8], out: &mut [u8]) -> TextAnswer {
    let refusal = first_refusal(slip, rules, names, out);
    if refusal != 0 {
        return refused(refusal);
    }
    let program = check_rules(rules).expect("it is checked");
    let names = check_names(&program, names).expect("they are checked");
    let text = written(slip, &program, &names);
    let room = match slip {
        RoomForAllRules => writer::write(&program, &names).len(),
        _ => text.len(),
    };
    if out.len() < room {
        if let (WritesOnRefusal, Some(byte)) = (slip, out.first_mut()) {
            *byte ^= 1;
        }
        return refused(9);
    }
    if slip != ReturnsWithoutWriting {
        out[..text.len()].copy_from_slice(&text);
    }
    if let (WritesPastTheEnd, Some(byte)) = (slip, out.get_mut(text.len())) {
        *byte ^= 1;
    }
    TextAnswer {
        refusal: 0,
        bytes: text.len() as u64,
    }
}
