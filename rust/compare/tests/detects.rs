//! Wrong engines: the harness has to notice each of them.

mod wrong_canonical;
mod wrong_clauses;
mod wrong_conditions;
mod wrong_index;
mod wrong_readings;
mod wrong_typing;
mod wrong_walks;

use compare::engine::{
    Engine, GrownAnswer, ReadAnswer, Reference, TextAnswer, ValueAnswer, VerdictAnswer,
};
use compare::run::{run, run_families, Until};
use reference::limits::Kind;
use reference::program::{Program, Role, Rule};
use reference::stores::{check_names, check_rules, check_rules_of, name_store, rule_store};
use reference::used_atoms::{restricted, used_atoms, without_unused};
use reference::verdicts::{self, beats, is_model, place, reduct, Next, Verdict};
use reference::{translator, writer};
use std::time::Duration;
use wrong_canonical::{CanonicalSlip, CANONICAL_SLIPS};
use wrong_clauses::{ClauseSlip, CLAUSE_SLIPS};
use wrong_conditions::{ConditionSlip, CONDITION_SLIPS};
use wrong_index::{IndexSlip, INDEX_SLIPS};
use wrong_readings::{ReadSlip, READ_SLIPS};
use wrong_typing::{TypingSlip, TYPING_SLIPS};
use wrong_walks::{WalkSlip, WALK_SLIPS};

/// What is wrong with an engine.
#[derive(Clone, Copy, Debug, PartialEq, Eq)]
enum Slip {
    RefusesEverything,
    WritesOnRefusal,
    WritesPastTheEnd,
    ReturnsWithoutWriting,
    LineOffByOne,
    NoLimitBeforeNot,
    SameVerdict,
    UnitsOneTooMany,
    SpentTooEarly,
    SpentTooLate,
    StartSkipped,
    FirstStateOnly,
    ChecksBudgetBeforeSet,
    EmptySetTakesAUnit,
    FirstNotAtomSkipped,
    MarkOfTheRuleBefore,
    MarkByTheBody,
    NumberedAmongTheKept,
    FirstRuleForMinimised,
    NoFirstRuleForFixed,
    RulesAsConstraints,
    HeadAndBodyExchanged,
    VaryingLeftInTheHead,
    RisingNumbers,
    StableByRisingNumber,
    FirstBetterByRisingNumber,
    StartAsNumber,
    AnswerAsPlace,
    PlaceIsTheNumber,
    PlaceOneTooHigh,
    PlaceInAPlainStore,
    WritesWhatRemains,
    TranslatesWhatRemains,
    JudgesWhatRemains,
    ListsWhatRemains,
    NoMadeNamesInStores,
    AnyMadeNamesInStores,
    Read(ReadSlip),
    Clauses(ClauseSlip),
    Typing(TypingSlip),
    Canonical(CanonicalSlip),
    Conditions(ConditionSlip),
    Index(IndexSlip),
    Walk(WalkSlip),
}

const SLIPS: [Slip; 37] = [
    Slip::RefusesEverything,
    Slip::WritesOnRefusal,
    Slip::WritesPastTheEnd,
    Slip::ReturnsWithoutWriting,
    Slip::LineOffByOne,
    Slip::NoLimitBeforeNot,
    Slip::SameVerdict,
    Slip::UnitsOneTooMany,
    Slip::SpentTooEarly,
    Slip::SpentTooLate,
    Slip::StartSkipped,
    Slip::FirstStateOnly,
    Slip::ChecksBudgetBeforeSet,
    Slip::EmptySetTakesAUnit,
    Slip::FirstNotAtomSkipped,
    Slip::MarkOfTheRuleBefore,
    Slip::MarkByTheBody,
    Slip::NumberedAmongTheKept,
    Slip::FirstRuleForMinimised,
    Slip::NoFirstRuleForFixed,
    Slip::RulesAsConstraints,
    Slip::HeadAndBodyExchanged,
    Slip::VaryingLeftInTheHead,
    Slip::RisingNumbers,
    Slip::StableByRisingNumber,
    Slip::FirstBetterByRisingNumber,
    Slip::StartAsNumber,
    Slip::AnswerAsPlace,
    Slip::PlaceIsTheNumber,
    Slip::PlaceOneTooHigh,
    Slip::PlaceInAPlainStore,
    Slip::WritesWhatRemains,
    Slip::TranslatesWhatRemains,
    Slip::JudgesWhatRemains,
    Slip::ListsWhatRemains,
    Slip::NoMadeNamesInStores,
    Slip::AnyMadeNamesInStores,
];

/// The store with other `not` lists, by which the reduct then keeps other rules; as it is where
/// it is none of a plain program.
fn with_nots(rules: &[u16], nots: impl Fn(&[Rule], usize) -> Vec<usize>) -> Vec<u16> {
    let Ok(mut program) = check_rules_of(Kind::Plain, rules) else {
        return rules.to_vec();
    };
    let before = program.rules.clone();
    for (place, rule) in program.rules.iter_mut().enumerate() {
        rule.not = nots(&before, place);
    }
    rule_store(&program)
}

/// The stores handed in without the atoms that stand in no rule, where they are those of a
/// preference file.
fn what_remains(rules: &[u16], names: &[u8]) -> Option<(Vec<u16>, Vec<u8>)> {
    let file = check_rules_of(Kind::Preference, rules).ok()?;
    let names = check_names(&file, names).ok()?;
    let (left, left_names) = without_unused(&file, &names);
    Some((rule_store(&left), name_store(&left_names)))
}

/// The name store with other names where one begins with `T.`; as it is where it is none.
fn with_made_names(names: &[u8], other: impl Fn(&[u8]) -> Vec<u8>) -> Vec<u8> {
    let mut read = Vec::new();
    let mut left = names;
    while let Some((length, rest)) = left.split_first() {
        let Some((name, behind)) = rest.split_at_checked(usize::from(*length)) else {
            return names.to_vec();
        };
        let name = match name.starts_with(b"T.") {
            true => other(name),
            false => name.to_vec(),
        };
        read.push(name.len() as u8);
        read.extend(name);
        left = behind;
    }
    read
}

/// The text that a slip in step 1 or 2 delivers for a preference file's stores.
fn wrong_translation(slip: Slip, rules: &[u16], names: &[u8]) -> Option<Vec<u8>> {
    let file = check_rules_of(Kind::Preference, rules).ok()?;
    let names = check_names(&file, names).ok()?;
    let (mut plain, plain_names) = translator::translate(&file, &names);
    let (n, p) = (file.atoms, file.minimised().len());
    let step_1 = 2 * n - p;
    let step_2 = step_1..step_1 + file.rules.len();
    let varying = |a: &usize| *a < n && file.roles[*a] == Role::Varying;
    match slip {
        Slip::FirstRuleForMinimised => {
            for a in 0..p {
                let first = Rule {
                    head: vec![a],
                    body: Vec::new(),
                    not: vec![n + a],
                };
                plain.rules.insert(2 * a, first);
            }
        }
        Slip::NoFirstRuleForFixed => {
            let fixed = |rule: &Rule| matches!(rule.head[..], [a] if a < n && file.is_fixed(a));
            plain.rules.retain(|rule| !fixed(rule));
        }
        Slip::RulesAsConstraints => {
            for rule in &mut plain.rules[step_2] {
                rule.head.clear();
            }
        }
        Slip::HeadAndBodyExchanged => {
            for rule in &mut plain.rules[step_2] {
                std::mem::swap(&mut rule.head, &mut rule.body);
            }
        }
        Slip::VaryingLeftInTheHead => {
            for rule in &mut plain.rules[step_2] {
                rule.head.extend(rule.not.iter().filter(|a| varying(a)));
                rule.not.retain(|a| !varying(a));
            }
        }
        _ => return None,
    }
    Some(writer::write(&plain, &plain_names))
}

/// The program with its atoms numbered from the last one, so that walks over it go by the rising
/// numbers of the program's own sets. A set is turned by `place`, there and back.
fn turned(program: &Program) -> Program {
    let mut turned = program.clone();
    turned.roles.reverse();
    for rule in &mut turned.rules {
        for list in [&mut rule.head, &mut rule.body, &mut rule.not] {
            list.iter_mut().for_each(|a| *a = program.atoms - 1 - *a);
        }
    }
    turned
}

fn answer(kind: u64, value: u64, units: u64) -> VerdictAnswer {
    VerdictAnswer { kind, value, units }
}

fn verdict_answer(verdict: Verdict) -> VerdictAnswer {
    match verdict {
        Verdict::Yes { units } => answer(0, 0, units),
        Verdict::Broken { rule } => answer(1, rule, 0),
        Verdict::Beaten { set, units } => answer(2, set, units),
        Verdict::Spent { units } => answer(3, 0, units),
    }
}

fn next_answer(next: Next) -> VerdictAnswer {
    match next {
        Next::State { set, units } => answer(0, set, units),
        Next::None { units } => answer(1, 0, units),
        Next::Spent { units } => answer(3, 0, units),
    }
}

/// The verdict on a set that is not refused, by a walk in rising number.
fn by_rising_number(
    rules: &[u16],
    set: u64,
    verdict: impl Fn(&Program, u64) -> Verdict,
) -> VerdictAnswer {
    let program = check_rules(rules).expect("it was judged");
    let atoms = program.atoms;
    let mut answer = verdict_answer(verdict(&turned(&program), place(atoms, set)));
    if answer.kind == 2 {
        answer.value = place(atoms, answer.value);
    }
    answer
}

/// The next state by rising number, from a number on.
fn next_by_rising_number(file: &Program, start: u64, budget: u64) -> VerdictAnswer {
    let mut answer = next_answer(verdicts::next_state(&turned(file), start, budget));
    if answer.kind == 0 {
        answer.value = place(file.atoms, answer.value);
    }
    answer
}

/// The least of the better sets' numbers, as far as one looks for it.
fn least(first: u64, better: impl Fn(u64) -> bool) -> u64 {
    let mut numbers = (0..first).take(1_000);
    numbers.find(|&n| better(n)).unwrap_or(first)
}

fn deliver(text: &[u8], out: &mut [u8]) -> TextAnswer {
    let Some(lent) = out.get_mut(..text.len()) else {
        return TextAnswer {
            refusal: 9,
            bytes: 0,
        };
    };
    lent.copy_from_slice(text);
    TextAnswer {
        refusal: 0,
        bytes: text.len() as u64,
    }
}

struct Wrong(Slip);

impl Wrong {
    /// Where the slip is elsewhere, the index has none.
    fn index_slip(&self) -> IndexSlip {
        match self.0 {
            Slip::Index(slip) => slip,
            _ => IndexSlip::Nothing,
        }
    }

    fn text(&self, answer: TextAnswer, out: &mut [u8]) -> TextAnswer {
        match self.0 {
            Slip::WritesOnRefusal if answer.refusal == 9 && !out.is_empty() => out[0] ^= 1,
            Slip::WritesPastTheEnd if answer.refusal == 0 => {
                if let Some(byte) = out.get_mut(answer.bytes as usize) {
                    *byte ^= 1;
                }
            }
            _ => {}
        }
        answer
    }

    fn verdict(&self, mut answer: VerdictAnswer, budget: u64) -> VerdictAnswer {
        match self.0 {
            Slip::SameVerdict if answer.kind < 3 => answer.kind = 0,
            Slip::UnitsOneTooMany if answer.kind == 2 => answer.units += 1,
            Slip::SpentTooEarly if answer.kind != 4 && answer.units == budget => {
                answer = VerdictAnswer {
                    kind: 3,
                    value: 0,
                    units: budget,
                };
            }
            _ => {}
        }
        answer
    }
}

impl Engine for Wrong {
    fn name(&self) -> &str {
        "wrong"
    }

    fn read(&self, text: &[u8], rules: &mut [u16], names: &mut [u8]) -> ReadAnswer {
        match self.0 {
            Slip::Read(slip) => return wrong_readings::read(slip, text, rules, names),
            Slip::Typing(slip) => return wrong_typing::read(slip, text, rules, names),
            Slip::Conditions(slip) => return wrong_conditions::read(slip, text, rules, names),
            _ => {}
        }
        let mut answer = Reference.read(text, rules, names);
        match self.0 {
            Slip::RefusesEverything if answer.refusal == 0 => answer.refusal = 2,
            Slip::LineOffByOne if answer.refusal == 5 => answer.line += 1,
            Slip::NoLimitBeforeNot if answer.refusal == 7 => answer.refusal = 8,
            Slip::WritesOnRefusal if answer.refusal == 9 && !names.is_empty() => names[0] ^= 1,
            _ => {}
        }
        answer
    }

    fn read_clauses(&self, text: &[u8], rules: &mut [u16], names: &mut [u8]) -> ReadAnswer {
        match self.0 {
            Slip::Clauses(slip) => wrong_clauses::read(slip, text, rules, names),
            _ => Reference.read_clauses(text, rules, names),
        }
    }

    fn write(&self, rules: &[u16], names: &[u8], out: &mut [u8]) -> TextAnswer {
        if self.0 == Slip::WritesWhatRemains {
            if let Some((rules, names)) = what_remains(rules, names) {
                return Reference.write(&rules, &names, out);
            }
        }
        let names = match self.0 {
            Slip::NoMadeNamesInStores => with_made_names(names, |_| b"T.0".to_vec()),
            Slip::AnyMadeNamesInStores => with_made_names(names, |name| {
                let digits = name[2..].iter().all(u8::is_ascii_digit);
                match name.len() > 2 && digits {
                    true => b"T.77".to_vec(),
                    false => name.to_vec(),
                }
            }),
            _ => names.to_vec(),
        };
        let answer = Reference.write(rules, &names, out);
        self.text(answer, out)
    }

    fn write_canonical(&self, rules: &[u16], names: &[u8], out: &mut [u8]) -> TextAnswer {
        match self.0 {
            Slip::Canonical(slip) => wrong_canonical::write(slip, rules, names, out),
            _ => Reference.write_canonical(rules, names, out),
        }
    }

    fn translate(&self, rules: &[u16], names: &[u8], out: &mut [u8]) -> TextAnswer {
        if self.0 == Slip::ReturnsWithoutWriting {
            return Reference.translate(rules, names, &mut out.to_vec());
        }
        if self.0 == Slip::TranslatesWhatRemains {
            if let Some((rules, names)) = what_remains(rules, names) {
                return Reference.translate(&rules, &names, out);
            }
        }
        if let Some(text) = wrong_translation(self.0, rules, names) {
            return deliver(&text, out);
        }
        let answer = Reference.translate(rules, names, out);
        self.text(answer, out)
    }

    fn preferred(&self, rules: &[u16], set: u64, budget: u64) -> VerdictAnswer {
        if self.0 == Slip::ChecksBudgetBeforeSet && budget > 1 << 40 {
            let answer = Reference.preferred(rules, 0, budget);
            return answer;
        }
        let lent = if self.0 == Slip::SpentTooLate {
            budget + u64::from(budget < 1 << 40)
        } else {
            budget
        };
        let mut answer = Reference.preferred(rules, set, lent);
        match self.0 {
            Slip::RisingNumbers if answer.kind < 4 => {
                let verdict = |file: &Program, m| verdicts::preferred(file, m, budget);
                answer = by_rising_number(rules, set, verdict);
            }
            Slip::FirstBetterByRisingNumber if answer.kind == 2 => {
                let file = check_rules(rules).expect("it was judged");
                answer.value = least(answer.value, |n| beats(&file, n, set));
            }
            Slip::JudgesWhatRemains => {
                if let Ok(file) = check_rules_of(Kind::Preference, rules) {
                    let left = restricted(&file, &used_atoms(&file));
                    answer = Reference.preferred(&rule_store(&left), set, budget);
                }
            }
            Slip::Walk(slip) if answer.kind < 4 => {
                let file = check_rules(rules).expect("it was judged");
                answer = verdict_answer(wrong_walks::preferred(slip, &file, set, budget));
            }
            _ => {}
        }
        self.verdict(answer, budget)
    }

    fn stable(&self, rules: &[u16], set: u64, budget: u64) -> VerdictAnswer {
        let mut answer = Reference.stable(rules, set, budget);
        match self.0 {
            Slip::EmptySetTakesAUnit if answer.kind == 0 && set == 0 => answer.units += 1,
            Slip::FirstNotAtomSkipped => {
                let nots =
                    |rules: &[Rule], i: usize| rules[i].not.iter().skip(1).copied().collect();
                answer = Reference.stable(&with_nots(rules, nots), set, budget);
            }
            Slip::MarkOfTheRuleBefore => {
                let nots = |rules: &[Rule], i: usize| rules[i.saturating_sub(1)].not.clone();
                answer = Reference.stable(&with_nots(rules, nots), set, budget);
            }
            Slip::MarkByTheBody => {
                let nots = |rules: &[Rule], i: usize| rules[i].body.clone();
                answer = Reference.stable(&with_nots(rules, nots), set, budget);
            }
            Slip::NumberedAmongTheKept if answer.kind == 1 => {
                let program = check_rules_of(Kind::Plain, rules).expect("it was judged");
                let earlier = &program.rules[..answer.value as usize];
                answer.value = reduct(earlier, set).len() as u64;
            }
            Slip::RisingNumbers | Slip::StableByRisingNumber if answer.kind < 4 => {
                let verdict = |plain: &Program, m| verdicts::stable(plain, m, budget);
                answer = by_rising_number(rules, set, verdict);
            }
            Slip::FirstBetterByRisingNumber if answer.kind == 2 => {
                let program = check_rules(rules).expect("it was judged");
                let kept = reduct(&program.rules, set);
                let smaller = |n| n & !set == 0 && is_model(&kept, n);
                answer.value = least(answer.value, smaller);
            }
            Slip::Walk(slip) if answer.kind < 4 => {
                let plain = check_rules(rules).expect("it was judged");
                answer = verdict_answer(wrong_walks::stable(slip, &plain, set, budget));
            }
            _ => {}
        }
        answer
    }

    fn next_state(&self, rules: &[u16], start: u64, budget: u64) -> VerdictAnswer {
        let right = Reference.next_state(rules, start, budget);
        if right.kind == 4 {
            return right;
        }
        let file = check_rules(rules).expect("it was judged");
        let turn = |number: u64| place(file.atoms, number);
        match self.0 {
            Slip::StartSkipped if right.kind == 0 && turn(right.value) == start => {
                Reference.next_state(rules, start + 1, budget)
            }
            Slip::FirstStateOnly if right.kind == 0 && start > 0 => answer(1, 0, right.units),
            Slip::RisingNumbers => next_by_rising_number(&file, start, budget),
            Slip::StartAsNumber if start < 1 << file.atoms => {
                Reference.next_state(rules, turn(start), budget)
            }
            Slip::AnswerAsPlace if right.kind == 0 => answer(0, turn(right.value), right.units),
            Slip::ListsWhatRemains => {
                let left = restricted(&file, &used_atoms(&file));
                Reference.next_state(&rule_store(&left), start, budget)
            }
            Slip::Walk(slip) => next_answer(wrong_walks::next_state(slip, &file, start, budget)),
            _ => right,
        }
    }

    fn place(&self, rules: &[u16], set: u64) -> ValueAnswer {
        let mut answer = Reference.place(rules, set);
        match self.0 {
            Slip::RisingNumbers | Slip::PlaceIsTheNumber if answer.refusal == 0 => {
                answer.value = set;
            }
            Slip::PlaceOneTooHigh if answer.refusal == 0 => answer.value += 1,
            Slip::PlaceInAPlainStore => {
                if let Ok(mut program) = check_rules_of(Kind::Plain, rules) {
                    program.kind = Kind::Preference;
                    program.roles = vec![Role::Varying; program.atoms];
                    program.rules.clear();
                    answer = Reference.place(&rule_store(&program), set);
                }
            }
            _ => {}
        }
        answer
    }

    fn index_rules(&self, rules: &[u16], out: &mut [u16]) -> ValueAnswer {
        wrong_index::index_rules(self.index_slip(), rules, out)
    }

    fn add_rule(
        &self,
        rules: &[u16],
        index: &[u16],
        rule: &[u16],
        rules_out: &mut [u16],
        index_out: &mut [u16],
    ) -> GrownAnswer {
        wrong_index::add_rule(self.index_slip(), rules, index, rule, rules_out, index_out)
    }

    fn flip(
        &self,
        rules: &[u16],
        index: &[u16],
        list: &[u16],
        set: u64,
        atom: u64,
        out: &mut [u16],
    ) -> ValueAnswer {
        wrong_index::flip(self.index_slip(), rules, index, list, (set, atom), out)
    }
}

const UNTIL: Until = Until {
    comparisons: 20_000,
    time: Duration::ZERO,
};

/// For slips that the families of their own notice soon.
const SOON: Until = Until {
    comparisons: 4_000,
    ..UNTIL
};

#[test]
fn each_slip_is_noticed() {
    let walks = WALK_SLIPS.map(Slip::Walk);
    let readings = READ_SLIPS.map(Slip::Read);
    for slip in SLIPS.into_iter().chain(walks).chain(readings) {
        assert!(
            run(&Wrong(slip), 7, UNTIL).is_err(),
            "{slip:?} was not noticed"
        );
    }
}

#[test]
fn each_slip_of_clauses_is_noticed() {
    for slip in CLAUSE_SLIPS.map(Slip::Clauses) {
        let noticed = run_families(&Wrong(slip), 7, UNTIL, |family| family.contains("clause"));
        assert!(noticed.is_err(), "{slip:?} was not noticed");
    }
}

#[test]
fn each_slip_of_typing_is_noticed() {
    for slip in TYPING_SLIPS.map(Slip::Typing) {
        let noticed = run_families(&Wrong(slip), 7, SOON, |family| family.contains("typed"));
        assert!(noticed.is_err(), "{slip:?} was not noticed");
    }
}

#[test]
fn each_slip_of_canonical_texts_is_noticed() {
    for slip in CANONICAL_SLIPS.map(Slip::Canonical) {
        let families = |family: &str| family.contains("canonical");
        let noticed = run_families(&Wrong(slip), 7, SOON, families);
        assert!(noticed.is_err(), "{slip:?} was not noticed");
    }
}

#[test]
fn each_slip_of_conditions_is_noticed() {
    for slip in CONDITION_SLIPS.map(Slip::Conditions) {
        let families = |family: &str| family.contains("conditions") || family.contains("names");
        let noticed = run_families(&Wrong(slip), 7, UNTIL, families);
        assert!(noticed.is_err(), "{slip:?} was not noticed");
    }
}

#[test]
fn each_slip_of_the_index_is_noticed() {
    for slip in INDEX_SLIPS.map(Slip::Index) {
        let families = |family: &str| {
            let words = ["index", "flips", "added"];
            words.iter().any(|word| family.contains(word))
        };
        let noticed = run_families(&Wrong(slip), 7, SOON, families);
        assert!(noticed.is_err(), "{slip:?} was not noticed");
    }
}

/// What is noticed of a wrong walk, reading, writing or index is its slip.
#[test]
fn without_a_slip_they_are_right() {
    for nothing in [
        Slip::Conditions(ConditionSlip::Nothing),
        Slip::Walk(WalkSlip::Nothing),
        Slip::Read(ReadSlip::Nothing),
        Slip::Clauses(ClauseSlip::Nothing),
        Slip::Typing(TypingSlip::Nothing),
        Slip::Canonical(CanonicalSlip::Nothing),
    ] {
        if let Err(difference) = run(&Wrong(nothing), 7, UNTIL) {
            panic!("{nothing:?}: {}", difference.text);
        }
    }
}
