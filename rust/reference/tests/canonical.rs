//! Document 02, W-205: the canonical writer, each sentence by a case, and its laws by brute force.

mod common;

use common::draw::{programs, Draw};
use common::{many, states, stores, tautology, FILE_A};
use reference::canonical::canonical;
use reference::lent;
use reference::limits::{Kind, BUDGET_LIMIT};
use reference::program::{Names, Program, Rule};
use reference::refusal::Reason;
use reference::stores::{name_store, rule_store};
use reference::used_atoms::without_unused;
use reference::verdicts::{preferred, stable, Verdict};
use reference::{reader, writer};
use std::collections::{BTreeSet, HashMap};

fn of_stores(rules: &[u16], names: &[u8]) -> Vec<u8> {
    let mut out = vec![0; 40 * (rules.len() + names.len())];
    let length = lent::write_canonical(rules, names, &mut out).expect("stores that fit");
    out[..length].to_vec()
}

/// The canonical text of an accepted one.
fn canonical_of(text: &str) -> String {
    let (rules, names) = stores(text);
    String::from_utf8(of_stores(&rules, &names)).unwrap()
}

/// The canonical text of a file with these declarations and rules, of which head, body and `not` are
/// given, has these rules.
fn sorts(declared: &str, rules: &[[&str; 3]], expected: &[[&str; 3]]) {
    let text = |rules: &[[&str; 3]]| {
        let rule = |[head, body, not]: &[&str; 3]| {
            let list = |word: &str, names: &str| {
                let space = if names.is_empty() { "" } else { " " };
                format!("({word}{space}{names})")
            };
            let lists = [list("head", head), list("body", body), list("not", not)];
            format!("(rule {})\n", lists.join(" "))
        };
        format!("{declared}{}", rules.iter().map(rule).collect::<String>())
    };
    assert_eq!(canonical_of(&text(rules)), text(expected));
    assert_eq!(canonical_of(&text(expected)), text(expected));
}

const ABC: &str = "(atoms a b c)\n";

#[test]
fn atoms_inside_a_list_by_number() {
    sorts(ABC, &[["c a b", "b a", "c b"]], &[["a b c", "a b", "b c"]]);
    // By number and not by name.
    sorts(
        "(atoms c b a)\n",
        &[["a b c", "a b", "b c"]],
        &[["c b a", "b a", "c b"]],
    );
    sorts(
        "(min z)\n(min y)\n(vary x)\n(fix w)\n",
        &[["w x y z", "x w", ""]],
        &[["z y x w", "x w", ""]],
    );
    // Numbers of two digits.
    let names = many("a", 12);
    sorts(
        &format!("(atoms{names})\n"),
        &[["a11 a10 a2 a1", "", "a10 a9"]],
        &[["a1 a2 a10 a11", "", "a9 a10"]],
    );
}

#[test]
fn rules_by_the_first_difference() {
    // Heads first, then bodies, then `not` lists.
    sorts(
        ABC,
        &[["b", "a", "a"], ["a", "c", "c"], ["c", "", ""]],
        &[["a", "c", "c"], ["b", "a", "a"], ["c", "", ""]],
    );
    sorts(
        ABC,
        &[["a", "c", "a"], ["a", "b", "c"], ["a", "a", "b"]],
        &[["a", "a", "b"], ["a", "b", "c"], ["a", "c", "a"]],
    );
    sorts(
        ABC,
        &[["a", "b", "c"], ["a", "b", "a"], ["a", "b", "b"]],
        &[["a", "b", "a"], ["a", "b", "b"], ["a", "b", "c"]],
    );
    // A later atom of the head counts before the body.
    sorts(
        ABC,
        &[["a c", "a", ""], ["a b", "c", ""]],
        &[["a b", "c", ""], ["a c", "a", ""]],
    );
    // By number and not by name.
    sorts(
        "(atoms b a)\n",
        &[["a", "", ""], ["b", "", ""]],
        &[["b", "", ""], ["a", "", ""]],
    );
}

#[test]
fn a_list_that_ends_first_stands_before() {
    sorts(
        ABC,
        &[
            ["a b c", "", ""],
            ["a b", "", ""],
            ["a", "", ""],
            ["", "", ""],
        ],
        &[
            ["", "", ""],
            ["a", "", ""],
            ["a b", "", ""],
            ["a b c", "", ""],
        ],
    );
    sorts(
        ABC,
        &[["", "a b", ""], ["", "a", "b"], ["", "", "c"]],
        &[["", "", "c"], ["", "a", "b"], ["", "a b", ""]],
    );
    sorts(
        ABC,
        &[["", "", "a b"], ["", "", "a"], ["", "", ""]],
        &[["", "", ""], ["", "", "a"], ["", "", "a b"]],
    );
    // A shorter one that differs earlier does not.
    sorts(
        ABC,
        &[["b", "", ""], ["a b c", "", ""]],
        &[["a b c", "", ""], ["b", "", ""]],
    );
    // The end of a head is a difference, whatever the body then has.
    sorts(
        ABC,
        &[["a b", "", ""], ["a", "c", "c"]],
        &[["a", "c", "c"], ["a b", "", ""]],
    );
}

#[test]
fn one_of_equal_rules_is_kept() {
    let rule = ["a", "b", "c"];
    sorts(ABC, &[rule, rule, rule], &[rule]);
    sorts(
        ABC,
        &[rule, ["b", "", ""], rule, ["b", "", ""], rule],
        &[rule, ["b", "", ""]],
    );
    // Equal as sets.
    sorts(
        ABC,
        &[["a b", "c a", "b c"], ["b a", "a c", "c b"]],
        &[["a b", "a c", "b c"]],
    );
    // Rules that differ in one list alone are all kept.
    sorts(
        ABC,
        &[
            ["a", "b", "c"],
            ["a", "b", ""],
            ["a", "", "c"],
            ["", "b", "c"],
        ],
        &[
            ["", "b", "c"],
            ["a", "", "c"],
            ["a", "b", ""],
            ["a", "b", "c"],
        ],
    );
    sorts(ABC, &[["", "", ""], ["", "", ""]], &[["", "", ""]]);
}

#[test]
fn declarations_stay() {
    for text in [
        "(atoms)\n",
        "(atoms b a N.a U)\n",
        "(vary)\n(fix)\n",
        "(min)\n(min)\n(vary)\n(fix)\n",
    ] {
        assert_eq!(canonical_of(text), text);
    }
    sorts(
        "(min c)\n(min)\n(min b a)\n(vary e d)\n(fix f)\n",
        &[["f e d", "", ""], ["b a", "c", ""]],
        &[["b a", "c", ""], ["e d f", "", ""]],
    );
    assert_eq!(canonical_of(FILE_A), FILE_A);
}

/// Of a file what no rule uses is left out before; of stores handed in it is written.
#[test]
fn unused_atoms() {
    let typed = "(min x b)\n(vary y)\n(fix a z)\n(rule (head a b) (body) (not))\n";
    let expected = "(min b)\n(vary)\n(fix a)\n(rule (head b a) (body) (not))\n";
    assert_eq!(canonical_of(typed), expected);
    let rules = [1, 4, 2, 2, 1, 2, 17, 18, 1, 0, 0, 1, 1, 0, 0, 1];
    let written = of_stores(&rules, b"\x01a\x01b\x01v\x01f");
    let expected = "(min a)\n(min b)\n(vary v)\n(fix f)\n(rule (head b) (body) (not))\n";
    assert_eq!(String::from_utf8(written).unwrap(), expected);
    // Read and written a second time, it lacks them.
    let again = "(min)\n(min b)\n(vary)\n(fix)\n(rule (head b) (body) (not))\n";
    assert_eq!(canonical_of(expected), again);
}

/// Files that a person typed in two ways.
#[test]
fn hand_typed_files() {
    let one = "; file A\n(min sensor)\n(min lamp)\n\n(vary dark)\n(fix)\n\n\
        (rule (head dark)        (body lamp) (not))\n\
        (rule (head lamp sensor) (body)      (not))  ; one of the two\n";
    let other = "( min sensor )\n(min lamp pad)\n(vary dark)\n(fix)\n\
        (rule(head sensor lamp)(body)(not))\n(rule(head dark)(body lamp)(not))\n\
        (rule(head lamp sensor)(body)(not))\n";
    assert_eq!(canonical_of(one), FILE_A);
    assert_eq!(canonical_of(other), FILE_A);
    assert_eq!(states(one), states(FILE_A));
}

#[test]
fn refusals() {
    let (a, names) = stores(FILE_A);
    let mut out = [7; 400];
    let mut write = |rules: &[u16], names: &[u8]| {
        let refused = lent::write_canonical(rules, names, &mut out);
        assert!(out.iter().all(|byte| *byte == 7));
        refused
    };
    let (ten, fourteen) = (Err(Reason::RuleStore), Err(Reason::NameStore));
    for length in 0..a.len() {
        assert_eq!(write(&a[..length], &names), ten);
    }
    assert_eq!(write(&[a.as_slice(), &[0]].concat(), &names), ten);
    assert_eq!(write(&[2, 0, 0, 0], b""), ten);
    assert_eq!(write(&[0, 1, 1, 0], b"\x01a"), ten);
    for length in 0..names.len() {
        assert_eq!(write(&a, &names[..length]), fourteen);
    }
    assert_eq!(write(&a, b"\x06sensor\x04lamp\x04lamp"), fourteen);
    assert_eq!(write(&a, b"\x06sensor\x04lamp\x04N.al"), fourteen);
    // 10 comes before 14, 14 before 9.
    assert_eq!(write(&[], b"x"), ten);
    assert_eq!(lent::write_canonical(&[9], b"x", &mut []), ten);
    assert_eq!(lent::write_canonical(&a, b"x", &mut []), fourteen);
    let short = Err(Reason::OutputShort);
    assert_eq!(lent::write_canonical(&a, &names, &mut []), short);
    // Stores of either kind are taken.
    assert!(lent::write_canonical(&[0, 0, 0, 0], b"", &mut out).is_ok());
    assert!(lent::write_canonical(&a, &names, &mut out).is_ok());
}

/// Exact, one short, longer: the room needed is that of the canonical text, not that of the text.
#[test]
fn lent_outputs() {
    let rule = "(rule (head b a) (body) (not))\n";
    let text = format!("(vary a b)\n(fix)\n{}", rule.repeat(50));
    let (rules, names) = stores(&text);
    let expected = b"(vary a b)\n(fix)\n(rule (head a b) (body) (not))\n";
    for more in 0..3 {
        let mut out = vec![7; expected.len() + more];
        let written = lent::write_canonical(&rules, &names, &mut out);
        assert_eq!(written, Ok(expected.len()));
        assert_eq!(out[..expected.len()], *expected);
        assert!(out[expected.len()..].iter().all(|byte| *byte == 7));
    }
    for length in [expected.len() - 1, expected.len() / 2, 1, 0] {
        let mut out = vec![7; length];
        let written = lent::write_canonical(&rules, &names, &mut out);
        assert_eq!(written, Err(Reason::OutputShort));
        assert!(out.iter().all(|byte| *byte == 7));
    }
}

/// The most rules, equal ones and different ones from the last to the first; the longest lists.
#[test]
fn limits() {
    let rule = "(rule (head) (body) (not))\n";
    for (declared, most) in [("(vary)\n(fix)\n", 1_024), ("(atoms)\n", 4_200)] {
        let text = format!("{declared}{}", rule.repeat(most));
        assert_eq!(canonical_of(&text), format!("{declared}{rule}"));
    }
    let names = many("a", 1_100);
    let declared = format!("(atoms{names})\n");
    let rule = |i: usize| format!("(rule (head a{}) (body a{}) (not))\n", i % 1_100, i / 1_100);
    let mut numbers: Vec<usize> = (0..4_200).collect();
    let text: String = numbers.iter().rev().map(|&i| rule(i)).collect();
    numbers.sort_by_key(|i| (i % 1_100, i / 1_100));
    let expected: String = numbers.iter().map(|&i| rule(i)).collect();
    assert_eq!(
        canonical_of(&format!("{declared}{text}")),
        format!("{declared}{expected}")
    );
    let turned: String = names
        .split(' ')
        .rev()
        .map(|name| format!("{name} "))
        .collect();
    let list = |names: &str| format!("(rule (head {names}) (body {names}) (not {names}))\n");
    let (typed, expected) = (list(&turned).repeat(7), list(names.trim_start()));
    assert_eq!(
        canonical_of(&format!("{declared}{typed}")),
        format!("{declared}{expected}")
    );
}

/// The list, or the rules, in another sequence.
fn shuffled<T: Clone>(draw: &mut Draw, items: &[T]) -> Vec<T> {
    let mut items = items.to_vec();
    for last in (1..items.len()).rev() {
        items.swap(draw.below(last + 1), last);
    }
    items
}

/// The same rules as sets: each list in any sequence, the rules too, some of them twice or thrice.
fn rearranged(draw: &mut Draw, program: &Program) -> Program {
    let mut rules = program.rules.clone();
    for _ in 0..draw.below(3).min(rules.len()) {
        rules.push(rules[draw.below(rules.len())].clone());
    }
    let mut rules = shuffled(draw, &rules);
    for rule in &mut rules {
        for list in [&mut rule.head, &mut rule.body, &mut rule.not] {
            *list = shuffled(draw, list);
        }
    }
    Program {
        rules,
        ..program.clone()
    }
}

/// Names in one of two ways.
fn names_of(program: &Program, way: usize) -> Names {
    let name = |atom: usize| match way {
        0 => format!("a{atom}").into_bytes(),
        _ => format!("a{}", program.atoms - atom).into_bytes(),
    };
    (0..program.atoms).map(name).collect()
}

fn as_sets(rules: &[Rule]) -> BTreeSet<Vec<BTreeSet<usize>>> {
    let set = |list: &[usize]| list.iter().copied().collect();
    let rule = |rule: &Rule| rule.lists().into_iter().map(set).collect();
    rules.iter().map(rule).collect()
}

/// What two programs share when they are to have the same canonical text.
fn meant(program: &Program, names: &Names) -> String {
    let declared = Program {
        rules: Vec::new(),
        ..program.clone()
    };
    format!("{declared:?} {names:?} {:?}", as_sets(&program.rules))
}

const KINDS: [Kind; 2] = [Kind::Preference, Kind::Plain];

/// Equal bytes exactly where declarations are the same in sequence and the rules the same as sets.
#[test]
fn equal_exactly_when_the_same() {
    for kind in KINDS {
        let mut draw = Draw(205);
        let mut texts: HashMap<String, Vec<u8>> = HashMap::new();
        let mut meanings: HashMap<Vec<u8>, String> = HashMap::new();
        for program in programs(kind, 2_000) {
            for way in 0..2 {
                let names = names_of(&program, way);
                for _ in 0..3 {
                    let program = rearranged(&mut draw, &program);
                    let text = of_stores(&rule_store(&program), &name_store(&names));
                    let meaning = meant(&program, &names);
                    let known = texts.entry(meaning.clone()).or_insert(text.clone());
                    assert_eq!(*known, text, "{meaning}");
                    assert_eq!(*meanings.entry(text).or_insert(meaning.clone()), meaning);
                }
            }
        }
    }
}

/// Read and written canonically a second time, the text is the same; for a preference store with
/// unused atoms, that of the store without them.
#[test]
fn twice() {
    for kind in KINDS {
        let mut draw = Draw(206);
        for program in programs(kind, 2_000) {
            let program = rearranged(&mut draw, &program);
            let names = names_of(&program, 1);
            let text = of_stores(&rule_store(&program), &name_store(&names));
            let (read, read_names) = reader::read(&text).expect("a written text is accepted");
            let again = of_stores(&rule_store(&read), &name_store(&read_names));
            let (left, left_names) = match kind {
                Kind::Preference => without_unused(&program, &names),
                Kind::Plain => (program, names),
            };
            assert_eq!(
                again,
                of_stores(&rule_store(&left), &name_store(&left_names))
            );
            let (third, third_names) = reader::read(&again).unwrap();
            assert_eq!((&third, &third_names), (&canonical(&left), &left_names));
            assert_eq!(writer::write(&third, &third_names), again);
        }
    }
}

/// The preferred sets, or the stable ones, are those of the program as it was typed.
#[test]
fn the_same_sets() {
    type Judge = fn(&Program, u64, u64) -> Verdict;
    for (kind, judge) in [
        (Kind::Preference, preferred as Judge),
        (Kind::Plain, stable),
    ] {
        let mut draw = Draw(207);
        for program in programs(kind, 1_000) {
            let program = rearranged(&mut draw, &program);
            let sets = |program: &Program| -> Vec<u64> {
                let yes = |&set: &u64| {
                    let verdict = judge(program, set, BUDGET_LIMIT);
                    matches!(verdict, Verdict::Yes { .. })
                };
                (0..1 << program.atoms).filter(yes).collect()
            };
            assert_eq!(sets(&canonical(&program)), sets(&program), "{program:?}");
        }
    }
}

/// A rule that always holds is no exception: it is kept, sorted like the others.
#[test]
fn rules_that_always_hold() {
    let declared = "(vary a b)\n(fix)\n";
    let text = format!(
        "{declared}{}(rule (head a) (body) (not))\n",
        tautology(" b a")
    );
    let expected = format!(
        "{declared}(rule (head a) (body) (not))\n{}",
        tautology(" a b")
    );
    assert_eq!(canonical_of(&text), expected);
}
