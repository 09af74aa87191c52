//! Document 02, W-202: clause files (DIMACS CNF), each sentence by a case, and the law by brute force.

mod common;

use common::draw::Draw;
use common::states;
use reference::clauses::{self, read_formula, Formula, Literal};
use reference::lent::{self, Accepted};
use reference::limits::{BUDGET_LIMIT, TEXT_LIMIT};
use reference::refusal::{Reason, Refusal};
use reference::stores::{check_names, check_rules, name_store, rule_store};
use reference::verdicts::{holds, is_model, preferred, Verdict};
use reference::writer;

/// The text of the preference file that an accepted clause file gives.
fn written(text: &str) -> String {
    let (program, names) = clauses::read(text.as_bytes()).expect("an accepted text");
    String::from_utf8(writer::write(&program, &names)).unwrap()
}

/// The number and line with which a clause file is refused.
fn refused(text: impl AsRef<[u8]>) -> (u64, u64) {
    let refusal = clauses::read(text.as_ref()).expect_err("a refused text");
    (refusal.number(), refusal.line)
}

/// The preference file with one class of these names and these heads and bodies.
fn file(names: &str, rules: &[(&str, &str)]) -> String {
    let rules: String = rules
        .iter()
        .map(|(head, body)| format!("(rule (head{head}) (body{body}) (not))\n"))
        .collect();
    format!("(min{names})\n(vary)\n(fix)\n{rules}")
}

/// ` 1 2 3 ..`: literals up to this one, each with a space before it.
fn literals(last: usize) -> String {
    (1..=last).map(|atom| format!(" {atom}")).collect()
}

#[test]
fn clauses_become_rules() {
    let expected = file(
        " v1 v2 v3",
        &[(" v2", " v1 v3"), ("", " v2"), (" v3 v1", "")],
    );
    assert_eq!(written("p cnf 3 3\n-1 2 -3 0\n-2 0\n3 1 0\n"), expected);
    // An empty clause is a rule without atoms.
    assert_eq!(written("p cnf 0 1\n0\n"), file("", &[("", "")]));
    assert_eq!(written("p cnf 0 0\n"), "(min)\n(vary)\n(fix)\n");
    assert_eq!(written("p cnf 5 0\n"), "(min)\n(vary)\n(fix)\n");
}

#[test]
fn the_two_stores() {
    let mut rules = [9; 12];
    let mut names = [9; 8];
    let read = lent::read_clauses(b"p cnf 9 1\n7 -9 0\n", &mut rules, &mut names);
    assert_eq!(
        read,
        Ok(Accepted {
            words: 11,
            bytes: 6
        })
    );
    assert_eq!(rules, [1, 2, 1, 1, 1, 1, 1, 1, 0, 0, 1, 9]);
    assert_eq!(names, *b"\x02v7\x02v9\x09\x09");
}

#[test]
fn a_repeated_literal_counts_once() {
    let text = "p cnf 2 1\n2 -1 2 -1 2\n2 0\n";
    assert_eq!(written(text), file(" v1 v2", &[(" v2", " v1")]));
    // In another clause it counts again.
    let text = "p cnf 1 2\n1 1 0 1 0\n";
    assert_eq!(written(text), file(" v1", &[(" v1", ""), (" v1", "")]));
}

#[test]
fn an_atom_in_head_and_body() {
    let text = "p cnf 2 1\n1 2 -1 0\n";
    assert_eq!(written(text), file(" v1 v2", &[(" v1 v2", " v1")]));
}

#[test]
fn only_atoms_of_clauses_remain() {
    let text = "p cnf 256 2\n-200 7 0\n256 -7 0\n";
    let expected = file(" v7 v200 v256", &[(" v7", " v200"), (" v256", " v7")]);
    assert_eq!(written(text), expected);
}

#[test]
fn clauses_over_any_lines() {
    let expected = written("p cnf 3 2\n1 -2 0\n3 0\n");
    for text in [
        "p cnf 3 2\n1 -2 0 3 0\n",
        "p cnf 3 2\n1\n-2\n0\n3\n0\n",
        "p cnf 3 2\n1 -2\n0 3\n0\n",
        "p cnf 3 2\n1\n-2 0 3 0\n",
    ] {
        assert_eq!(written(text), expected);
    }
}

#[test]
fn spaces_and_blank_lines() {
    let expected = written("p cnf 3 2\n1 -2 0\n3 0\n");
    for text in [
        "\n  \np cnf 3 2\n\n1 -2 0\n \n3 0\n\n\n",
        "  p   cnf  3 2  \n   1  -2 0   \n 3   0 \n",
        "p cnf 3 2\n1\n\n   \n-2 0\n3 0\n",
    ] {
        assert_eq!(written(text), expected);
    }
    // A tab and a carriage return are bytes of an item.
    assert_eq!(refused("p cnf 3 2\n1\t-2 0\n3 0\n"), (15, 2));
    assert_eq!(refused("p\tcnf 3 2\n1 -2 0\n3 0\n"), (15, 1));
    assert_eq!(refused("p cnf 3 2\r\n1 -2 0\r\n3 0\r\n"), (15, 1));
    assert_eq!(refused("p cnf 3 2\n1 -2 0\n3 0\r\n"), (15, 3));
    assert_eq!(refused("\t\np cnf 0 0\n"), (15, 1));
    assert_eq!(refused("p cnf 1 1\n1\x0b0\n"), (15, 2));
}

#[test]
fn comments_anywhere() {
    let expected = written("p cnf 3 2\n1 -2 0\n3 0\n");
    for text in [
        "c made by hand\np cnf 3 2\n1 -2 0\n3 0\n",
        "c\n\nc p cnf 9 9\np cnf 3 2\nc\n1 -2 0\ncc\n3 0\nc 1 0\n",
        "p cnf 3 2\n1\nc within a clause\n-2 0\n3 0\n",
        "cnf 3 2\np cnf 3 2\nc0\n1 -2 0\n3 0\ncomment\t\r\u{e9}\n",
    ] {
        assert_eq!(written(text), expected);
    }
    // With a space before it, it is none.
    assert_eq!(refused(" c\np cnf 0 0\n"), (15, 1));
    assert_eq!(refused("p cnf 1 1\n c\n1 0\n"), (15, 2));
    // Behind an item neither.
    assert_eq!(refused("p cnf 1 1\n1 0 c\n"), (15, 2));
    assert_eq!(refused("p cnf 1 1 c\n1 0\n"), (15, 1));
    assert_eq!(refused("C\np cnf 0 0\n"), (15, 1));
}

#[test]
fn the_last_line_has_its_end() {
    assert_eq!(refused("p cnf 1 1\n1 0"), (15, 2));
    assert_eq!(refused("p cnf 1 1\n1 0\nc"), (15, 3));
    assert_eq!(refused("p cnf 1 1\n1 0\n "), (15, 3));
    assert_eq!(refused("p cnf 0 0"), (15, 1));
    assert_eq!(refused("c"), (15, 1));
    // It counts before what else is wrong on its line.
    assert_eq!(refused("p cnf 1 1\n2 0"), (15, 2));
    assert_eq!(refused("p cnf 257 1"), (15, 1));
    // An earlier line counts first.
    assert_eq!(refused("p cnf 1 1\n2\n0"), (16, 2));
}

#[test]
fn headers() {
    for header in [
        "p cnf 1",
        "p cnf 1 1 1",
        "p cnf",
        "p",
        "cp cnf 1 1 0\n1",
        "p CNF 1 1",
        "P cnf 1 1",
        "pcnf 1 1",
        "p dnf 1 1",
        "cnf p 1 1\n1",
        "p cnf +1 1",
        "p cnf 1 +1",
        "p cnf 01 1",
        "p cnf 1 01",
        "p cnf 00 1",
        "p cnf -1 1",
        "p cnf 1 -0",
        "p cnf 1 x",
        "p cnf 1x 1",
        "p cnf 0x1 1",
        "1 0",
        "0",
        "%",
    ] {
        let line = 1 + header.matches('\n').count() as u64;
        assert_eq!(refused(format!("{header}\n1 0\n")), (15, line), "{header}");
        let text = format!("c\n \n{header}\n1 0\n");
        assert_eq!(refused(text), (15, line + 2), "{header}");
    }
    // None at all: one past the last line.
    assert_eq!(refused(""), (15, 1));
    assert_eq!(refused("\n"), (15, 2));
    assert_eq!(refused("c\n\n  \n"), (15, 4));
    // A second one is a broken clause.
    assert_eq!(refused("p cnf 1 1\np cnf 1 1\n1 0\n"), (15, 2));
}

#[test]
fn broken_items() {
    for item in [
        "-0", "+1", "+0", "01", "-01", "00", "-", "--1", "1-", "1-2", "-1-", "1.", "1,", "x", "%",
        "p", "c", "0x", "1x", "\u{b9}",
    ] {
        assert_eq!(refused(format!("p cnf 9 1\n1\n {item} 0\n")), (15, 3));
        assert_eq!(refused(format!("p cnf 9 1\n1 {item}\n0\n")), (15, 2));
        assert_eq!(refused(format!("p cnf 9 1\n1 0\n 0{item}\n")), (15, 3));
    }
    // Behind the last clause too.
    assert_eq!(refused("p cnf 1 1\n1 0\n%\n"), (15, 3));
}

#[test]
fn literals_beyond() {
    assert_eq!(refused("p cnf 2 1\n1 2\n3 0\n"), (16, 3));
    assert_eq!(refused("p cnf 2 1\n1 2\n-3 0\n"), (16, 3));
    assert_eq!(refused("p cnf 0 1\n1 0\n"), (16, 2));
    assert_eq!(refused("p cnf 256 1\n257 0\n"), (16, 2));
    assert_eq!(
        written("p cnf 256 1\n256 0\n"),
        file(" v256", &[(" v256", "")])
    );
}

#[test]
fn numbers_of_any_length() {
    for past in [
        "4294967296",
        "4294967297",
        "18446744073709551616",
        "18446744073709551617",
        "340282366920938463463374607431768211457",
        &"9".repeat(400),
        &format!("1{}", "0".repeat(100_000)),
        &format!("1{}1", "0".repeat(100_000)),
    ] {
        assert_eq!(refused(format!("p cnf {past} 1\n1 0\n")), (7, 1));
        assert_eq!(refused(format!("p cnf 1 {past}\n1 0\n")), (7, 1));
        assert_eq!(refused(format!("p cnf 1 1\n{past} 0\n")), (16, 2));
        assert_eq!(refused(format!("p cnf 1 1\n1 -{past} 0\n")), (16, 2));
        assert_eq!(refused(format!("p cnf 1 1\n{past}x 0\n")), (15, 2));
        assert_eq!(refused(format!("p cnf 0{past} 1\n1 0\n")), (15, 1));
    }
}

#[test]
fn the_count_of_clauses() {
    // Missing, or not ended: one past the last line.
    assert_eq!(refused("p cnf 1 1\n"), (15, 2));
    assert_eq!(refused("p cnf 1 2\n1 0\n"), (15, 3));
    assert_eq!(refused("p cnf 1 2\n1 0\nc\n\n"), (15, 5));
    assert_eq!(refused("p cnf 1 1\n1\n"), (15, 3));
    assert_eq!(refused("p cnf 1 2\n1 0\n1\n\n"), (15, 5));
    // Surplus: where its first item stands, a lone 0 too.
    assert_eq!(refused("p cnf 1 1\n1 0\n1\n0\n"), (15, 3));
    assert_eq!(refused("p cnf 1 1\n1 0\n\n0\n"), (15, 4));
    assert_eq!(refused("p cnf 1 1\n1 0 0\n"), (15, 2));
    assert_eq!(refused("p cnf 1 1\n1 0 1\n0\n"), (15, 2));
    assert_eq!(refused("p cnf 1 0\n1\n0\n"), (15, 2));
    assert_eq!(refused("p cnf 0 0\n0\n"), (15, 2));
}

/// On a line 15, then 16, then 7, wherever on it they stand; the earliest faulty line counts.
#[test]
fn the_fault_that_counts() {
    assert_eq!(refused("p cnf 257 x\n"), (15, 1));
    assert_eq!(refused("p cnf 257 1\nx\n"), (7, 1));
    assert_eq!(refused("p cnf 1 1025\n2\n"), (7, 1));
    assert_eq!(refused("p cnf 1 1\n2 x 0\n"), (15, 2));
    assert_eq!(refused("p cnf 1 1\nx 2 0\n"), (15, 2));
    assert_eq!(refused("p cnf 1 1\n2\nx 0\n"), (16, 2));
    // A surplus clause counts before a literal beyond.
    assert_eq!(refused("p cnf 1 1\n2 0 1 0\n"), (15, 2));
    assert_eq!(refused("p cnf 1 1\n2 0\n1 0\n"), (16, 2));
    assert_eq!(refused("p cnf 1 1\n1 0\n2 0\n"), (15, 3));
    // A missing one stands behind all lines.
    assert_eq!(refused("p cnf 1 2\n2 0\n"), (16, 2));
    let lines = format!("{} 0\n", literals(256)).repeat(32);
    let full = format!("p cnf 256 34\n0\n{lines}");
    // 8,192 occurrences so far, and one clause to come.
    assert_eq!(refused(format!("{full}1 0\n")), (7, 35));
    assert_eq!(refused(format!("{full}1 257 0\n")), (16, 35));
    assert_eq!(refused(format!("{full}257 1 0\n")), (16, 35));
    assert_eq!(refused(format!("{full}1 257 x 0\n")), (15, 35));
    assert_eq!(refused(format!("{full}1 0 0\n")), (15, 35));
    assert_eq!(refused(format!("{full}1\n257 0\n")), (7, 35));
    assert_eq!(refused(format!("{full}\n\n1 0\n")), (7, 37));
    assert_eq!(refused(format!("{full}1")), (15, 35));
    assert_eq!(refused(full.clone()), (15, 35));
    assert!(clauses::read(format!("{full}0\n").as_bytes()).is_ok());
}

#[test]
fn limits_met_and_passed_by_one() {
    let all = format!("p cnf 256 1\n{} 0\n", literals(256));
    let names: String = (1..=256).map(|i| format!(" v{i}")).collect();
    assert_eq!(written(&all), file(&names, &[(&names, "")]));
    assert_eq!(refused("p cnf 257 0\n"), (7, 1));
    assert_eq!(refused("\n\np cnf 257 0\n"), (7, 3));
    let facts = |count: usize| format!("p cnf 1 {count}\n{}", "1 0\n".repeat(count));
    let (most, _) = clauses::read(facts(1_024).as_bytes()).unwrap();
    assert_eq!(most.rules.len(), 1_024);
    assert_eq!(refused(facts(1_025)), (7, 1));
    // A repeated literal is no occurrence, and one of the other sign is.
    let line = format!("{} 0\n", literals(256));
    let mut clauses = vec![line; 32];
    let file = |clauses: &[String]| format!("p cnf 256 {}\n{}", clauses.len(), clauses.concat());
    let (most, _) = clauses::read(file(&clauses).as_bytes()).unwrap();
    assert_eq!(most.occurrences(), 8_192);
    clauses[31] = format!("{} 9 9 256 0\n", literals(256));
    assert!(clauses::read(file(&clauses).as_bytes()).is_ok());
    clauses[31] = format!("{} -9 0\n", literals(256));
    assert_eq!(refused(file(&clauses)), (7, 33));
}

#[test]
fn the_length_of_a_text() {
    let start = "p cnf 0 0\n";
    let padded = |length: usize| format!("{start}{}", "\n".repeat(length - start.len()));
    assert_eq!(written(&padded(TEXT_LIMIT)), "(min)\n(vary)\n(fix)\n");
    assert_eq!(refused(padded(TEXT_LIMIT + 1)), (1, 0));
    assert_eq!(refused(vec![b'x'; TEXT_LIMIT + 1]), (1, 0));
    assert_eq!(refused(vec![b'x'; TEXT_LIMIT]), (15, 1));
    let repeated = format!("p cnf 1 1\n{}0\n", "1\n".repeat(400_000));
    assert_eq!(written(&repeated), file(" v1", &[(" v1", "")]));
}

/// Refusal 9 comes last and is for either output; what is not written keeps its content.
#[test]
fn lent_outputs() {
    let text = b"p cnf 3 2\n1 -3 0\n-1 0\n";
    let (program, names) = clauses::read(text).unwrap();
    let (words, bytes) = (rule_store(&program), name_store(&names));
    for rules_len in 0..words.len() + 3 {
        for names_len in 0..bytes.len() + 3 {
            let (mut rules, mut names) = (vec![7; rules_len], vec![7; names_len]);
            let read = lent::read_clauses(text, &mut rules, &mut names);
            let mut expected = (vec![7; rules_len], vec![7; names_len]);
            if rules_len < words.len() || names_len < bytes.len() {
                assert_eq!(read, Err(Refusal::without_line(Reason::OutputShort)));
            } else {
                let (words_len, bytes_len) = (words.len(), bytes.len());
                expected.0[..words_len].copy_from_slice(&words);
                expected.1[..bytes_len].copy_from_slice(&bytes);
                let whole = Accepted {
                    words: words_len,
                    bytes: bytes_len,
                };
                assert_eq!(read, Ok(whole));
            }
            assert_eq!((rules, names), expected);
        }
    }
    // A line's fault counts before it, and the text's length before both.
    let on_line = |reason, line| Err(Refusal::on_line(reason, line));
    let read = |text: &[u8]| lent::read_clauses(text, &mut [], &mut []);
    assert_eq!(read(b"p cnf 1 1\n2 0\n"), on_line(Reason::LiteralBeyond, 2));
    assert_eq!(read(b"p cnf 257 1\n"), on_line(Reason::Limit, 1));
    assert_eq!(read(b""), on_line(Reason::BrokenClauses, 1));
    let long = vec![b'c'; TEXT_LIMIT + 1];
    let too_long = Refusal::without_line(Reason::TextTooLong);
    assert_eq!(read(&long), Err(too_long));
}

/// What is written is of the form, also at its largest, and its text is read as the same stores.
#[test]
fn the_stores_are_of_the_form() {
    let largest = format!(
        "p cnf 256 1024\n{}",
        "-1 2 -3 4 -5 6 -7 8 0\n".repeat(1_024)
    );
    let all = format!("p cnf 256 1\n{} 0\n", literals(256));
    for text in ["p cnf 0 0\n", "p cnf 9 2\n0 9 -3 9 0\n", &largest, &all] {
        let (program, names) = clauses::read(text.as_bytes()).unwrap();
        assert_eq!(check_rules(&rule_store(&program)), Ok(program.clone()));
        assert_eq!(
            check_names(&program, &name_store(&names)),
            Ok(names.clone())
        );
        let text = writer::write(&program, &names);
        assert_eq!(reference::reader::read(&text), Ok((program, names)));
    }
}

// ---- the law

/// Does the set of the header's atoms, atom i in bit i - 1, satisfy the clause as it stands there?
fn satisfies(set: u64, clause: &[Literal]) -> bool {
    let holds = |literal: &Literal| holds(set, literal.atom - 1) == literal.positive;
    clause.iter().any(holds)
}

fn draw_formula(draw: &mut Draw) -> Formula {
    let atoms = draw.below(7);
    let mut formula = Formula {
        atoms,
        clauses: Vec::new(),
    };
    for _ in 0..draw.below(8) {
        let length = if atoms == 0 { 0 } else { draw.below(5) };
        let literal = |_| Literal {
            atom: 1 + draw.below(atoms),
            positive: draw.below(2) == 0,
        };
        formula.clauses.push((0..length).map(literal).collect());
    }
    formula
}

fn text_of(formula: &Formula) -> String {
    let mut text = format!("p cnf {} {}\n", formula.atoms, formula.clauses.len());
    for clause in &formula.clauses {
        for literal in clause {
            let sign = if literal.positive { "" } else { "-" };
            text += &format!("{sign}{} ", literal.atom);
        }
        text += "0\n";
    }
    text
}

/// The sets that satisfy the clauses, read directly, are the models of what is written, and the
/// preferred sets are the minimal ones; all over the atoms that some clause has.
#[test]
fn models_and_minimal_ones() {
    let mut draw = Draw(5);
    let (mut satisfied, mut unused) = (0, 0);
    for _ in 0..3_000 {
        let formula = draw_formula(&mut draw);
        let text = text_of(&formula);
        assert_eq!(read_formula(text.as_bytes()).as_ref(), Ok(&formula));
        let (program, names) = clauses::read(text.as_bytes()).unwrap();
        let in_a_clause = |atom: &usize| formula.clauses.iter().flatten().any(|l| l.atom == *atom);
        let remaining: Vec<usize> = (1..=formula.atoms).filter(in_a_clause).collect();
        let expected: Vec<Vec<u8>> = remaining
            .iter()
            .map(|atom| format!("v{atom}").into_bytes())
            .collect();
        assert_eq!(names, expected);
        unused += formula.atoms - remaining.len();
        // A set of what remains, as a set of the header's atoms.
        let of_header = |set: u64| -> u64 {
            let members = (0..remaining.len()).filter(|&place| holds(set, place));
            members.map(|place| 1 << (remaining[place] - 1)).sum()
        };
        let all = |set: &u64| {
            let set = of_header(*set);
            formula.clauses.iter().all(|clause| satisfies(set, clause))
        };
        let sets = 1u64 << remaining.len();
        let satisfying: Vec<u64> = (0..sets).filter(all).collect();
        let models: Vec<u64> = (0..sets)
            .filter(|&set| is_model(&program.rules, set))
            .collect();
        assert_eq!(models, satisfying, "{text}");
        let is_minimal = |set: &u64| satisfying.iter().all(|s| s & !set != 0 || s == set);
        let mut minimal = satisfying.clone();
        minimal.retain(is_minimal);
        let yes = |set: &u64| {
            let verdict = preferred(&program, *set, BUDGET_LIMIT);
            matches!(verdict, Verdict::Yes { .. })
        };
        let states: Vec<u64> = (0..sets).filter(yes).collect();
        assert_eq!(states, minimal, "{text}");
        satisfied += usize::from(!satisfying.is_empty());
    }
    assert!((1_000..2_999).contains(&satisfied) && unused > 0);
}

/// The whole way by the text: the states that are listed.
#[test]
fn the_states_listed() {
    let text = written("p cnf 4 3\n1 2 0\n-1 3 0\n-2 4 0\n");
    // v1 v3, or v2 v4; atoms numbered from 0.
    assert_eq!(states(&text), [0b1010, 0b0101]);
    assert_eq!(states(&written("p cnf 1 2\n1 0\n-1 0\n")), [0; 0]);
    assert_eq!(states(&written("p cnf 3 0\n")), [0]);
}
