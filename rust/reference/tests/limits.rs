//! Each limit of document 01, met and passed by one.

mod common;

use common::{accepted, many, refused, stores, tautology, translated_sums, FILE_A};
use reference::lent::{self, Accepted};
use reference::refusal::{Reason, Refusal};
use reference::verdicts::{Next, Verdict};
use reference::{programs, reader};

fn plain(atoms: usize) -> String {
    format!("(atoms{})\n", many("a", atoms))
}

/// So many varying atoms, all in a rule that holds in every set.
fn varying(atoms: usize) -> String {
    let names = many("a", atoms);
    format!("(vary{names})\n(fix)\n{}", tautology(&names))
}

#[test]
fn atoms() {
    accepted(&varying(256));
    let (a, b, c) = (many("a", 100), many("b", 100), many("c", 56));
    let all = tautology(&format!("{a}{b}{c}"));
    accepted(&format!("(min{a})\n(vary{b})\n(fix{c})\n{all}"));
    assert_eq!(refused(varying(257).as_bytes()), (7, 1));
    let on_fix = format!("(vary{})\n(fix{})\n", many("a", 256), many("b", 1));
    assert_eq!(refused(on_fix.as_bytes()), (7, 2));
    accepted(&plain(1_100));
    assert_eq!(refused(plain(1_101).as_bytes()), (7, 1));
}

#[test]
fn rules() {
    let rule = "(rule (head) (body) (not))\n";
    accepted(&format!("(vary)\n(fix)\n{}", rule.repeat(1_024)));
    assert_eq!(
        refused(format!("(vary)\n(fix)\n{}", rule.repeat(1_025)).as_bytes()),
        (7, 1_027)
    );
    accepted(&format!("(atoms)\n{}", rule.repeat(4_200)));
    assert_eq!(
        refused(format!("(atoms)\n{}", rule.repeat(4_201)).as_bytes()),
        (7, 4_202)
    );
}

#[test]
fn occurrences() {
    let names = many("a", 256);
    let rule = format!("(rule (head{names}) (body{names}) (not))\n");
    let start = format!("(vary{names})\n(fix)\n{}", rule.repeat(16));
    accepted(&start);
    assert_eq!(
        refused(format!("{start}(rule (head a7) (body) (not))\n").as_bytes()),
        (7, 19)
    );
    accepted(&format!("{start}(rule (head) (body) (not))\n"));

    let names = many("a", 1_000);
    let rule = format!("(rule (head{names}) (body{names}) (not{names}))\n");
    let start = format!("(atoms{names})\n{}", rule.repeat(8));
    accepted(&start);
    assert_eq!(
        refused(format!("{start}(rule (head) (body) (not a7))\n").as_bytes()),
        (7, 10)
    );
}

#[test]
fn classes() {
    let text = |classes: usize| -> String {
        let lines: String = (0..classes).map(|i| format!("(min a{i})\n")).collect();
        lines + "(vary)\n(fix)\n" + &tautology(&many("a", classes))
    };
    accepted(&text(16));
    assert_eq!(refused(text(17).as_bytes()), (7, 17));
    accepted(&("(min)\n".repeat(16) + "(vary)\n(fix)\n"));
    assert_eq!(
        refused(("(min)\n".repeat(17) + "(vary)\n(fix)\n").as_bytes()),
        (7, 17)
    );
}

/// A text as long as the limit is read on; with one byte more it is too long, whatever it says.
#[test]
fn bytes() {
    let mut text = b"(vary)\n(fix)\n".to_vec();
    text.resize(917_504, b'x');
    assert_eq!(refused(&text), (2, 3));
    text.push(b'x');
    assert_eq!(refused(&text), (1, 0));
    assert_eq!(refused(&vec![b'\n'; 917_505]), (1, 0));
}

#[test]
fn name_lengths() {
    for longest in ["abcdefghijklmnopqrstuvwx", "1999_12_31_lender_000417"] {
        assert_eq!(longest.len(), 24);
        let rule = tautology(&format!(" {longest}"));
        accepted(&format!("(vary {longest})\n(fix)\n{rule}"));
        for prefix in ["", "N.", "S.", "D."] {
            accepted(&format!("(atoms {prefix}{longest})\n"));
            for text in [
                format!("(atoms {prefix}{longest}9)\n"),
                format!("(vary {prefix}{longest}9)\n(fix)\n"),
            ] {
                assert_eq!(refused(text.as_bytes()), (3, 1));
            }
        }
    }
}

#[test]
fn the_largest_translation_is_inside_the_plain_limits() {
    // p = n = 256 gives the most atoms, 16 classes, 1,024 rules, 8,192 occurrences.
    let mut text = String::new();
    for class in 0..16 {
        text += &format!("(min{})\n", many(&format!("c{class}_"), 16));
    }
    text += "(vary)\n(fix)\n";
    // Each rule has eight of a class's atoms, and together they have all.
    for rule in 0..1_024 {
        let (class, first) = (rule % 16, rule / 16 % 2 * 8);
        let four = |from: usize| -> String {
            let names = (from..from + 4).map(|i| format!(" c{class}_{i}"));
            names.collect()
        };
        let (head, body) = (four(first), four(first + 4));
        text += &format!("(rule (head{head}) (body{body}) (not))\n");
    }
    let (n, p, k, r, l) = (256, 256, 16, 1_024, 8_192);
    let atoms = 3 * n + p + k + 2;
    let rules = 3 * n + 2 * r + 4 * p + 2 * k + 4;
    let occurrences = 6 * n + 2 * l + r + 15 * p + 5 * k + 7;
    assert_eq!(translated_sums(&text), (atoms, rules, occurrences));
}

#[test]
fn outputs_exact_and_one_short() {
    let (words, bytes) = stores(FILE_A);
    let mut lent_words = vec![7u16; words.len()];
    let mut lent_bytes = vec![7u8; bytes.len()];
    let whole = Accepted {
        words: words.len(),
        bytes: bytes.len(),
    };
    let read = lent::read(FILE_A.as_bytes(), &mut lent_words, &mut lent_bytes);
    assert_eq!(
        (read, &lent_words, &lent_bytes),
        (Ok(whole), &words, &bytes)
    );
    for (w, b) in [(1, 0), (0, 1)] {
        let mut lent_words = vec![7u16; words.len() - w];
        let mut lent_bytes = vec![7u8; bytes.len() - b];
        let read = lent::read(FILE_A.as_bytes(), &mut lent_words, &mut lent_bytes);
        assert_eq!(read, Err(Refusal::without_line(Reason::OutputShort)));
        assert!(lent_words.iter().all(|w| *w == 7) && lent_bytes.iter().all(|b| *b == 7));
    }
    let mut out = vec![7u8; FILE_A.len()];
    assert_eq!(lent::write(&words, &bytes, &mut out), Ok(FILE_A.len()));
    assert_eq!(out, FILE_A.as_bytes());
    let mut out = vec![7u8; FILE_A.len() - 1];
    assert_eq!(
        lent::write(&words, &bytes, &mut out),
        Err(Reason::OutputShort)
    );
    assert!(out.iter().all(|b| *b == 7));
    let mut out = vec![7u8; FILE_A.len() + 2];
    assert_eq!(lent::write(&words, &bytes, &mut out), Ok(FILE_A.len()));
    assert_eq!(out[FILE_A.len()..], [7, 7]);
    let delivered = programs::translate(FILE_A.as_bytes());
    let mut out = vec![7u8; delivered.len()];
    assert_eq!(
        lent::translate(&words, &bytes, &mut out),
        Ok(delivered.len())
    );
    assert_eq!(out, delivered);
    let mut out = vec![7u8; delivered.len() - 1];
    assert_eq!(
        lent::translate(&words, &bytes, &mut out),
        Err(Reason::OutputShort)
    );
}

#[test]
fn sixty_atoms() {
    let sixty = stores(&varying(60)).0;
    assert_eq!(
        lent::preferred(&sixty, 5, 0),
        Ok(Verdict::Spent { units: 0 })
    );
    assert_eq!(
        lent::preferred(&sixty, (1 << 60) - 1, 9),
        Ok(Verdict::Spent { units: 9 })
    );
    assert_eq!(
        lent::preferred(&sixty, 1 << 60, 0),
        Err(Reason::SetTooLarge)
    );
    assert_eq!(
        lent::next_state(&sixty, 1 << 60, 0),
        Ok(Next::None { units: 0 })
    );
    assert_eq!(
        lent::next_state(&sixty, (1 << 60) + 1, 0),
        Err(Reason::SetTooLarge)
    );
    assert_eq!(lent::next_state(&sixty, 0, 3), Ok(Next::Spent { units: 3 }));
    assert_eq!(lent::place(&sixty, 1), Ok(1 << 59));
    assert_eq!(lent::place(&sixty, 1 << 59), Ok(1));
    assert_eq!(lent::place(&sixty, (1 << 60) - 1), Ok((1 << 60) - 1));
    assert_eq!(lent::place(&sixty, 1 << 60), Err(Reason::SetTooLarge));
    let more = stores(&varying(61)).0;
    assert_eq!(lent::preferred(&more, 0, 0), Err(Reason::TooManyAtoms));
    assert_eq!(lent::place(&more, 0), Err(Reason::TooManyAtoms));
    let names = many("a", 60);
    let fixed = format!("(vary)\n(fix{names})\n{}", tautology(&names));
    let fixed = stores(&fixed).0;
    assert_eq!(
        lent::preferred(&fixed, 77, 61),
        Ok(Verdict::Yes { units: 61 })
    );
    let plain = stores(&plain(60)).0;
    assert_eq!(
        lent::stable(&plain, (1 << 60) - 1, 61),
        Ok(Verdict::Beaten { set: 0, units: 61 })
    );
    assert_eq!(
        lent::stable(&plain, (1 << 60) - 1, 60),
        Ok(Verdict::Spent { units: 60 })
    );
    assert_eq!(lent::stable(&plain, 0, 60), Ok(Verdict::Yes { units: 60 }));
}

#[test]
fn what_the_programs_read_and_print() {
    let refused = |number: u64| format!("(refused {number} 0)\n").into_bytes();
    // A text of 65,536 bytes is read, one of 65,537 is not.
    let mut text = b"(vary a)\n(fix)\n".to_vec();
    while text.len() + 28 <= 65_536 {
        text.extend_from_slice(b"(rule (head a) (body) (not))\n");
        if text.len() > 20_000 {
            break;
        }
    }
    assert_eq!(programs::states(&text), b"(state a)\n(total 1)\n");
    text.resize(65_536, b'x');
    assert_ne!(programs::states(&text), refused(1));
    text.push(b'x');
    assert_eq!(programs::states(&text), refused(1));
    assert_eq!(programs::translate(&text), refused(1));
    // Listings around 65,536 bytes: 2^11 states of 11 varying atoms, with names of chosen length.
    let listing = |lengths: &[usize]| -> Vec<u8> {
        let names: String = lengths
            .iter()
            .enumerate()
            .map(|(i, l)| format!(" {}{}", (b'a' + i as u8) as char, "x".repeat(l - 1)))
            .collect();
        let rule = tautology(&names);
        programs::states(format!("(vary{names})\n(fix)\n{rule}").as_bytes())
    };
    // Each atom stands in 1,024 states: 2,048 * 8 + 1,024 * (lengths + 11) + 13 bytes.
    assert_eq!(listing(&[3; 11]).len(), 2_048 * 8 + 1_024 * 44 + 13);
    assert_eq!(listing(&[4, 4, 4, 4, 3, 3, 3, 3, 3, 3, 3]), refused(9));
    assert_eq!(
        listing(&[4, 4, 4, 3, 3, 3, 3, 3, 3, 3, 3]).len(),
        2_048 * 8 + 1_024 * 47 + 13
    );
    // A translation that is longer than 65,536 bytes.
    let names = many("abcdefghijklm", 256);
    let long = format!("(min{names})\n(vary)\n(fix)\n{}", tautology(&names));
    assert!(reader::read(long.as_bytes()).is_ok());
    assert_eq!(programs::translate(long.as_bytes()), refused(9));
    // Of the other kind, and over 60 atoms.
    assert_eq!(programs::states(b"(atoms)\n"), refused(10));
    assert_eq!(programs::translate(b"(atoms)\n"), refused(10));
    let more = varying(61);
    assert_eq!(programs::states(more.as_bytes()), refused(11));
    assert!(programs::translate(more.as_bytes()).starts_with(b"(atoms a0 a1"));
}
