//! Readings of hand-typed files with a slip (document 02, W-205): the right reading of another text,
//! whose lines keep the numbers that the slip gives them.

use compare::engine::{Engine, ReadAnswer, Reference};
use reference::limits::TEXT_LIMIT;
use reference::pieces::{pieces, strict, Piece};

/// What is wrong with a reading.
#[derive(Clone, Copy, Debug, PartialEq, Eq)]
pub enum TypingSlip {
    Nothing,
    StrictOnly,
    NoComments,
    SemicolonEndsTheText,
    CommentHasTheNextLine,
    CommentNeedsASpace,
    CommentOnItsOwnLineAlone,
    CommentBehindAFormAlone,
    LastSemicolonCounts,
    CommentBytesChecked,
    BlankLinesRefused,
    SpacesOnABlankLineRefused,
    BlankLinesFirstRefused,
    BlankLinesLastRefused,
    BlankLinesNotCounted,
    CommentLinesNotCounted,
    MissingBehindTheLastForm,
    TwoFormsTaken,
    FormOverLinesTaken,
    WordsOutsideTaken,
    SpacesFirstRefused,
    SpacesLastRefused,
    RunsOfSpacesRefused,
    SpacesInsideBracketsRefused,
    GluedBracketsRefused,
    TabAsASpace,
    ReturnAsASpace,
    ReturnBeforeAnEndTaken,
    AnyWhitespaceAsASpace,
    LastCommentNotEnded,
    LastBlankNotEnded,
    LastFormNotEnded,
    KindByTheFirstBytes,
    KindByTheFirstLine,
    KindByComments,
    WordsByTheirBeginning,
    InnerBracketsTaken,
    EmptyFormIsBlank,
    LastBracketForgotten,
    SurplusBracketTaken,
    LimitWithoutComments,
    LimitWithoutSpacing,
}

use TypingSlip::*;

pub const TYPING_SLIPS: [TypingSlip; 41] = [
    StrictOnly,
    NoComments,
    SemicolonEndsTheText,
    CommentHasTheNextLine,
    CommentNeedsASpace,
    CommentOnItsOwnLineAlone,
    CommentBehindAFormAlone,
    LastSemicolonCounts,
    CommentBytesChecked,
    BlankLinesRefused,
    SpacesOnABlankLineRefused,
    BlankLinesFirstRefused,
    BlankLinesLastRefused,
    BlankLinesNotCounted,
    CommentLinesNotCounted,
    MissingBehindTheLastForm,
    TwoFormsTaken,
    FormOverLinesTaken,
    WordsOutsideTaken,
    SpacesFirstRefused,
    SpacesLastRefused,
    RunsOfSpacesRefused,
    SpacesInsideBracketsRefused,
    GluedBracketsRefused,
    TabAsASpace,
    ReturnAsASpace,
    ReturnBeforeAnEndTaken,
    AnyWhitespaceAsASpace,
    LastCommentNotEnded,
    LastBlankNotEnded,
    LastFormNotEnded,
    KindByTheFirstBytes,
    KindByTheFirstLine,
    KindByComments,
    WordsByTheirBeginning,
    InnerBracketsTaken,
    EmptyFormIsBlank,
    LastBracketForgotten,
    SurplusBracketTaken,
    LimitWithoutComments,
    LimitWithoutSpacing,
];

/// A line without its byte 10, whether it has one, and the number that it is refused with.
#[derive(Clone)]
struct Line {
    bytes: Vec<u8>,
    ended: bool,
    number: u64,
}

/// A line that no form is.
const BROKEN: &[u8] = b"(";

fn lines(text: &[u8]) -> Vec<Line> {
    let lines = (1..).zip(text.split_inclusive(|byte| *byte == b'\n'));
    let line = |(number, line): (u64, &[u8])| {
        let bytes = line.strip_suffix(b"\n");
        Line {
            ended: bytes.is_some(),
            bytes: bytes.unwrap_or(line).to_vec(),
            number,
        }
    };
    lines.map(line).collect()
}

/// Where the comment begins.
fn comment_at(line: &[u8]) -> usize {
    let at = line.iter().position(|byte| *byte == b';');
    at.unwrap_or(line.len())
}

fn is_blank(line: &[u8]) -> bool {
    pieces(line).is_empty()
}

fn has_comment(line: &[u8]) -> bool {
    line.contains(&b';')
}

/// The line with each first `;` of which this holds as a byte of a word. Behind the one that begins
/// the comment it says nothing.
fn without_semicolons(line: &[u8], is_none: impl Fn(usize) -> bool) -> Vec<u8> {
    let mut changed = line.to_vec();
    for at in 0..line.len() {
        if line[at] == b';' {
            if !is_none(at) {
                break;
            }
            changed[at] = b',';
        }
    }
    changed
}

fn replaced(line: &[u8], is_space: impl Fn(u8) -> bool) -> Vec<u8> {
    let space = |byte: &u8| if is_space(*byte) { b' ' } else { *byte };
    line.iter().map(space).collect()
}

/// The line's pieces with a space between any two.
fn spaced<'p>(pieces: impl Iterator<Item = Piece<'p>>) -> Vec<u8> {
    let bytes = pieces.map(|piece| match piece {
        Piece::Open => b"(".as_slice(),
        Piece::Close => b")",
        Piece::Word(word) => word,
    });
    bytes.collect::<Vec<_>>().join(&b' ')
}

fn count(pieces: &[Piece], wanted: Piece) -> usize {
    pieces.iter().filter(|piece| **piece == wanted).count()
}

/// The forms of a line, each as a line: one ends where all its brackets are closed.
fn forms(line: &[u8]) -> Vec<Vec<u8>> {
    let all = pieces(line);
    let mut forms = Vec::new();
    let (mut start, mut depth) = (0, 0);
    for (at, piece) in all.iter().enumerate() {
        match piece {
            Piece::Open => depth += 1,
            Piece::Close => depth -= 1,
            Piece::Word(_) => {}
        }
        if depth <= 0 || at + 1 == all.len() {
            forms.push(spaced(all[start..=at].iter().copied()));
            (start, depth) = (at + 1, 0);
        }
    }
    if forms.is_empty() {
        forms.push(Vec::new());
    }
    forms
}

/// The line's first word where it stands behind a bracket.
fn first_word(line: &[u8]) -> Option<Vec<u8>> {
    match pieces(line)[..] {
        [Piece::Open, Piece::Word(word), ..] => Some(word.to_vec()),
        _ => None,
    }
}

/// Has the part before the comment such a pair of bytes side by side?
fn has_pair(line: &[u8], pair: impl Fn(u8, u8) -> bool) -> bool {
    let form = &line[..comment_at(line)];
    form.windows(2).any(|bytes| pair(bytes[0], bytes[1]))
}

fn is_word(byte: u8) -> bool {
    !matches!(byte, b' ' | b'(' | b')')
}

/// What the slip reads in the place of a line.
fn instead(slip: TypingSlip, line: &[u8]) -> Vec<u8> {
    let form = &line[..comment_at(line)];
    let all = pieces(line);
    let broken_where = |condition: bool| match condition {
        true => BROKEN.to_vec(),
        false => line.to_vec(),
    };
    match slip {
        StrictOnly => broken_where(strict(line) != [line, b"\n"].concat()),
        NoComments => without_semicolons(line, |_| true),
        CommentNeedsASpace => without_semicolons(line, |at| at > 0 && line[at - 1] != b' '),
        CommentOnItsOwnLineAlone => {
            without_semicolons(line, |at| line[..at].iter().any(|byte| *byte != b' '))
        }
        CommentBehindAFormAlone => broken_where(all.is_empty() && has_comment(line)),
        LastSemicolonCounts => without_semicolons(line, |at| line[at + 1..].contains(&b';')),
        CommentBytesChecked => broken_where(
            line[form.len()..]
                .iter()
                .any(|byte| !(32..127).contains(byte)),
        ),
        BlankLinesRefused => broken_where(line.is_empty()),
        SpacesOnABlankLineRefused => broken_where(!form.is_empty() && all.is_empty()),
        WordsOutsideTaken => {
            let mut depth = 0;
            let inside = all.iter().copied().filter(|piece| match piece {
                Piece::Open => {
                    depth += 1;
                    true
                }
                Piece::Close => {
                    depth -= 1;
                    true
                }
                Piece::Word(_) => depth > 0,
            });
            spaced(inside)
        }
        SpacesFirstRefused => broken_where(form.starts_with(b" ") && !all.is_empty()),
        SpacesLastRefused => broken_where(form.ends_with(b" ") && !all.is_empty()),
        RunsOfSpacesRefused => broken_where(has_pair(line, |a, b| a == b' ' && b == b' ')),
        SpacesInsideBracketsRefused => broken_where(has_pair(line, |a, b| {
            (a == b'(' && b == b' ') || (a == b' ' && b == b')')
        })),
        GluedBracketsRefused => broken_where(has_pair(line, |a, b| {
            b == b'(' && (is_word(a) || a == b')')
        })),
        TabAsASpace => replaced(line, |byte| byte == b'\t'),
        ReturnAsASpace => replaced(line, |byte| byte == b'\r'),
        ReturnBeforeAnEndTaken => line.strip_suffix(b"\r").unwrap_or(line).to_vec(),
        AnyWhitespaceAsASpace => replaced(line, |byte| matches!(byte, b'\t' | 11..=13 | 0xa0)),
        WordsByTheirBeginning => {
            let mut all = all.clone();
            if let [Piece::Open, Piece::Word(word), ..] = &mut all[..] {
                for beginning in [&b"min"[..], b"vary", b"fix", b"atoms", b"rule"] {
                    if word.starts_with(beginning) {
                        *word = beginning;
                    }
                }
            }
            spaced(all.into_iter())
        }
        InnerBracketsTaken if first_word(line).is_some_and(|word| word != b"rule") => {
            let last = all.len() - 1;
            let mut kept = all.clone();
            let mut at = 0;
            kept.retain(|piece| {
                at += 1;
                at == 1 || at == last + 1 || matches!(piece, Piece::Word(_))
            });
            spaced(kept.into_iter())
        }
        EmptyFormIsBlank if all == [Piece::Open, Piece::Close] => Vec::new(),
        LastBracketForgotten if count(&all, Piece::Open) == count(&all, Piece::Close) + 1 => {
            [form, b")"].concat()
        }
        SurplusBracketTaken
            if count(&all, Piece::Open) + 1 == count(&all, Piece::Close)
                && all.last() == Some(&Piece::Close) =>
        {
            spaced(all[..all.len() - 1].iter().copied())
        }
        _ => line.to_vec(),
    }
}

/// Lines until all brackets are closed, as one with the first one's number.
fn joined(lines: Vec<Line>) -> Vec<Line> {
    let mut joined: Vec<Line> = Vec::new();
    for line in lines {
        let open = joined.last().is_some_and(|before| {
            let all = pieces(&before.bytes);
            count(&all, Piece::Open) > count(&all, Piece::Close)
        });
        match joined.last_mut() {
            Some(before) if open => {
                let form = before.bytes[..comment_at(&before.bytes)].to_vec();
                before.bytes = [&form[..], b" ", &line.bytes].concat();
                before.ended = line.ended;
            }
            _ => joined.push(line),
        }
    }
    joined
}

/// The place of the first line that is not blank.
fn first_form(lines: &[Line]) -> Option<usize> {
    lines.iter().position(|line| !is_blank(&line.bytes))
}

/// The lines with the first form broken, where it is one of `atoms` or where it is none, as said.
fn of_the_other_kind(lines: &mut [Line], is_atoms: bool) {
    if let Some(first) = first_form(lines) {
        let line = &mut lines[first];
        if (first_word(&line.bytes).as_deref() == Some(b"atoms")) == is_atoms {
            line.bytes = BROKEN.to_vec();
        }
    }
}

/// What the slip does to all lines together.
fn rearranged(slip: TypingSlip, text: &[u8], mut lines: Vec<Line>) -> Vec<Line> {
    let first = first_form(&lines).unwrap_or(lines.len());
    let last = lines.iter().rposition(|line| !is_blank(&line.bytes));
    match slip {
        SemicolonEndsTheText => {
            if let Some(at) = lines.iter().position(|line| has_comment(&line.bytes)) {
                lines.truncate(at + 1);
                lines[at].ended = true;
            }
        }
        CommentHasTheNextLine => {
            let mut had = false;
            lines.retain(|line| {
                let said = !had;
                had = said && has_comment(&line.bytes);
                said
            });
        }
        BlankLinesFirstRefused => lines[..first]
            .iter_mut()
            .for_each(|line| line.bytes = BROKEN.to_vec()),
        BlankLinesLastRefused => {
            let behind = last.map_or(0, |last| last + 1);
            for line in &mut lines[behind..] {
                line.bytes = BROKEN.to_vec();
            }
        }
        TwoFormsTaken => {
            let split = |line: Line| {
                let forms = forms(&line.bytes);
                let last = forms.len() - 1;
                let each = forms.into_iter().enumerate();
                each.map(move |(at, bytes)| Line {
                    bytes,
                    ended: line.ended || at < last,
                    number: line.number,
                })
                .collect::<Vec<_>>()
            };
            lines = lines.into_iter().flat_map(split).collect();
        }
        FormOverLinesTaken => lines = joined(lines),
        LastCommentNotEnded | LastBlankNotEnded | LastFormNotEnded => {
            if let Some(line) = lines.last_mut() {
                let (blank, comment) = (is_blank(&line.bytes), has_comment(&line.bytes));
                line.ended |= match slip {
                    LastCommentNotEnded => blank && comment,
                    LastBlankNotEnded => blank && !comment,
                    _ => !blank,
                };
            }
        }
        KindByTheFirstBytes if !text.starts_with(b"(atoms") => of_the_other_kind(&mut lines, true),
        KindByTheFirstLine if first > 0 => of_the_other_kind(&mut lines, true),
        KindByComments => {
            let atoms = |line: &Line| line.bytes.windows(6).any(|bytes| bytes == b"(atoms");
            if lines[..first].iter().any(atoms) {
                of_the_other_kind(&mut lines, false);
            }
        }
        _ => {}
    }
    lines
}

/// The number of the line that is missing, one past the last.
fn one_past(slip: TypingSlip, lines: &[Line]) -> u64 {
    let last = match slip {
        MissingBehindTheLastForm => lines.iter().rfind(|line| !is_blank(&line.bytes)),
        _ => lines.last(),
    };
    last.map_or(1, |last| last.number + 1)
}

pub fn read(slip: TypingSlip, text: &[u8], rules: &mut [u16], names: &mut [u8]) -> ReadAnswer {
    let mut shorter = text.to_vec();
    if text.len() > TEXT_LIMIT {
        let mut lines = lines(text);
        match slip {
            LimitWithoutComments => {
                for line in &mut lines {
                    line.bytes.truncate(comment_at(&line.bytes));
                }
                shorter = lines
                    .into_iter()
                    .map(|line| line.bytes)
                    .collect::<Vec<_>>()
                    .join(&b'\n');
            }
            LimitWithoutSpacing => shorter = strict(text),
            _ => {}
        }
        return Reference.read(&shorter, rules, names);
    }
    let mut number = 0;
    let mut lines = lines(text);
    let past = one_past(slip, &lines);
    for line in &mut lines {
        let counted = match slip {
            BlankLinesNotCounted => !is_blank(&line.bytes),
            CommentLinesNotCounted => !is_blank(&line.bytes) || !has_comment(&line.bytes),
            _ => true,
        };
        number += u64::from(counted);
        line.number = number.max(1);
    }
    let past = match slip {
        BlankLinesNotCounted | CommentLinesNotCounted => number + 1,
        _ => past,
    };
    let mut lines = rearranged(slip, text, lines);
    let mut read = Vec::new();
    for line in &mut lines {
        line.bytes = instead(slip, &line.bytes);
        read.extend_from_slice(&line.bytes);
        read.extend(line.ended.then_some(b'\n'));
    }
    if read.len() > TEXT_LIMIT {
        return Reference.read(text, rules, names);
    }
    let mut answer = Reference.read(&read, rules, names);
    if answer.line > 0 {
        let line = lines.get(answer.line as usize - 1);
        answer.line = line.map_or(past, |line| line.number);
    }
    answer
}
