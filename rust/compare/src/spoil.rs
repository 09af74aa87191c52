//! Damages texts and stores, so that each refusal has its chance.

use crate::random::Random;

/// A range of the text that is an item: a run of bytes other than brackets, spaces and byte 10.
fn random_item(random: &mut Random, text: &[u8]) -> Option<std::ops::Range<usize>> {
    let outside = |b: &u8| matches!(b, b'(' | b')' | b' ' | b'\n');
    if text.is_empty() {
        return None;
    }
    let at = random.below(text.len());
    let start = at + text[at..].iter().position(|b| !outside(b))?;
    let from = text[..start].iter().rposition(outside).map_or(0, |i| i + 1);
    let to = start
        + text[start..]
            .iter()
            .position(outside)
            .unwrap_or(text.len() - start);
    Some(from..to)
}

/// The place of a random byte of this value.
fn random_place(random: &mut Random, text: &[u8], value: u8) -> Option<usize> {
    if text.is_empty() {
        return None;
    }
    let at = random.below(text.len());
    let after = text[at..].iter().position(|b| *b == value).map(|i| at + i);
    after.or_else(|| text[..at].iter().rposition(|b| *b == value))
}

fn odd_name(random: &mut Random) -> Vec<u8> {
    const ODD: [&str; 42] = [
        "A",
        "1a",
        "7",
        "1999_12",
        "_a",
        "a-b",
        "a.b",
        "aB",
        "",
        "N.",
        "S.",
        "D.",
        "E.",
        "U",
        "UU",
        "U.",
        "Ua",
        "N.a",
        "S.b",
        "D.lamp",
        "E.0",
        "E.1",
        "E.9",
        "E.10",
        "E.16",
        "E.17",
        "E.00",
        "E.01",
        "E.-1",
        "E.016",
        "N.N.a",
        "N.U",
        "T.1",
        "T.0",
        "T.01",
        "T.256",
        "T.257",
        "N.T.1",
        "N.T.257",
        "n.a",
        "zz_undeclared",
        "a\u{e9}",
    ];
    match random.below(6) {
        0 => {
            let length = random.within(23, 26);
            vec![b'a'; length]
        }
        1 => {
            let prefix = *random.pick(&["N.", "S.", "D.", "E.", "T.", "X."]);
            let length = random.within(23, 26);
            [prefix.as_bytes(), &vec![b'q'; length]].concat()
        }
        2 => {
            let length = random.within(200, 300);
            vec![b'b'; length]
        }
        _ => random.pick(&ODD).as_bytes().to_vec(),
    }
}

fn lines(text: &[u8]) -> Vec<Vec<u8>> {
    text.split_inclusive(|b| *b == b'\n')
        .map(<[u8]>::to_vec)
        .collect()
}

fn with_lines(text: &mut Vec<u8>, change: impl FnOnce(&mut Vec<Vec<u8>>)) {
    let mut all = lines(text);
    if !all.is_empty() {
        change(&mut all);
        *text = all.concat();
    }
}

/// Damages the text in one way. At times the text stays valid.
pub fn text(random: &mut Random, text: &mut Vec<u8>) {
    let way = random.below(20);
    text_in_way(random, text, way);
}

/// Damages names, lists and lines and mostly leaves the form, so that the higher refusals show.
pub fn names_of_text(random: &mut Random, text: &mut Vec<u8>) {
    let way = *random.pick(&[5, 8, 8, 9, 10, 10, 11, 15, 19, 19]);
    text_in_way(random, text, way);
}

fn text_in_way(random: &mut Random, text: &mut Vec<u8>, way: usize) {
    const BYTES: &[u8] = b"() \n\t;ab zAZ09_.NSDEU-\r\0\x7f\xff";
    const WORDS: [&str; 11] = [
        "min", "vary", "fix", "atoms", "rule", "head", "body", "not", "mi", "atomsx", "",
    ];
    const LINES: [&str; 17] = [
        "(min)\n",
        "(min zz)\n",
        "(vary)\n",
        "(fix)\n",
        "(atoms)\n",
        "\n",
        " \n",
        "(\n",
        "(rule (head) (body) (not))\n",
        "(rule (head a) (body a) (not a))\n",
        "(rule)\n",
        "()\n",
        "(rule (head) (body) (not)) (rule (head) (body) (not))\n",
        "(vary) (fix)\n",
        "(when a (then a))\n",
        "(when not a or b (then a))\n",
        "(when (then a))\n",
    ];
    let length = text.len();
    match way {
        0 if length > 0 => text[random.below(length)] = *random.pick(BYTES),
        1 => text.insert(random.within(0, length), *random.pick(BYTES)),
        2 if length > 0 => {
            text.remove(random.below(length));
        }
        3 | 4 => {
            let value = *random.pick(b"() \n");
            if let Some(at) = random_place(random, text, value) {
                match random.below(3) {
                    0 => text.insert(at, value),
                    1 => text[at] = *random.pick(b"() \na"),
                    _ => {
                        text.remove(at);
                    }
                }
            }
        }
        5..=7 => {
            if let Some(item) = random_item(random, text) {
                let name = odd_name(random);
                text.splice(item, name);
            }
        }
        8 | 9 => {
            // One item in the place of another: atoms twice, undeclared atoms, other words.
            let items = (random_item(random, text), random_item(random, text));
            if let (Some(from), Some(to)) = items {
                let name = text[from].to_vec();
                text.splice(to, name);
            }
        }
        10 => {
            // An item once more, behind itself.
            if let Some(item) = random_item(random, text) {
                let again = [b" ", &text[item.clone()]].concat();
                text.splice(item.end..item.end, again);
            }
        }
        11 => with_lines(text, |all| {
            let again = random.pick(all).clone();
            all.insert(random.within(0, all.len()), again);
        }),
        12 | 13 => with_lines(text, |all| {
            all.remove(random.below(all.len()));
        }),
        14 => with_lines(text, |all| {
            let (i, j) = (random.below(all.len()), random.below(all.len()));
            all.swap(i, j);
        }),
        15 => with_lines(text, |all| {
            let line = random.pick(&LINES).as_bytes().to_vec();
            all.insert(random.within(0, all.len()), line);
        }),
        16 => {
            let word = random.pick(&WORDS).as_bytes().to_vec();
            if let Some(open) = random_place(random, text, b'(') {
                let rest = &text[open + 1..];
                let end = rest
                    .iter()
                    .position(|b| matches!(b, b' ' | b')'))
                    .unwrap_or(rest.len());
                text.splice(open + 1..open + 1 + end, word);
            }
        }
        17 => text.truncate(random.within(0, length)),
        18 => {
            text.pop();
        }
        _ => {
            // An atom more in some list: a filled `not` list, in whatever kind.
            if let Some(name) = random_declared(random, text) {
                const LISTS: [&[u8]; 5] = [b"(not", b"(not", b"(head", b"(body", b"(vary"];
                let list = random.pick(&LISTS);
                let starts = places(text, list);
                if !starts.is_empty() {
                    let at = random.pick(&starts) + list.len();
                    text.splice(at..at, [b" ", name.as_slice()].concat());
                }
            }
        }
    }
}

/// The places where these bytes stand.
fn places(text: &[u8], wanted: &[u8]) -> Vec<usize> {
    let windows = text.windows(wanted.len()).enumerate();
    windows
        .filter(|(_, window)| *window == wanted)
        .map(|(at, _)| at)
        .collect()
}

/// The name of a declared atom.
fn random_declared(random: &mut Random, text: &[u8]) -> Option<Vec<u8>> {
    let declarations = lines(text)
        .into_iter()
        .filter(|line| !line.starts_with(b"(rule"));
    let names: Vec<Vec<u8>> = declarations
        .flat_map(|line| {
            let items = line.split(|b| matches!(b, b'(' | b')' | b' ' | b'\n'));
            let items: Vec<Vec<u8>> = items.map(<[u8]>::to_vec).collect();
            // The first piece is what stands before the bracket, the second the line's word.
            items.into_iter().skip(2).filter(|item| !item.is_empty())
        })
        .collect();
    (!names.is_empty()).then(|| random.pick(&names).clone())
}

/// Bytes that look like pieces of a file, without any order.
pub fn soup(random: &mut Random, pieces: usize) -> Vec<u8> {
    const PIECES: [&str; 33] = [
        "(",
        ")",
        " ",
        "\n",
        ";",
        "; x\n",
        "  ",
        "(min",
        "(vary",
        "(fix",
        "(atoms",
        "(rule",
        "(head",
        "(body",
        "(not",
        "a",
        "b",
        "lamp",
        "U",
        "E.0",
        "N.a",
        "(vary)\n",
        "(fix)\n",
        "(min a)\n",
        "(vary b)\n",
        "(atoms a b)\n",
        "(rule (head) (body) (not))\n",
        "(rule (head a) (body b) (not))\n",
        ")\n",
        " a",
        " b",
        "))\n",
        " (body) (not))\n",
    ];
    let mut text = Vec::new();
    for _ in 0..random.within(0, pieces) {
        if random.once_in(40) {
            text.push(random.any() as u8);
        } else {
            text.extend_from_slice(random.pick(&PIECES).as_bytes());
        }
    }
    text
}

/// Words that matter at some place of a rule store.
pub fn interesting_words(store: &[u16]) -> Vec<u16> {
    let mut words = vec![
        0, 1, 2, 3, 4, 15, 16, 17, 18, 19, 59, 60, 61, 255, 256, 257, 1_023, 1_024, 1_025, 1_099,
        1_100, 1_101, 4_199, 4_200, 4_201, 8_191, 8_192, 8_193, 23_999, 24_000, 24_001, 32_767,
        32_768, 65_534, 65_535,
    ];
    for known in store.iter().take(4) {
        words.extend([known.wrapping_sub(1), *known, known.wrapping_add(1)]);
    }
    words.sort_unstable();
    words.dedup();
    words
}

/// Damages a rule store in one way. At times it stays of the form.
pub fn rules(random: &mut Random, store: &mut Vec<u16>) {
    let interesting = interesting_words(store);
    let length = store.len();
    match random.below(8) {
        0 | 1 if length > 0 => store[random.below(length)] = *random.pick(&interesting),
        2 if length > 0 => {
            let at = random.below(length);
            store[at] = if random.once_in(2) {
                store[at].wrapping_add(1)
            } else {
                store[at].wrapping_sub(1)
            };
        }
        3 => store.insert(random.within(0, length), *random.pick(&interesting)),
        4 if length > 0 => {
            store.remove(random.below(length));
        }
        5 => store.truncate(random.within(0, length)),
        6 => {
            for _ in 0..random.within(1, 4) {
                store.push(*random.pick(&[0, 1, 2, 3]));
            }
        }
        _ if length > 0 => {
            let (i, j) = (random.below(length), random.below(length));
            store.swap(i, j);
        }
        _ => {}
    }
}

/// Damages a name store in one way. At times it still fits.
pub fn names(random: &mut Random, store: &mut Vec<u8>) {
    const BYTES: &[u8] = b"\x00\x01\x02\x03\x0f\x10\x11\x12\x13\x7f\x80\xffaz09_.AUNSDE \n";
    let length = store.len();
    match random.below(8) {
        0 | 1 if length > 0 => store[random.below(length)] = *random.pick(BYTES),
        2 if length > 0 => {
            let at = random.below(length);
            store[at] = store[at].wrapping_add(1);
        }
        3 => store.insert(random.within(0, length), *random.pick(BYTES)),
        4 if length > 0 => {
            store.remove(random.below(length));
        }
        5 => store.truncate(random.within(0, length)),
        6 => {
            let name = odd_name(random);
            store.push(name.len() as u8);
            store.extend_from_slice(&name[..name.len().min(255)]);
        }
        _ => {
            // A name in the place of another, with its length: two equal names, odd names.
            let name = odd_name(random);
            if let Some(&first) = store.first() {
                let end = (1 + usize::from(first)).min(length);
                let mut entry = vec![name.len() as u8];
                entry.extend_from_slice(&name);
                let again = store[..end].to_vec();
                if random.once_in(2) {
                    store.splice(0..end, entry);
                } else {
                    store.splice(0..end, again.clone());
                    store.extend_from_slice(&again);
                }
            }
        }
    }
}
