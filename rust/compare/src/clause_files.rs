//! Random clause files, right ones and wrong ones.

use crate::random::Random;

/// A line: a comment, or items. Without items it is blank.
#[derive(Clone, Debug)]
pub enum Line {
    Comment(String),
    Items(Vec<String>),
}

/// A clause file before its spacing.
#[derive(Clone, Debug, Default)]
pub struct ClauseFile {
    pub atoms: usize,
    pub lines: Vec<Line>,
}

/// How large a random clause file may be.
#[derive(Clone, Copy, Debug)]
pub struct Size {
    pub atoms: usize,
    pub clauses: usize,
    pub literals: usize,
}

pub const SMALL: Size = Size {
    atoms: 6,
    clauses: 6,
    literals: 5,
};

fn literal(random: &mut Random, atoms: usize) -> String {
    let sign = *random.pick(&["", "-"]);
    format!("{sign}{}", random.within(1, atoms))
}

/// The items of a clause, some of them repeated, with the 0 at its end.
fn clause(random: &mut Random, atoms: usize, most: usize) -> Vec<String> {
    let length = match atoms {
        0 => 0,
        _ => random.within(0, most),
    };
    let mut items: Vec<String> = (0..length).map(|_| literal(random, atoms)).collect();
    if length > 0 && random.once_in(3) {
        items.push(random.pick(&items).clone());
    }
    items.push("0".to_string());
    items
}

/// The clauses' items on lines: a clause a line, an item a line, all on one, or any way.
fn on_lines(random: &mut Random, clauses: Vec<Vec<String>>) -> Vec<Line> {
    let mut lines = Vec::new();
    let layout = random.below(6);
    let mut line = Vec::new();
    for item in clauses.into_iter().flatten() {
        let ends = match layout {
            0 => true,
            1 => false,
            2 | 3 => item == "0",
            _ => random.once_in(3),
        };
        line.push(item);
        if ends {
            lines.push(Line::Items(std::mem::take(&mut line)));
        }
    }
    if !line.is_empty() {
        lines.push(Line::Items(line));
    }
    lines
}

fn comment(random: &mut Random) -> Line {
    const COMMENTS: [&str; 10] = [
        "c",
        "c ",
        "c made by hand",
        "c p cnf 3 3",
        "c 1 0",
        "cnf 3",
        "c0",
        "cc",
        "c\t%",
        "c\r",
    ];
    Line::Comment(random.pick(&COMMENTS).to_string())
}

fn header(atoms: impl ToString, clauses: impl ToString) -> Line {
    let words = ["p".to_string(), "cnf".to_string()];
    let numbers = [atoms.to_string(), clauses.to_string()];
    Line::Items([words, numbers].concat())
}

/// A right clause file, with comments and blank lines anywhere. The header may count more atoms than
/// the clauses have.
pub fn right(random: &mut Random, size: Size) -> ClauseFile {
    let atoms = random.within(0, size.atoms);
    let used = match random.below(3) {
        0 => atoms,
        _ => random.within(0, atoms),
    };
    let count = random.within(0, size.clauses);
    let clauses = (0..count).map(|_| clause(random, used, size.literals));
    let clauses: Vec<Vec<String>> = clauses.collect();
    let mut file = of_clauses(random, atoms, clauses);
    let most = *random.pick(&[0, 1, 4]);
    for _ in 0..random.within(0, most) {
        let line = match random.once_in(2) {
            true => comment(random),
            false => Line::Items(Vec::new()),
        };
        file.lines.insert(random.within(0, file.lines.len()), line);
    }
    file
}

/// The clause file with these clauses, each with its 0.
pub fn of_clauses(random: &mut Random, atoms: usize, clauses: Vec<Vec<String>>) -> ClauseFile {
    let mut lines = vec![header(atoms, clauses.len())];
    lines.extend(on_lines(random, clauses));
    ClauseFile { atoms, lines }
}

/// A number that no word holds, or that one of some width holds as another number.
fn huge(random: &mut Random) -> String {
    match random.below(5) {
        0 => "4294967297".to_string(),
        1 => "65537".to_string(),
        2 => "18446744073709551617".to_string(),
        3 => "9".repeat(random.within(3, 40)),
        _ => format!("1{}", "0".repeat(random.within(3, 300))),
    }
}

/// An item that is no literal and no 0, or a literal that is beyond the header's atoms.
fn odd_item(random: &mut Random, atoms: usize) -> String {
    const ODD: [&str; 22] = [
        "-0", "+1", "+0", "01", "-01", "00", "-00", "-", "--1", "1-", "-1-1", "x", "c", "%", "p",
        "1.", "1,0", "0x1", "1\t0", "1\r", "0\r", "\u{b9}",
    ];
    match random.below(3) {
        0 => {
            let sign = *random.pick(&["", "-"]);
            let beyond = match random.below(4) {
                0 => huge(random),
                1 => (atoms + random.within(2, 300)).to_string(),
                _ => (atoms + 1).to_string(),
            };
            format!("{sign}{beyond}")
        }
        _ => random.pick(&ODD).to_string(),
    }
}

/// The place of a line that has items, and a place among them.
fn some_item(random: &mut Random, file: &ClauseFile) -> Option<(usize, usize)> {
    let filled = |line: &Line| matches!(line, Line::Items(items) if !items.is_empty());
    let lines: Vec<usize> = (0..file.lines.len())
        .filter(|&place| filled(&file.lines[place]))
        .collect();
    if lines.is_empty() {
        return None;
    }
    // The header is only one line of many, so it has more than its share.
    let line = match random.once_in(5) {
        true => lines[0],
        false => *random.pick(&lines),
    };
    Some((line, random.below(items_of(file, line).len())))
}

fn items_of(file: &ClauseFile, line: usize) -> &[String] {
    match &file.lines[line] {
        Line::Comment(_) => &[],
        Line::Items(items) => items,
    }
}

fn change_items(file: &mut ClauseFile, line: usize, change: impl FnOnce(&mut Vec<String>)) {
    if let Line::Items(items) = &mut file.lines[line] {
        change(items);
    }
}

/// Puts another number, or something that is none, for one of the header's numbers.
fn damage_header(random: &mut Random, file: &mut ClauseFile, line: usize) {
    let other = |random: &mut Random, number: &str| -> String {
        let value: i64 = number.parse().unwrap_or(3);
        match random.below(8) {
            0 => huge(random),
            1 => format!("0{number}"),
            2 => format!("+{number}"),
            3 => format!("-{number}"),
            4 => random.pick(&["257", "1025", "1024", "256"]).to_string(),
            _ => (value + random.pick(&[1, -1])).max(0).to_string(),
        }
    };
    change_items(file, line, |items| {
        if items.len() == 4 {
            let place = random.within(2, 3);
            items[place] = other(random, &items[place]);
        }
    });
}

/// Damages the file in one way. At times it stays right.
pub fn damage(random: &mut Random, file: &mut ClauseFile) {
    let atoms = file.atoms;
    let Some((line, place)) = some_item(random, file) else {
        file.lines.push(header(1, 1));
        return;
    };
    match random.below(16) {
        0 | 1 => {
            let odd = odd_item(random, atoms);
            change_items(file, line, |items| items[place] = odd);
        }
        2 | 3 => {
            let odd = odd_item(random, atoms);
            change_items(file, line, |items| items.insert(place, odd));
        }
        4 => change_items(file, line, |items| {
            items.remove(place);
        }),
        5 => change_items(file, line, |items| {
            items.insert(place, items[place].clone());
        }),
        // A 0 more, or one less.
        6 => change_items(file, line, |items| items.insert(place, "0".to_string())),
        7 => change_items(file, line, |items| {
            if let Some(end) = items.iter().rposition(|item| item == "0") {
                items.remove(end);
            }
        }),
        8 | 9 => damage_header(random, file, line),
        10 => {
            let surplus = clause(random, atoms + 1, 3);
            let mut lines = on_lines(random, vec![surplus]);
            // A surplus clause that begins where the last line ends.
            if let (Some(Line::Items(last)), true) = (file.lines.last_mut(), random.once_in(2)) {
                if let Line::Items(first) = lines.remove(0) {
                    last.extend(first);
                }
            }
            file.lines.extend(lines);
        }
        11 => {
            let again = file.lines[line].clone();
            let place = random.within(0, file.lines.len());
            file.lines.insert(place, again);
        }
        12 => {
            file.lines.remove(line);
        }
        13 => {
            let other = random.below(file.lines.len());
            file.lines.swap(line, other);
        }
        14 => {
            let next = file.lines.get(line + 1).cloned();
            if let Some(Line::Items(more)) = next {
                change_items(file, line, |items| items.extend(more));
                file.lines.remove(line + 1);
            }
        }
        _ => file.lines.truncate(line + 1),
    }
}

fn spaces(random: &mut Random, least: usize) -> String {
    let most = *random.pick(&[least, least, least, least + 3]);
    " ".repeat(random.within(least, most))
}

/// The text of the file, with any spaces around the items.
pub fn text(random: &mut Random, file: &ClauseFile) -> Vec<u8> {
    let mut text = String::new();
    for line in &file.lines {
        match line {
            Line::Comment(comment) => text += comment,
            Line::Items(items) => {
                text += &spaces(random, 0);
                for (place, item) in items.iter().enumerate() {
                    if place > 0 {
                        text += &spaces(random, 1);
                    }
                    text += item;
                }
                text += &spaces(random, 0);
            }
        }
        text.push('\n');
    }
    text.into_bytes()
}

/// Damages the text in one way: its bytes, its lines' ends, its end.
pub fn damage_text(random: &mut Random, text: &mut Vec<u8>) {
    const BYTES: &[u8] = b" \n\t\r0123456789-+cp%x\0\x0b\x7f\xff";
    let length = text.len();
    if length == 0 {
        text.push(*random.pick(BYTES));
        return;
    }
    let at = random.below(length);
    match random.below(9) {
        0 => text[at] = *random.pick(BYTES),
        1 => text.insert(at, *random.pick(BYTES)),
        2 => {
            text.remove(at);
        }
        3 => {
            text.pop();
        }
        4 => text.truncate(at),
        // A comment, a blank line or a half clause at the end, without its byte 10.
        5 => text.extend_from_slice(
            random
                .pick(&["c", "c end", " ", "1", "0", "-1 0"])
                .as_bytes(),
        ),
        6 | 7 => {
            if let Some(space) = text[at..].iter().position(|byte| *byte == b' ') {
                text[at + space] = *random.pick(b"\t\r\n");
            }
        }
        // A space before a line, such as a comment.
        _ => {
            let start = text[..at].iter().rposition(|byte| *byte == b'\n');
            text.insert(start.map_or(0, |place| place + 1), b' ');
        }
    }
}

/// Pieces of clause files without any order.
pub fn soup(random: &mut Random, pieces: usize) -> Vec<u8> {
    const PIECES: [&str; 22] = [
        "p",
        " ",
        "cnf",
        "\n",
        "p cnf 2 2\n",
        "p cnf 1 1\n",
        "1",
        "-2",
        "0",
        "-",
        "+",
        "c",
        "c x\n",
        " 0\n",
        "1 0\n",
        "-1 2 0\n",
        "3 0\n",
        "%\n",
        "\n\n",
        "  ",
        "\t",
        "\r\n",
    ];
    let mut text = Vec::new();
    for _ in 0..random.within(0, pieces) {
        if random.once_in(40) {
            text.push(random.any() as u8);
        } else {
            text.extend_from_slice(random.pick(&PIECES).as_bytes());
        }
    }
    text
}
