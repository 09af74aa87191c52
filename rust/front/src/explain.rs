//! What is allowed where a text was refused.

use crate::conditions::{broken_at, is_condition};
use crate::file::{words, File};
use crate::numbers::grouped;
use crate::refused::Refused;
use rigtomato::{Kind, Limits, Refusal, HOUSE_NAME_LIMIT, TEXT_LIMIT};

const FORMS: &str = "\
A preference file has (min ..) lines, one (vary ..) line, one (fix ..) line and then rules of the
form
    (rule (head a b) (body c) (not))
each on a line of its own. Spaces may stand around words and brackets, a comment goes from ; to the
line's end, and lines may be blank. A name is a letter a to z or a digit and then letters, digits
or _. Among the rules conditions may stand, as (when a and not b (then c)).";

const CONDITION: &str = "\
A condition stands behind the (fix ..) line of a preference file, on a line of its own, as
    (when a and not (b or c) (then d))
It ends with (then d)) and nothing behind; the brackets before that pair. Each word but not, and, or
is a name: a letter a to z or a digit and then letters, digits or _, or T.1 to T.256.";

const PLAIN_CONDITION: &str = "\
Conditions stand in preference files alone. Here a rule of the form
    (rule (head a b) (body c) (not d))
may stand.";

const JOINED: &str = "\
Names are joined there by not, and, or and brackets, as in
    (when a and not (b or c) (then d))
not binds before and, and before or; they are no names there.";

const PLAIN_FORMS: &str = "\
A plain program has one (atoms ..) line and then rules of the form
    (rule (head a b) (body c) (not d))
each on a line of its own. Spaces may stand around words and brackets, a comment goes from ; to the
line's end, and lines may be blank. A name is a letter a to z or a digit and then letters, digits
or _, also after N., S. or D.; E.0 to E.16 and U are names too.";

const LINE_ENDS: &str = "Each line ends with a line feed (byte 10), the last one too.";

const TABS_AND_RETURNS: &str = "\
A tab or a carriage return is no space: spaces stand between words, and a line feed (byte 10) alone
ends a line.";

/// The kind that a text has by its first word, also where it is refused.
fn kind(file: &File) -> Kind {
    match file.first_word() {
        Some(b"atoms") => Kind::Plain,
        _ => Kind::Preference,
    }
}

fn has_tab_or_return(word: &[u8]) -> bool {
    word.iter().any(|byte| matches!(byte, b'\t' | b'\r'))
}

fn form(file: &File, line: u64) -> &'static str {
    if file.has_clauses() {
        return "This is a clause file: 'rigtomato clauses FILE' prints its preference file.";
    }
    match (file.line(line), kind(file)) {
        (None, _) => {
            "The text ends too early: it needs one (vary ..) line and then one (fix ..) line."
        }
        (Some(line), _) if !line.ends_with(b"\n") => LINE_ENDS,
        (Some(line), _) if words(line).any(has_tab_or_return) => TABS_AND_RETURNS,
        (Some(line), Kind::Preference) if is_condition(line) => CONDITION,
        (Some(line), Kind::Plain) if is_condition(line) => PLAIN_CONDITION,
        (_, Kind::Preference) => FORMS,
        (_, Kind::Plain) => PLAIN_FORMS,
    }
}

const CLAUSES: &str = "\
A clause file has lines that start with c, one line
    p cnf ATOMS CLAUSES
and then just as many clauses, each a list of literals that ends with 0. A literal is an atom's number
or - and the number; no number has a + or a leading zero. Spaces, not tabs, stand between.";

fn clauses(file: &File, line: u64) -> &'static str {
    match file.line(line) {
        None => {
            "The text ends too early: its header, a clause or the 0 of the last clause is missing."
        }
        Some(line) if !line.ends_with(b"\n") => LINE_ENDS,
        _ => CLAUSES,
    }
}

const LIMITS_OF_CONDITIONS: &str = " So does what conditions give: an atom for each not, and, or, \
     two rules for not, three for and and or, and one for (then ..).";

fn limits(file: &File) -> String {
    let kind = kind(file);
    let Limits {
        atoms,
        rules,
        occurrences,
        classes,
    } = kind.limits();
    let [atoms, rules, places] = [atoms, rules, occurrences].map(|limit| grouped(limit as u64));
    let most = format!("{atoms} atoms, {rules} rules and {places} atom places in its rules' lists");
    let conditions = match file.conditions() {
        (0, _) => "",
        _ => LIMITS_OF_CONDITIONS,
    };
    match kind {
        Kind::Preference => format!(
            "A preference file has at most {classes} classes, {most}. Atoms that no rule has count \
             too.{conditions}"
        ),
        Kind::Plain => format!("A plain program has at most {most}."),
    }
}

fn text_limit() -> String {
    format!("A text has at most {} bytes.", grouped(TEXT_LIMIT as u64))
}

/// One sentence of help for a refused clause file.
pub fn explain_clauses(file: &File, refused: &Refused) -> String {
    let limits = Kind::Preference.limits();
    let limit = |limit: usize| grouped(limit as u64);
    match refused.refusal {
        Refusal::TextTooLong => text_limit(),
        Refusal::Limit => format!(
            "A clause file has at most {} atoms, {} clauses and {} literals; a literal that its \
             clause repeats does not count.",
            limit(limits.atoms),
            limit(limits.rules),
            limit(limits.occurrences)
        ),
        Refusal::LiteralBeyond => {
            "A literal's number is at most the header's first number.".to_string()
        }
        _ => clauses(file, refused.line).to_string(),
    }
}

/// What is wrong between `when` and `then`, and what may stand there.
fn condition(line: &[u8]) -> String {
    match broken_at(line) {
        Some(broken) => format!("{broken}\n{JOINED}"),
        None => JOINED.to_string(),
    }
}

/// A name that only a condition makes.
fn has_made_name(line: &[u8]) -> bool {
    words(line).any(|word| word.starts_with(b"T."))
}

/// One sentence of help for a refused text.
pub fn explain(file: &File, refused: &Refused) -> String {
    let (one, declared) = match kind(file) {
        Kind::Preference => ("one of ", "the (min ..), (vary ..) and (fix ..) lines"),
        Kind::Plain => ("", "the (atoms ..) line"),
    };
    let line = file.line(refused.line).unwrap_or(b"");
    match refused.refusal {
        Refusal::TextTooLong => text_limit(),
        Refusal::Form => form(file, refused.line).to_string(),
        Refusal::BrokenCondition => condition(line),
        Refusal::DeepBrackets => "Between (when and the last (then ..) brackets are at most 32 deep: \
             leave out those that change nothing, or give a part a name by a condition of its own."
            .to_string(),
        Refusal::Name => format!(
            "A name has at most {HOUSE_NAME_LIMIT} bytes; N.a, S.a, D.a, E.0 and U are names that \
             the translator makes, for plain programs only."
        ),
        Refusal::DeclaredTwice if is_condition(line) => {
            "The not, and, or of conditions get the atoms T.1, T.2, .. in the file's order, and one \
             that this line gets is declared."
                .to_string()
        }
        Refusal::DeclaredTwice => format!("On {declared} each atom stands once."),
        Refusal::NotDeclared => {
            let whose = match is_condition(line) {
                true => "condition",
                false => "rule",
            };
            let made = match has_made_name(line) && kind(file) == Kind::Preference {
                true => " The atoms T.1, T.2, .. that conditions get are not declared.",
                false => "",
            };
            format!("Each atom of a {whose} must stand on {one}{declared}.{made}")
        }
        Refusal::TwiceInList => {
            "An atom stands at most once in each of a rule's lists head, body and not.".to_string()
        }
        Refusal::Limit => limits(file),
        Refusal::FilledNot => "In a preference file each rule ends with an empty list, (not)); a \
             rule with an empty head says what cannot be."
            .to_string(),
        // The others are none of a text.
        _ => String::new(),
    }
}
