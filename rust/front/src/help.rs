//! The pages of help.

use crate::arguments::Choice;
use crate::commands::{Command, COMMANDS};

const FORMAT: &str = "\
FILE may be - for standard input. A preference file has one bracket form a line.
Spaces may stand around words and brackets, a comment goes from ; to the line's
end, and lines may be blank:

    (min sensor)                            ; faults, the gravest class first
    (min lamp)                              ; .. up to 16 classes
    (vary dark)                             ; what nobody knows
    (fix)                                   ; what is known and stays as it is
    (rule (head sensor lamp) (body) (not))  ; the sensor or the lamp is at fault
    (rule (head dark) (body lamp) (not))    ; a lamp at fault means dark

A rule says: if all of the body, then some of the head. In a rule's place may
stand a condition, as (when dark and not lamp (then sensor)); not binds before
and, and before or. It gives rules, with an atom T.1, T.2, .. for each not, and,
or. A name is 1 to 24 bytes, letters a to z, digits or _, the first no _. A
declared atom that stands in no rule is left out; 'check' names it. For this file
'states' prints

    (state lamp dark)
    (total 1)

Faults are assumed as few as possible, the grave ones first. A file that is not
of this form is refused with a number and a line; 'check' explains it.
";

const STATUS: &str = "\
Exit status: 0 answered, 1 refused, 2 wrong usage, unreadable file or missing
solver, 3 the budget is spent, 4 the solver failed or gave a state that is not
preferred, 130 interrupted.
";

/// `states FILE [--budget N] [--first N] [--json]`.
fn call(command: &Command) -> String {
    let options = command.options.iter();
    let options: String = options
        .map(|choice| format!(" [{}]", choice.usage()))
        .collect();
    let atoms = if command.takes_atoms { " ATOM.." } else { "" };
    format!("{} FILE{options}{atoms}", command.name)
}

pub fn usage_of(command: &Command) -> String {
    format!("usage: rigtomato {}", call(command))
}

/// Each command on a line, without what it does.
pub fn usage() -> String {
    let mut text = String::new();
    for (place, command) in COMMANDS.iter().enumerate() {
        let before = if place == 0 { "usage:" } else { "      " };
        text.push_str(&format!("{before} rigtomato {}\n", call(command)));
    }
    text + "       rigtomato help [COMMAND]"
}

pub fn page() -> String {
    let mut text = "usage: rigtomato COMMAND FILE ..\n\n".to_string();
    for command in COMMANDS {
        text.push_str(&format!("  {}\n      {}\n", call(command), command.does));
    }
    text.push_str("  help [COMMAND]\n      show this page, or the page of one command\n");
    format!("{text}\n{FORMAT}\n{STATUS}")
}

fn option_line(choice: &Choice) -> String {
    format!("  {:<14} {}\n", choice.usage(), choice.does)
}

pub fn page_of(command: &Command) -> String {
    let options = command.options.iter();
    let options: String = options.map(|choice| option_line(choice)).collect();
    let space = if options.is_empty() { "" } else { "\n" };
    let (usage, does, more) = (usage_of(command), command.does, command.more);
    format!("{usage}\n\n{does}\n\n{options}{space}{more}\n{STATUS}")
}
