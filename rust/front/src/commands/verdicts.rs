//! `preferred` and `stable`: the engine's verdict on a set.

use crate::arguments::Call;
use crate::ending::{Ending, Fault, Outcome};
use crate::file::{File, Typed};
use crate::json::Json;
use crate::nearest::nearest;
use crate::numbers::counted;
use crate::output::{print, say};
use crate::refused::{self, Refused};
use crate::unused::unused;
use crate::watch::{Event, Watch};
use rigtomato::{Kind, Program, Refusal, Verdict, LARGEST_BUDGET};
use std::sync::Arc;

pub const MORE_ON_PREFERRED: &str = "\
The atoms are a set; none at all is the empty set. The answer is one of

    yes, 13 units
    no model: line 5 is broken: (rule (head sensor lamp) (body) (not))
    beaten by: lamp dark (6 units)
    spent: more than 5 units are needed

Atoms are decided one after another in declared order, out before in (fixed ones
only as in the set), and no deeper once a rule is broken. So sets are met in the
order in which 'states' lists, and the first better one is named. A unit is one
choice of the first atoms, that of none and that of all included. With --json:
{\"verdict\":\"yes\",\"units\":13},
{\"verdict\":\"broken\",\"rule\":0,\"line\":5,\"text\":\"..\"} (rules count from 0),
{\"verdict\":\"beaten\",\"set\":[..],\"units\":6} or {\"verdict\":\"spent\",\"units\":5}.
At most 60 atoms stand in the file's rules. One that is declared and stands in
none does not belong to the program, so it cannot be asked for.

The atoms T.1, T.2, .. that a condition's not, and, or get belong to the program:
a set has those whose part of the condition holds in it. A broken condition is
shown with the rule that it gives and that is broken, in JSON as \"made\".
";

pub const MORE_ON_STABLE: &str = "\
The atoms are a set; none at all is the empty set. The answer is one of

    yes, 4 units
    no model: line 5 is broken: (rule (head a) (body) (not b))
    not minimal: lamp is a model of the reduct (5 units)
    spent: more than 3 units are needed

Atoms are decided one after another in declared order, out before in (those
outside the set only out), and no deeper once a rule of the reduct is broken. So
sets are met in the order in which 'states' lists, and the first smaller one is
named. A unit is one choice of the first atoms, that of none included; the set
itself does not count. With --json: {\"verdict\":\"yes\",\"units\":4},
{\"verdict\":\"broken\",\"rule\":0,\"line\":5,\"text\":\"..\"} (rules count from 0),
{\"verdict\":\"beaten\",\"set\":[..],\"units\":5} or {\"verdict\":\"spent\",\"units\":3}.
The program has at most 60 atoms.
";

type Judge = fn(&Program, u64, u64) -> Result<Verdict, Refusal>;

pub fn preferred(call: &Call) -> Outcome {
    run(call, Kind::Preference, Program::preferred)
}

pub fn stable(call: &Call) -> Outcome {
    run(call, Kind::Plain, Program::stable)
}

/// What a verdict is about.
pub struct Asked<'a> {
    pub file: &'a File,
    pub program: &'a Program,
    pub kind: Kind,
    pub budget: u64,
}

impl Asked<'_> {
    fn names(&self, set: u64) -> String {
        if set == 0 {
            return "the empty set".to_string();
        }
        self.program.names_in(set).collect::<Vec<_>>().join(" ")
    }

    /// The rule that a condition's line gives, as it is written; none of a rule's line.
    fn made_of(&self, typed: &Typed, rule: u64) -> Option<String> {
        if !typed.is_condition {
            return None;
        }
        let lists = self.program.rule_lists().nth(rule as usize)?;
        let names: Vec<&str> = self.program.names().collect();
        let list = |word: &str, atoms: &[u16]| {
            let atoms = atoms.iter().map(|atom| names[usize::from(*atom)]);
            let items: Vec<&str> = [word].into_iter().chain(atoms).collect();
            format!("({})", items.join(" "))
        };
        let (head, body) = (list("head", lists.head), list("body", lists.body));
        Some(format!("(rule {head} {body} {})", list("not", lists.not)))
    }

    pub fn words(&self, verdict: Verdict) -> String {
        match verdict {
            Verdict::Yes { units } => format!("yes, {}", counted(units, "unit")),
            Verdict::Broken { rule } => {
                let typed = self.file.rule(rule);
                let (line, text) = (typed.line, &typed.text);
                let by = match self.made_of(&typed, rule) {
                    Some(made) => format!(", by {made}"),
                    None => String::new(),
                };
                format!("no model: line {line} is broken: {text}{by}")
            }
            Verdict::Beaten { set, units } => {
                let (set, units) = (self.names(set), counted(units, "unit"));
                match self.kind {
                    Kind::Preference => format!("beaten by: {set} ({units})"),
                    Kind::Plain => format!("not minimal: {set} is a model of the reduct ({units})"),
                }
            }
            Verdict::Spent => {
                let are = if self.budget == 1 { "is" } else { "are" };
                let units = counted(self.budget, "unit");
                format!("spent: more than {units} {are} needed")
            }
        }
    }

    fn json(&self, verdict: Verdict) -> Json {
        let (word, mut fields) = match verdict {
            Verdict::Yes { units } => ("yes", vec![("units", Json::Number(units))]),
            Verdict::Broken { rule } => {
                let typed = self.file.rule(rule);
                let made = self.made_of(&typed, rule);
                let mut fields = vec![
                    ("rule", Json::Number(rule)),
                    ("line", Json::Number(typed.line)),
                    ("text", Json::text(typed.text)),
                ];
                fields.extend(made.map(|made| ("made", Json::text(made))));
                ("broken", fields)
            }
            Verdict::Beaten { set, units } => {
                let set = Json::texts(self.program.names_in(set));
                ("beaten", vec![("set", set), ("units", Json::Number(units))])
            }
            Verdict::Spent => ("spent", vec![("units", Json::Number(self.budget))]),
        };
        fields.insert(0, ("verdict", Json::text(word)));
        Json::Object(fields)
    }
}

/// Why the program has no atom of this name.
fn no_atom(file: &File, program: &Program, name: &str) -> String {
    if unused(file, program).contains(&name) {
        return format!(
            "{name} is declared, but it stands in no rule, so it does not belong to the program"
        );
    }
    let meant = nearest(name, program.names());
    let meant = meant.map_or(String::new(), |name| format!("; the nearest is {name}"));
    format!("no atom is called {name}{meant}")
}

/// The number of the atom with this name.
fn number_of(file: &File, program: &Program, name: &str) -> Result<usize, Fault> {
    let number = program.names().position(|known| known == name);
    number.ok_or_else(|| {
        let words = no_atom(file, program, name);
        Fault::unusable(format!("{}: {words}", file.name))
    })
}

/// The set's number. Where an atom has no place in it, the engine refuses the file for its atoms.
fn set_of(call: &Call, file: &File, program: &Program) -> Result<u64, Fault> {
    let mut set = 0;
    for name in &call.atoms {
        let atom = number_of(file, program, name)?;
        set |= 1_u64.checked_shl(atom as u32).unwrap_or(0);
    }
    Ok(set)
}

fn refuse(call: &Call, file: &File, refused: &Refused) -> Outcome {
    say(&refused.message(file));
    if call.json {
        print(format!("{}\n", refused.json()))?;
    }
    Ok(Ending::Refused)
}

/// The engine's answer; none where it is interrupted.
fn answer(
    program: &Arc<Program>,
    judge: Judge,
    set: u64,
    budget: u64,
) -> Option<Result<Verdict, Refusal>> {
    let program = Arc::clone(program);
    let mut answers = Watch::over(move |answers| {
        let _ = answers.send(judge(&program, set, budget));
    });
    match answers.next(|| "no verdict yet".to_string()) {
        Event::Answer(answer) => Some(answer),
        Event::Interrupted => None,
        Event::Ended => unreachable!("the engine answers"),
    }
}

fn run(call: &Call, kind: Kind, judge: Judge) -> Outcome {
    let file = File::read(&call.file)?;
    let program = match refused::read(&file) {
        Ok(program) => Arc::new(program),
        Err(refused) => return refuse(call, &file, &refused),
    };
    if program.kind() != kind {
        let refused = Refused::of_call(Refusal::RuleStore, kind);
        return refuse(call, &file, &refused);
    }
    let set = set_of(call, &file, &program)?;
    let budget = call.budget.unwrap_or(LARGEST_BUDGET);
    let verdict = match answer(&program, judge, set, budget) {
        Some(Ok(verdict)) => verdict,
        Some(Err(refusal)) => return refuse(call, &file, &Refused::of_call(refusal, kind)),
        None => {
            say("interrupted: no verdict so far");
            return Ok(Ending::Interrupted);
        }
    };
    let asked = Asked {
        file: &file,
        program: &program,
        kind,
        budget,
    };
    match call.json {
        true => print(format!("{}\n", asked.json(verdict)))?,
        false => print(format!("{}\n", asked.words(verdict)))?,
    }
    Ok(match verdict {
        Verdict::Spent => Ending::Spent,
        _ => Ending::Answered,
    })
}
