//! A plain program as clingo and DLV2 read it.

use rigtomato::{Program, Rule};

const FIRST_LINE: &str = "\
% A preference file's plain program: the holds/1 atoms of each stable model are a preferred state.
";
const LAST_LINE: &str = "#show holds/1.\n";

/// What stands before and after a name of the file itself, here and in a solver's models.
pub const BEFORE: &str = "holds(\"";
pub const AFTER: &str = "\")";

/// A predicate for each kind of name, the file's name quoted.
fn term(name: &str) -> String {
    match name.split_once('.') {
        Some(("N", name)) => format!("n(\"{name}\")"),
        Some(("S", name)) => format!("s(\"{name}\")"),
        Some(("D", name)) => format!("d(\"{name}\")"),
        Some(("E", number)) => format!("e({number})"),
        None if name == "U" => "u".to_string(),
        _ => format!("{BEFORE}{name}{AFTER}"),
    }
}

fn push_joined<'t>(text: &mut String, between: &str, items: impl Iterator<Item = &'t str>) {
    for (place, item) in items.enumerate() {
        if place > 0 {
            text.push_str(between);
        }
        text.push_str(item);
    }
}

fn push_rule(text: &mut String, rule: &Rule, terms: &[String]) {
    let term = |atom: &u16| terms[usize::from(*atom)].as_str();
    push_joined(text, " | ", rule.head.iter().map(term));
    let conditions = rule.body.len() + rule.not.len();
    if conditions > 0 {
        let space = if rule.head.is_empty() { "" } else { " " };
        text.push_str(space);
        text.push_str(":- ");
        push_joined(text, ", ", rule.body.iter().map(term));
        if !rule.body.is_empty() && !rule.not.is_empty() {
            text.push_str(", ");
        }
        if !rule.not.is_empty() {
            text.push_str("not ");
        }
        push_joined(text, ", not ", rule.not.iter().map(term));
    } else if rule.head.is_empty() {
        // what no set satisfies, said by a condition that always holds
        text.push_str(":- 0=0");
    }
    text.push_str(".\n");
}

/// The text of a plain program, one rule a line.
pub fn text(plain: &Program) -> String {
    let terms: Vec<String> = plain.names().map(term).collect();
    let mut text = FIRST_LINE.to_string();
    for rule in plain.rule_lists() {
        push_rule(&mut text, &rule, &terms);
    }
    text + LAST_LINE
}

#[cfg(test)]
mod tests {
    use super::*;

    #[test]
    fn every_form_of_rule_and_name() {
        let text = b"(atoms a lamp_2 N.a S.a D.a E.16 U T.1 N.T.256)\n\
            (rule (head) (body) (not))\n\
            (rule (head a) (body) (not))\n\
            (rule (head S.a U) (body D.a lamp_2) (not N.a E.16))\n\
            (rule (head) (body a) (not))\n\
            (rule (head) (body) (not U a))\n\
            (rule (head U) (body E.16) (not))\n\
            (rule (head T.1) (body) (not N.T.256))\n";
        let plain = Program::read(text).unwrap();
        let expected = "\
            :- 0=0.\n\
            holds(\"a\").\n\
            s(\"a\") | u :- d(\"a\"), holds(\"lamp_2\"), not n(\"a\"), not e(16).\n\
            :- holds(\"a\").\n\
            :- not u, not holds(\"a\").\n\
            u :- e(16).\n\
            holds(\"T.1\") :- not n(\"T.256\").\n";
        assert_eq!(
            super::text(&plain),
            format!("{FIRST_LINE}{expected}{LAST_LINE}")
        );
    }
}
