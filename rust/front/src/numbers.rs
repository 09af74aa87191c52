//! Numbers for people.

/// With a comma before each three digits: 8,192.
pub fn grouped(number: u64) -> String {
    let digits = number.to_string();
    let mut text = String::new();
    for (place, digit) in digits.chars().enumerate() {
        if place > 0 && (digits.len() - place).is_multiple_of(3) {
            text.push(',');
        }
        text.push(digit);
    }
    text
}

/// `1 unit`, `2 units`.
pub fn counted(number: u64, what: &str) -> String {
    format!("{number} {}", plural(number, what))
}

/// `1 unit`, `1,024 units`.
pub fn counted_in_groups(number: u64, what: &str) -> String {
    format!("{} {}", grouped(number), plural(number, what))
}

fn plural(number: u64, what: &str) -> String {
    match (number, what.ends_with('s')) {
        (1, _) => what.to_string(),
        (_, true) => format!("{what}es"),
        (_, false) => format!("{what}s"),
    }
}

#[cfg(test)]
mod tests {
    use super::*;

    #[test]
    fn commas() {
        let texts = [0, 7, 999, 1_000, 65_536, 917_504, 1 << 40].map(grouped);
        let expected = [
            "0",
            "7",
            "999",
            "1,000",
            "65,536",
            "917,504",
            "1,099,511,627,776",
        ];
        assert_eq!(texts, expected);
    }

    #[test]
    fn one_and_more() {
        assert_eq!(counted(0, "class"), "0 classes");
        assert_eq!(counted(1, "class"), "1 class");
        assert_eq!(counted(1, "unit"), "1 unit");
        assert_eq!(counted_in_groups(1_024, "unit"), "1,024 units");
    }
}
