//! The name that somebody may have meant.

/// The least number of bytes to put in, take out or replace that makes one name the other.
fn distance(one: &str, other: &str) -> usize {
    let other = other.as_bytes();
    let mut row: Vec<usize> = (0..=other.len()).collect();
    for (above, byte) in one.bytes().enumerate() {
        let mut corner = row[0];
        row[0] = above + 1;
        for (at, another) in other.iter().enumerate() {
            let replaced = corner + usize::from(byte != *another);
            corner = row[at + 1];
            row[at + 1] = replaced.min(row[at] + 1).min(corner + 1);
        }
    }
    row[other.len()]
}

/// The nearest of the names, if it is near enough to be meant.
pub fn nearest<'n>(wanted: &str, names: impl Iterator<Item = &'n str>) -> Option<&'n str> {
    let measured = names.map(|name| (distance(wanted, name), name));
    let (far, name) = measured.min_by_key(|(far, _)| *far)?;
    let longest = wanted.len().max(name.len());
    (far <= 2 && 2 * far <= longest).then_some(name)
}

#[cfg(test)]
mod tests {
    use super::*;

    #[test]
    fn distances() {
        assert_eq!(distance("lamp", "lamp"), 0);
        assert_eq!(distance("lmap", "lamp"), 2);
        assert_eq!(distance("", "abc"), 3);
        assert_eq!(distance("sensor", "sensors"), 1);
        assert_eq!(distance("kitten", "sitting"), 3);
    }

    #[test]
    fn near_names() {
        let names = || ["sensor", "lamp", "dark"].into_iter();
        assert_eq!(nearest("lmap", names()), Some("lamp"));
        assert_eq!(nearest("Sensor", names()), Some("sensor"));
        assert_eq!(nearest("door", names()), None);
        assert_eq!(nearest("x", ["a"].into_iter()), None);
        assert_eq!(nearest("a", [].into_iter()), None);
    }
}
