//! Names that are nearly the same.

/// The name of these that is nearest to a word, if one is near at all: of three letters one may differ, of five two, of nine three.
pub fn nearest<'a>(word: &str, names: impl IntoIterator<Item = &'a str>) -> Option<&'a str> {
    let far = match word.len() {
        0..=2 => 0,
        3..=4 => 1,
        5..=8 => 2,
        _ => 3,
    };
    let distances = names.into_iter().map(|name| (distance(word, name), name));
    let (_, name) = distances.filter(|(distance, _)| *distance <= far).min_by_key(|(distance, _)| *distance)?;
    Some(name)
}

/// How many letters are to be changed, left out, added or swapped with their neighbour. Capitals count as small letters.
fn distance(one: &str, other: &str) -> usize {
    let one = one.to_ascii_lowercase().into_bytes();
    let other = other.to_ascii_lowercase().into_bytes();
    let mut before: Vec<usize> = Vec::new();
    let mut last: Vec<usize> = (0..=other.len()).collect();
    for i in 1..=one.len() {
        let mut row = vec![i];
        for j in 1..=other.len() {
            let changed = last[j - 1] + usize::from(one[i - 1] != other[j - 1]);
            let mut least = changed.min(last[j] + 1).min(row[j - 1] + 1);
            if i > 1 && j > 1 && one[i - 1] == other[j - 2] && one[i - 2] == other[j - 1] {
                least = least.min(before[j - 2] + 1);
            }
            row.push(least);
        }
        before = std::mem::replace(&mut last, row);
    }
    last[other.len()]
}

#[cfg(test)]
mod tests {
    use super::{distance, nearest};

    #[test]
    fn distances() {
        assert_eq!(distance("scale", "scael"), 1);
        assert_eq!(distance("", "abc"), 3);
        assert_eq!(distance("kitten", "sitting"), 3);
        assert_eq!(nearest("scael", ["shift", "scale"]), Some("scale"));
        assert_eq!(nearest("Scale", ["scale"]), Some("scale"));
        assert_eq!(nearest("scail", ["shift", "scale"]), Some("scale"));
        assert_eq!(nearest("x", ["y", "window"]), None);
        assert_eq!(nearest("position", ["motion"]), None);
    }
}
