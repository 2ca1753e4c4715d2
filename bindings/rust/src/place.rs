//! Lines and columns.

/// A place in a text for people: both numbers count from 1, and the column counts bytes.
#[derive(Clone, Copy, Debug, PartialEq, Eq, Hash)]
pub struct Place {
    pub line: usize,
    pub column: usize,
}

/// The place of a byte position; one beyond the text is taken for its end. A line ends at byte 10.
///
/// ```
/// let text = b"version 1.0\ngraph !";
/// let refusal = sluicegnome::canon(b"", text).unwrap_err();
/// let place = sluicegnome::place(text, refusal.position);
/// assert_eq!((place.line, place.column), (2, 7));
/// ```
pub fn place(text: &[u8], position: usize) -> Place {
    let before = &text[..position.min(text.len())];
    let line_start = before.iter().rposition(|&byte| byte == b'\n').map_or(0, |feed| feed + 1);
    Place { line: 1 + before.iter().filter(|&&byte| byte == b'\n').count(), column: 1 + before.len() - line_start }
}

#[cfg(test)]
mod tests {
    use super::{place, Place};

    #[test]
    fn places() {
        let at = |position| place(b"ab\n\ncd", position);
        assert_eq!(at(0), Place { line: 1, column: 1 });
        assert_eq!(at(2), Place { line: 1, column: 3 });
        assert_eq!(at(3), Place { line: 2, column: 1 });
        assert_eq!(at(6), Place { line: 3, column: 3 });
        assert_eq!(at(7), Place { line: 3, column: 3 });
    }
}
