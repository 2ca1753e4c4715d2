//! Lines of a text. Lines and columns count from 1, columns in bytes. Where a fault can stand, all bytes before it in its line are ASCII,
//! so columns count letters too; only the place where a text becomes too long may stand anywhere.

pub use sluicegnome::place;

/// The line of a byte position.
pub fn line(text: &[u8], position: usize) -> usize {
    place(text, position).line
}

/// The bytes of the line that a position stands in, from the first up to its line feed.
pub fn line_bounds(text: &[u8], position: usize) -> (usize, usize) {
    let position = position.min(text.len());
    let start = text[..position].iter().rposition(|&byte| byte == b'\n').map_or(0, |feed| feed + 1);
    let length = text[position..].iter().position(|&byte| byte == b'\n');
    (start, length.map_or(text.len(), |length| position + length))
}

#[cfg(test)]
mod tests {
    use super::line_bounds;

    #[test]
    fn bounds() {
        let text = b"ab\n\ncd";
        assert_eq!(line_bounds(text, 2), (0, 2));
        assert_eq!(line_bounds(text, 3), (3, 3));
        assert_eq!(line_bounds(text, 5), (4, 6));
        assert_eq!(line_bounds(text, 6), (4, 6));
    }
}
