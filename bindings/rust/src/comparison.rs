//! Names compared.

use crate::raw;

/// What a comparison of two names says.
#[derive(Clone, Copy, Debug, PartialEq, Eq, Hash)]
pub struct Comparison {
    /// Whether the names are the same, byte by byte.
    pub same: bool,
    /// The pairs of bytes that were compared to tell: none if the lengths differ, one if the last bytes differ, else one more for each
    /// pair from the front through the first that differs; for equal names their length. A number above [`u32::MAX`] is given as that.
    pub pairs: u32,
}

/// Compares two names as the library does everywhere: first their lengths, then their last bytes, then the others from the front. A name
/// may be any bytes, and have any length, also 0.
///
/// ```
/// use sluicegnome::{compare, Comparison};
///
/// assert_eq!(compare(b"scale", b"scale"), Comparison { same: true, pairs: 5 });
/// assert_eq!(compare(b"scale", b"scales"), Comparison { same: false, pairs: 0 });
/// assert_eq!(compare(b"star_1", b"star_2"), Comparison { same: false, pairs: 1 });
/// assert_eq!(compare(b"scale", b"shale"), Comparison { same: false, pairs: 3 });
/// assert_eq!(compare(b"", b""), Comparison { same: true, pairs: 0 });
/// ```
pub fn compare(a: &[u8], b: &[u8]) -> Comparison {
    let raw::Comparison { same, pairs } = raw::compare(a, b);
    Comparison { same: same != 0, pairs }
}

#[cfg(test)]
mod tests {
    use super::{compare, Comparison};

    #[test]
    fn pairs() {
        let name = b"epoch_correction";
        assert_eq!(compare(name, name), Comparison { same: true, pairs: 16 });
        for place in 0..name.len() {
            let mut other = *name;
            other[place] = b'!';
            let pairs = if place == 15 { 1 } else { place as u32 + 2 };
            assert_eq!(compare(name, &other), Comparison { same: false, pairs });
            assert_eq!(compare(&name[..place], name), Comparison { same: false, pairs: 0 });
        }
    }

    #[test]
    fn one_buffer() {
        let bytes = b"abababab";
        assert_eq!(compare(&bytes[..6], &bytes[2..]), Comparison { same: true, pairs: 6 });
        assert_eq!(compare(&bytes[..7], &bytes[1..]), Comparison { same: false, pairs: 1 });
        assert_eq!(compare(&bytes[3..3], &[]), Comparison { same: true, pairs: 0 });
    }
}
