//! Names compared: first their lengths, then their last bytes, then the others from
//! the front.

/// Whether two names are the same, 1 or 0, and the pairs of bytes compared to tell.
#[derive(Clone, Copy, Debug, PartialEq, Eq)]
pub struct Comparison {
    pub same: u32,
    pub pairs: u32,
}

impl Comparison {
    pub fn numbers(self) -> [u32; 2] {
        [self.same, self.pairs]
    }

    fn same(pairs: usize) -> Comparison {
        Comparison {
            same: 1,
            pairs: capped(pairs),
        }
    }

    fn different(pairs: usize) -> Comparison {
        Comparison {
            same: 0,
            pairs: capped(pairs),
        }
    }
}

/// Compares two names of any bytes and lengths.
pub fn compare(a: &[u8], b: &[u8]) -> Comparison {
    if a.len() != b.len() {
        return Comparison::different(0);
    }
    if a.last() != b.last() {
        return Comparison::different(1);
    }
    match first_difference(a, b) {
        None => Comparison::same(a.len()),
        Some(place) => Comparison::different(place + 2),
    }
}

/// The first place at which two names of one length differ.
fn first_difference(a: &[u8], b: &[u8]) -> Option<usize> {
    match a.len() {
        0..4 => a.iter().zip(b).position(|(a, b)| a != b),
        4..8 => difference_by::<4>(a, b),
        8..16 => difference_by::<8>(a, b),
        _ => difference_by::<16>(a, b),
    }
}

/// The same for names of N bytes or more: N bytes at a turn, and at last the last N,
/// some of which may be taken twice.
fn difference_by<const N: usize>(a: &[u8], b: &[u8]) -> Option<usize> {
    let last = a.len() - N;
    let mut place = 0;
    loop {
        let bits = word::<N>(a, place) ^ word::<N>(b, place);
        if bits != 0 {
            return Some(place + bits.trailing_zeros() as usize / 8);
        }
        if place == last {
            return None;
        }
        place = last.min(place + N);
    }
}

/// The N bytes of a name from this place on, the first of them lowest.
fn word<const N: usize>(name: &[u8], place: usize) -> u128 {
    let mut bytes = [0; 16];
    bytes[..N].copy_from_slice(&name[place..place + N]);
    u128::from_le_bytes(bytes)
}

fn capped(pairs: usize) -> u32 {
    u32::try_from(pairs).unwrap_or(u32::MAX)
}

#[cfg(test)]
mod tests {
    use super::compare;

    #[test]
    fn pairs_compared() {
        let cases: [(&str, &str, [u32; 2]); 14] = [
            ("", "", [1, 0]),
            ("", "a", [0, 0]),
            ("ab", "a", [0, 0]),
            ("a", "a", [1, 1]),
            ("a", "b", [0, 1]),
            ("ab", "ac", [0, 1]),
            ("ab", "cd", [0, 1]),
            ("ab", "cb", [0, 2]),
            ("abc", "adc", [0, 3]),
            ("abcdef", "abcdxf", [0, 6]),
            ("abcdef", "abcdef", [1, 6]),
            ("abcdefghij", "abcdefghxj", [0, 10]),
            ("abcdefghijklmnopq", "abcdefghijklmnoxq", [0, 17]),
            ("abcdefghijklmnopq", "abcdefghijklmnopq", [1, 17]),
        ];
        for (a, b, numbers) in cases {
            let [a, b] = [a.as_bytes(), b.as_bytes()];
            assert_eq!(compare(a, b).numbers(), numbers);
            assert_eq!(compare(b, a).numbers(), numbers);
        }
    }
}
