//! Numbers: the parts that they are written in, and their reduced value.

use crate::limits;

/// The parts of a number as written.
pub struct Parts<'a> {
    whole: &'a [u8],
    /// The digits after the point; empty without one.
    fraction: &'a [u8],
    /// The exponent's digits; empty without one.
    exponent: &'a [u8],
    exponent_negative: bool,
}

/// A value as a mantissa that is not divisible by ten, times ten to the
/// exponent; zero has the mantissa 0 and the exponent 0.
#[derive(Clone, Copy)]
pub struct Reduced<'a> {
    /// The mantissa's digits are these in a row, without zeros at the ends.
    pub digits: [&'a [u8]; 2],
    pub exponent: i32,
}

impl<'a> Parts<'a> {
    /// The parts of the longest number at `start`, where a digit stands, and its end.
    pub fn at(text: &'a [u8], start: usize) -> (Parts<'a>, usize) {
        let whole_end = digits_end(text, start + 1);
        let end = fraction_end(text, whole_end);
        Parts::from([start, whole_end, end], text)
    }

    /// The same, when the ends of the whole digits and of the fraction are known.
    pub fn from([start, whole_end, mut end]: [usize; 3], text: &'a [u8]) -> (Parts<'a>, usize) {
        let mut parts = Parts {
            whole: &text[start..whole_end],
            fraction: text[whole_end..end].get(1..).unwrap_or(&[]),
            exponent: &[],
            exponent_negative: false,
        };
        if let Some(b'e' | b'E') = text.get(end) {
            let sign = text.get(end + 1).filter(|&&b| b == b'+' || b == b'-');
            let from = if sign.is_some() { end + 2 } else { end + 1 };
            let exponent_end = digits_end(text, from);
            parts.exponent = &text[from..exponent_end];
            parts.exponent_negative = sign == Some(&b'-');
            if !parts.exponent.is_empty() {
                end = exponent_end;
            }
        }
        (parts, end)
    }

    /// Whether the number has neither a point nor an exponent.
    pub fn is_whole(&self) -> bool {
        self.fraction.is_empty() && self.exponent.is_empty()
    }

    /// So few digits are in range whatever they are.
    pub fn is_in_range(&self) -> bool {
        let few = self.whole.len() + self.fraction.len() <= limits::MANTISSA_DIGITS
            && self.exponent.len() <= 2;
        few || self.reduced().is_some()
    }

    /// The reduced value, unless the number is out of range.
    pub fn reduced(&self) -> Option<Reduced<'a>> {
        let written = self.written_exponent()?;
        let digits = [self.whole, self.fraction];
        let leading = leading_zeros(digits);
        let all = self.whole.len() + self.fraction.len();
        if leading == all {
            return Some(Reduced::ZERO);
        }
        let trailing = trailing_zeros(digits);
        let exponent = written - self.fraction.len() as i32 + trailing as i32;
        if all - leading - trailing > limits::MANTISSA_DIGITS
            || exponent.abs() > limits::REDUCED_EXPONENT
        {
            return None;
        }
        Some(Reduced {
            digits: without_first(without_last(digits, trailing), leading),
            exponent,
        })
    }

    /// The exponent as written, unless it is too great.
    fn written_exponent(&self) -> Option<i32> {
        let mut size = 0;
        for digit in self.exponent {
            size = 10 * size + i32::from(digit - b'0');
            if size > limits::WRITTEN_EXPONENT {
                return None;
            }
        }
        Some(if self.exponent_negative { -size } else { size })
    }
}

impl Reduced<'_> {
    const ZERO: Reduced<'static> = Reduced {
        digits: [b"0", b""],
        exponent: 0,
    };

    /// The mantissa, which has at most 18 digits.
    pub fn mantissa(self) -> i64 {
        let digits = self.digits.into_iter().flatten();
        digits.fold(0, |value, digit| 10 * value + i64::from(digit - b'0'))
    }
}

/// A number's bytes before its exponent, and the exponent as written, or 0; the
/// number is in range.
pub fn mantissa_and_exponent(number: &[u8]) -> (&[u8], i32) {
    let Some(place) = number.iter().rposition(|b| matches!(b, b'e' | b'E')) else {
        return (number, 0);
    };
    let (mantissa, exponent) = (&number[..place], &number[place + 1..]);
    let digits = exponent.iter().filter(|b| b.is_ascii_digit());
    let size = digits.fold(0, |size, digit| 10 * size + i32::from(digit - b'0'));
    match exponent[0] {
        b'-' => (mantissa, -size),
        _ => (mantissa, size),
    }
}

/// The digits of a whole number without leading zeros; of zero, one digit.
pub fn plain(whole: &[u8]) -> &[u8] {
    &whole[zeros(whole).min(whole.len() - 1)..]
}

/// Whether a whole number, with a sign before it or not, is an extent.
pub fn is_extent(whole: &[u8], negative: bool) -> bool {
    let bound = if negative {
        limits::LEAST_EXTENT
    } else {
        limits::GREATEST_EXTENT
    };
    whole.len() < bound.len() || {
        let digits = plain(whole);
        digits.len() < bound.len() || digits.len() == bound.len() && digits <= bound
    }
}

/// Whether a number that is in range is zero.
pub fn is_zero(number: &[u8]) -> bool {
    let (mantissa, _) = mantissa_and_exponent(number);
    mantissa.iter().all(|b| matches!(b, b'0' | b'.'))
}

/// The end of the digits from `from` on.
pub fn digits_end(text: &[u8], from: usize) -> usize {
    let mut end = from;
    while text.get(end).is_some_and(u8::is_ascii_digit) {
        end += 1;
    }
    end
}

/// The end of a point and digits at `from`, or `from` if they are not there.
pub fn fraction_end(text: &[u8], from: usize) -> usize {
    if text.get(from) == Some(&b'.') {
        let end = digits_end(text, from + 1);
        if end > from + 1 {
            return end;
        }
    }
    from
}

/// The zeros that digits begin with.
fn zeros(digits: &[u8]) -> usize {
    let first = digits.iter().position(|&digit| digit != b'0');
    first.unwrap_or(digits.len())
}

/// The zeros that digits end with.
fn last_zeros(digits: &[u8]) -> usize {
    let last = digits.iter().rposition(|&digit| digit != b'0');
    last.map_or(digits.len(), |last| digits.len() - 1 - last)
}

fn leading_zeros([whole, fraction]: [&[u8]; 2]) -> usize {
    match zeros(whole) {
        all if all == whole.len() => all + zeros(fraction),
        some => some,
    }
}

fn trailing_zeros([whole, fraction]: [&[u8]; 2]) -> usize {
    match last_zeros(fraction) {
        all if all == fraction.len() => all + last_zeros(whole),
        some => some,
    }
}

fn without_first([whole, fraction]: [&[u8]; 2], count: usize) -> [&[u8]; 2] {
    match count.checked_sub(whole.len()) {
        Some(rest) => [&fraction[rest..], &[]],
        None => [&whole[count..], fraction],
    }
}

fn without_last([whole, fraction]: [&[u8]; 2], count: usize) -> [&[u8]; 2] {
    match count.checked_sub(fraction.len()) {
        Some(rest) => [&whole[..whole.len() - rest], &[]],
        None => [whole, &fraction[..fraction.len() - count]],
    }
}

#[cfg(test)]
mod tests {
    use super::{is_extent, is_zero, plain, Parts};

    fn reduced(number: &str) -> Option<(i64, i32)> {
        let (parts, end) = Parts::at(number.as_bytes(), 0);
        assert_eq!(end, number.len());
        assert_eq!(parts.is_in_range(), parts.reduced().is_some());
        let reduced = parts.reduced()?;
        let digits = reduced.digits.concat();
        assert_eq!(digits, reduced.mantissa().to_string().into_bytes());
        Some((reduced.mantissa(), reduced.exponent))
    }

    #[test]
    fn reduced_values() {
        for (number, value) in [
            ("0.0500e3", Some((5, 1))),
            ("000", Some((0, 0))),
            ("00.000e-9999", Some((0, 0))),
            ("0e10000", None),
            ("1200.3400", Some((120_034, -2))),
            ("1200.000", Some((12, 2))),
            ("0.00120", Some((12, -4))),
            ("100", Some((1, 2))),
            ("1e999", Some((1, 999))),
            ("1e1000", None),
            ("10e999", None),
            ("0.1e1000", Some((1, 999))),
            ("0.1e-999", None),
            ("123456789012345678", Some((123_456_789_012_345_678, 0))),
            ("1234567890123456789", None),
            (
                "0001234567890.12345678000",
                Some((123_456_789_012_345_678, -8)),
            ),
        ] {
            assert_eq!(reduced(number), value, "{number}");
        }
    }

    #[test]
    fn extents() {
        let signs = |whole| [false, true].map(|negative| is_extent(whole, negative));
        for whole in [&b"0"[..], b"00000000000000", b"999999999", b"1000000000"] {
            assert_eq!(signs(whole), [true, true]);
        }
        for whole in [&b"2147483647"[..], b"0002147483647"] {
            assert_eq!(signs(whole), [true, true]);
        }
        for whole in [&b"2147483648"[..], b"0002147483648"] {
            assert_eq!(signs(whole), [false, true]);
        }
        for whole in [
            &b"2147483649"[..],
            b"02147483649",
            b"9999999999",
            b"10000000000",
        ] {
            assert_eq!(signs(whole), [false, false]);
        }
        assert_eq!(
            [plain(b"000"), plain(b"01"), plain(b"10")],
            [&b"0"[..], b"1", b"10"]
        );
    }

    #[test]
    fn zeros() {
        for number in ["0", "000", "0.0", "0e5", "00.000E-9999"] {
            assert!(is_zero(number.as_bytes()), "{number}");
        }
        for number in ["1", "10", "0.01", "1e0", "100.0e-10"] {
            assert!(!is_zero(number.as_bytes()), "{number}");
        }
    }
}
