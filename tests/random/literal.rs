//! Literals: their canonical spelling, and others that read the same.

use crate::rng::Rng;

/// The longest number.
const NUMBER_BYTES: usize = 64;

/// The digits of the least extent, which are none without their sign.
const LEAST_EXTENT: &str = "2147483648";

/// A literal's canonical spelling, read at a basic type. Zero has no sign.
pub fn canonical(literal: &str, basic: &str) -> String {
    let (sign, rest) = signed(literal);
    match rest.as_bytes()[0] {
        b'0'..=b'9' => {
            let spelling = canonical_number(rest, basic);
            let sign = sign.filter(|_| !is_zero(rest)).unwrap_or_default();
            format!("{sign}{spelling}")
        }
        b'\'' | b'"' => quoted(content(rest), '\''),
        _ => rest.to_string(),
    }
}

/// Some spelling that reads the same at a basic type. Zero has a sign or none.
pub fn respelt(rng: &mut Rng, literal: &str, basic: &str) -> String {
    let (sign, rest) = signed(literal);
    match rest.as_bytes()[0] {
        b'0'..=b'9' => {
            let zero_sign = rng.pick(&[None, Some("-")]);
            let sign = if is_zero(rest) { zero_sign } else { sign };
            let number = respelt_number(rng, rest, basic);
            format!("{}{number}", sign.unwrap_or_default())
        }
        b'\'' | b'"' => quoted(content(rest), rng.pick(&['\'', '"'])),
        _ => rest.to_string(),
    }
}

/// The sign of a number, if it has one, and what stands behind it.
pub fn signed(literal: &str) -> (Option<&str>, &str) {
    match literal.strip_prefix('-') {
        Some(number) => (Some("-"), number),
        None => (None, literal),
    }
}

/// A number with the other sign, unless that fits no extent, or what else a
/// literal is.
pub fn negated(literal: &str) -> String {
    let (sign, rest) = signed(literal);
    let is_number = rest.as_bytes()[0].is_ascii_digit();
    match sign {
        Some(_) if significant(rest) != LEAST_EXTENT => rest.to_string(),
        None if is_number => format!("-{rest}"),
        _ => literal.to_string(),
    }
}

/// A number's canonical spelling without its sign.
fn canonical_number(number: &str, basic: &str) -> String {
    match basic {
        "extent" => significant(number).to_string(),
        _ => Decimal::of(number).canonical(),
    }
}

fn respelt_number(rng: &mut Rng, number: &str, basic: &str) -> String {
    match basic {
        "extent" => format!("{}{number}", zeros(rng)),
        _ => Decimal::of(number).spelt(rng),
    }
}

fn is_zero(number: &str) -> bool {
    Decimal::of(number).digits == "0"
}

/// A whole number without zeros before it.
fn significant(whole: &str) -> &str {
    match whole.trim_start_matches('0') {
        "" => "0",
        rest => rest,
    }
}

/// What stands between a string's quotes.
fn content(string: &str) -> &str {
    &string[1..string.len() - 1]
}

/// A string in these quotes, or in the others where it holds one of these.
fn quoted(content: &str, quote: char) -> String {
    let other = if quote == '"' { '\'' } else { '"' };
    let quote = if content.contains(quote) {
        other
    } else {
        quote
    };
    format!("{quote}{content}{quote}")
}

/// A few zeros, often none.
fn zeros(rng: &mut Rng) -> String {
    "0".repeat(rng.pick(&[0, 0, 0, 1, 2, 5]))
}

/// A number's digits without zeros at their ends, and the exponent that goes with them.
struct Decimal {
    digits: String,
    exponent: i32,
}

impl Decimal {
    fn of(spelling: &str) -> Decimal {
        let lower = spelling.to_lowercase();
        let (mantissa, exponent) = lower.split_once('e').unwrap_or((&lower, "0"));
        let (whole, fraction) = mantissa.split_once('.').unwrap_or((mantissa, ""));
        let all = format!("{whole}{fraction}");
        let kept = all.trim_end_matches('0');
        let dropped = (all.len() - kept.len()) as i32;
        let exponent: i32 = exponent.parse().expect("an exponent is a number");
        match kept.trim_start_matches('0') {
            "" => Decimal {
                digits: "0".to_string(),
                exponent: 0,
            },
            digits => Decimal {
                digits: digits.to_string(),
                exponent: exponent - fraction.len() as i32 + dropped,
            },
        }
    }

    fn canonical(&self) -> String {
        format!("{}e{}", self.digits, self.exponent)
    }

    /// Some spelling: with zeros at the ends, a point anywhere, and the exponent
    /// that this asks for.
    fn spelt(&self, rng: &mut Rng) -> String {
        let plain = if (-30..=30).contains(&self.exponent) {
            self.exponent
        } else {
            0
        };
        let behind = rng.pick(&[0, 1, 3, plain.max(0)]);
        let fraction = rng.pick(&[0, 1, 2, 7, (behind - plain).max(0)]) as usize;
        let digits = format!(
            "{}{}{}",
            zeros(rng),
            self.digits,
            "0".repeat(behind as usize)
        );
        let digits = format!("{digits:0>width$}", width = fraction + 1);
        let (whole, fraction) = digits.split_at(digits.len() - fraction);
        let exponent = match self.digits.as_str() {
            "0" => rng.pick(&[0, 0, 5, -7, 9_999]),
            _ => self.exponent - behind + fraction.len() as i32,
        };
        let mut spelling = whole.to_string();
        if !fraction.is_empty() {
            spelling += ".";
            spelling += fraction;
        }
        if exponent != 0 || rng.percent(20) {
            let sign = match exponent {
                0 => rng.pick(&["", "+", "-"]),
                1.. => rng.pick(&["", "+"]),
                _ => "-",
            };
            spelling += rng.pick(&["e", "E"]);
            spelling += sign;
            spelling += &zeros(rng);
            spelling += &exponent.abs().to_string();
        }
        if spelling.len() <= NUMBER_BYTES {
            spelling
        } else {
            self.canonical()
        }
    }
}
