//! Numbers as people read them.

/// The most digits that a number may have without the zeros at both ends.
pub const MOST_DIGITS: usize = 18;
/// The greatest power of ten, above and below zero, that may go with these digits as a whole number.
pub const GREATEST_EXPONENT: usize = 999;

/// Longer decimals than this are shown with an exponent.
const LONGEST: usize = 24;

/// A number of a canonical text in decimal: `-484813681109536e-20` is `-0.00000484813681109536`. Any other spelling stays.
pub fn decimal(number: &str) -> String {
    match number.strip_prefix('-') {
        Some(size) => format!("-{}", unsigned(size)),
        None => unsigned(number),
    }
}

/// The same for a number without its sign.
fn unsigned(number: &str) -> String {
    let Some((mantissa, exponent)) = number.split_once('e').filter(|(mantissa, _)| mantissa.bytes().all(|byte| byte.is_ascii_digit()))
    else {
        return number.to_string();
    };
    let Ok(exponent) = exponent.parse::<i32>() else {
        return number.to_string();
    };
    let plain = plain(mantissa, exponent);
    if plain.len() <= LONGEST {
        return plain;
    }
    let (first, rest) = mantissa.split_at(1.min(mantissa.len()));
    let exponent = exponent + rest.len() as i32;
    match rest {
        "" => format!("{first}e{exponent}"),
        _ => format!("{first}.{rest}e{exponent}"),
    }
}

fn plain(mantissa: &str, exponent: i32) -> String {
    let size = exponent.unsigned_abs() as usize;
    if exponent >= 0 {
        return format!("{mantissa}{}", "0".repeat(size));
    }
    let digits = format!("{}{mantissa}", "0".repeat((size + 1).saturating_sub(mantissa.len())));
    let (whole, fraction) = digits.split_at(digits.len() - size);
    format!("{whole}.{fraction}")
}

/// A count in words where that reads better.
pub fn times(count: usize) -> String {
    match count {
        0 => "not at all".to_string(),
        1 => "once".to_string(),
        2 => "twice".to_string(),
        _ => format!("{count} times"),
    }
}

/// A count and what is counted: `1 call`, `2 calls`.
pub fn counted(count: usize, what: &str) -> String {
    match count {
        1 => format!("1 {what}"),
        _ => format!("{count} {what}s"),
    }
}

#[cfg(test)]
mod tests {
    use super::decimal;

    #[test]
    fn decimals() {
        for (canonical, shown) in [
            ("5e-1", "0.5"),
            ("0e0", "0"),
            ("2016e0", "2016"),
            ("125e-4", "0.0125"),
            ("12e3", "12000"),
            ("1e999", "1e999"),
            ("123e-999", "1.23e-997"),
            ("484813681109536e-20", "0.00000484813681109536"),
            ("512", "512"),
            ("4.8e-6", "4.8e-6"),
            ("-5e-1", "-0.5"),
            ("-12e3", "-12000"),
            ("-1e999", "-1e999"),
            ("-123e-999", "-1.23e-997"),
            ("-1", "-1"),
        ] {
            assert_eq!(decimal(canonical), shown);
        }
    }
}
