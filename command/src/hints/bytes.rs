//! Faults of bytes: codes 2 to 8.

use super::Hint;
use crate::escape::{escaped, escaped_byte};
use crate::number::{GREATEST_EXPONENT, MOST_DIGITS};
use sluicegnome::{limits, Code, Refusal};

pub fn hint(plain: Hint, text: &[u8], fault: &Refusal) -> Hint {
    let rest = text.get(fault.position..).unwrap_or_default();
    match fault.code {
        Code::NoToken => no_token(plain, fault.position, rest),
        Code::NumberMisspelt => misspelt(plain, rest),
        Code::BadString => bad_string(plain, rest),
        Code::TokenTooLong => too_long(plain, rest),
        Code::OutOfRange => out_of_range(plain, rest),
        _ => plain,
    }
}

fn no_token(plain: Hint, position: usize, rest: &[u8]) -> Hint {
    let Some(&byte) = rest.first() else {
        return plain;
    };
    let says = |shown: &str| format!("{shown} begins no token");
    match rest {
        [0xEF, 0xBB, 0xBF, ..] | [0xFF, 0xFE, ..] | [0xFE, 0xFF, ..] if position == 0 => byte_order_mark(plain, byte),
        [0xE2, 0x80, 0x98..=0x9F, ..] => {
            plain.says(says("a curly quote")).caused_by("the text was copied from a word processor").helped_by("write `'` or `\"`").long(3)
        }
        [0xC2, 0xA0, ..] => {
            plain.says(says("a no-break space")).caused_by("the text was copied from a web page").helped_by("write a blank").long(2)
        }
        [b'.', b'0'..=b'9', ..] => {
            plain.says(says("`.`")).caused_by("a number begins with a digit").helped_by("write `0` before the point")
        }
        [b'?', ..] => plain
            .says(says("`?`"))
            .caused_by("types that are left open, as `<?>` in NNEF 1.0, are not read")
            .helped_by("write `tensor` for `tensor<?>`, and the operation's name alone"),
        [b'&' | b'|', ..] => plain
            .says(says(&format!("a single `{}`", byte as char)))
            .caused_by("the operators are `&&` and `||`; none is read in flat graphs"),
        _ => match letter(rest) {
            Some(letter) => plain
                .says(says(&format!("`{letter}`")))
                .caused_by("names and numbers are of ASCII letters and digits; only comments hold others")
                .helped_by("write it with letters of ASCII")
                .long(letter.len_utf8()),
            None => plain.says(says(&format!("`{}`", escaped_byte(byte)))),
        },
    }
}

/// The mark that editors put before a text in UTF-8 or in UTF-16.
fn byte_order_mark(plain: Hint, first: u8) -> Hint {
    match first {
        0xEF => plain
            .says("the text begins with a byte order mark".to_string())
            .caused_by("an editor saved the file as \"UTF-8 with BOM\"")
            .helped_by("save it without the mark; these are the first three bytes")
            .long(3),
        _ => plain
            .says("the text begins with the mark of UTF-16".to_string())
            .caused_by("an editor saved the file in two bytes a letter")
            .helped_by("save it as plain ASCII or UTF-8")
            .long(2),
    }
}

/// The letter outside ASCII that these bytes begin with.
fn letter(bytes: &[u8]) -> Option<char> {
    let letter = bytes.utf8_chunks().next()?.valid().chars().next()?;
    (!letter.is_ascii() && letter.is_alphanumeric()).then_some(letter)
}

fn misspelt(plain: Hint, rest: &[u8]) -> Hint {
    let length = run(rest, |byte| byte.is_ascii_alphanumeric() || byte == b'_' || byte == b'.');
    let number = escaped(&rest[..length]);
    let digits = number.trim_start_matches(|c: char| c.is_ascii_digit());
    let plain = plain.says(format!("the number `{number}` is misspelt")).long(length);
    let zero = number.starts_with("0x") || number.starts_with("0X");
    match digits {
        _ if zero => plain.caused_by("numbers are decimal").helped_by("write it in decimal"),
        "." => plain.caused_by("a point has digits on both sides").helped_by(format!("write `{number}0`")),
        "e" | "E" => plain.caused_by("an exponent has digits").helped_by(format!("write `{number}0`, or leave the `{digits}` out")),
        _ if !digits.starts_with('.') && !digits.starts_with(['e', 'E']) => plain.caused_by("a name may not begin with a digit"),
        _ => plain,
    }
}

fn bad_string(plain: Hint, rest: &[u8]) -> Hint {
    let quote = rest.first().copied().unwrap_or(b'\'');
    let content = run(rest.get(1..).unwrap_or_default(), |byte| byte != quote && (32..=126).contains(&byte));
    let plain = plain.long(content + 1);
    match rest.get(content + 1) {
        None => {
            plain.says("the string is not closed before the text ends".to_string()).helped_by(format!("close it with `{}`", quote as char))
        }
        Some(b'\n' | b'\r') => {
            plain.says("the string is not closed in its line".to_string()).helped_by(format!("close it with `{}`", quote as char))
        }
        Some(&byte) => plain
            .says(match letter(&rest[content + 1..]) {
                Some(letter) => format!("the string holds `{letter}`"),
                None => format!("the string holds the byte `{}`", escaped_byte(byte)),
            })
            .caused_by("strings hold printable ASCII alone")
            .helped_by("write it with letters of ASCII"),
    }
}

fn too_long(plain: Hint, rest: &[u8]) -> Hint {
    let Some(&first) = rest.first() else {
        return plain;
    };
    let (what, length, most) = match first {
        b'\'' | b'"' => ("string", run(&rest[1..], |byte| byte != first), limits::STRING_BYTES),
        b'0'..=b'9' => ("number", number_length(rest), limits::NUMBER_BYTES),
        _ => ("name", run(rest, |byte| byte.is_ascii_alphanumeric() || byte == b'_'), limits::NAME_BYTES),
    };
    plain
        .says(format!("the {what} has {length} bytes; at most {most} may stand there"))
        .caused_by("a generated name or text, or a missing blank or quote")
        .long(length)
}

fn out_of_range(plain: Hint, rest: &[u8]) -> Hint {
    let length = number_length(rest);
    let number = escaped(&rest[..length]);
    let mantissa = number.split(['e', 'E']).next().unwrap_or_default().replace('.', "");
    let digits = mantissa.trim_matches('0').len();
    let plain = plain.says(format!("the number `{number}` is out of range")).long(length);
    match digits {
        _ if digits > MOST_DIGITS => {
            plain.caused_by(format!("it has {digits} significant digits")).helped_by(format!("round it to {MOST_DIGITS} digits or fewer"))
        }
        _ => plain
            .caused_by("it is too large or too small")
            .helped_by(format!("its digits as a whole number go with a power of ten from -{GREATEST_EXPONENT} to {GREATEST_EXPONENT}")),
    }
}

/// The length of the number that these bytes begin with.
fn number_length(rest: &[u8]) -> usize {
    let digits = run(rest, |byte| byte.is_ascii_digit() || byte == b'.');
    let sign = match rest[digits..] {
        [b'e' | b'E', b'+' | b'-', ..] => 2,
        [b'e' | b'E', ..] => 1,
        _ => return digits,
    };
    digits + sign + run(&rest[digits + sign..], |byte| byte.is_ascii_digit())
}

/// How many bytes from the first on are such.
fn run(bytes: &[u8], such: impl Fn(u8) -> bool) -> usize {
    bytes.iter().position(|&byte| !such(byte)).unwrap_or(bytes.len())
}
