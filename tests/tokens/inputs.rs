//! Random texts of several sorts, from good ones to noise.

use nnef_random::{damage_bytes, gap, join, Lines, Rng, SYMBOLS, WORD_BYTES};

pub type Maker = fn(&mut Rng) -> Vec<u8>;

/// The sorts of text, with their names.
pub const SORTS: &[(&str, Maker)] = &[
    ("tokens", good_text),
    ("damaged tokens", damaged_text),
    ("random bytes", random_bytes),
    ("random symbols", random_symbols),
    ("long token", text_with_long_token),
    ("number near its range", text_with_far_number),
    ("many tokens", many_tokens),
    ("long text", long_text),
];

const LETTERS: &[u8] = b"abcdefghijklmnopqrstuvwxyzABCDEFGHIJKLMNOPQRSTUVWXYZ_";
/// How many times in a hundred tokens that could touch have a gap between them.
const GAPS: usize = 50;
const DIGITS: &[u8] = b"0123456789";
#[rustfmt::skip]
const WORDS: &[&[u8]] = &[
    b"graph", b"fragment", b"tensor", b"extent", b"scalar", b"logical", b"string", b"shape_of",
    b"length_of", b"range_of", b"for", b"in", b"if", b"else", b"version", b"true", b"false",
];
#[rustfmt::skip]
const MARKS: &[&[u8]] = &[
    b"+", b"-", b"*", b"/", b"^", b"<", b"<=", b">", b">=", b"==", b"!=", b"&&", b"||", b"!",
    b"(", b")", b"[", b"]", b"{", b"}", b":", b"=", b",", b";", b"->",
];
#[rustfmt::skip]
const FAULTS: &[&[u8]] = &[
    b"@", b".", b"&", b"1.", b"2x", b"3e+", b"'a", b"\"\x7f\"", b"1e1000", b"1e-1000",
];

/// A good text of some tokens, mostly short.
fn good_text(rng: &mut Rng) -> Vec<u8> {
    let longest = rng.pick(&[1, 4, 16, 64, 400]);
    let count = rng.between(0, longest);
    sequence(rng, count)
}

/// A good text with a few edits.
fn damaged_text(rng: &mut Rng) -> Vec<u8> {
    let mut text = good_text(rng);
    for _ in 0..rng.between(1, 4) {
        damage_bytes(rng, &mut text);
    }
    text
}

fn random_bytes(rng: &mut Rng) -> Vec<u8> {
    let length = rng.between(0, 80);
    (0..length).map(|_| rng.byte()).collect()
}

fn random_symbols(rng: &mut Rng) -> Vec<u8> {
    let longest = rng.pick(&[3, 6, 12, 40]);
    let length = rng.between(0, longest);
    rng.picks(SYMBOLS, length)
}

/// Some tokens, a name, string or number near its longest length, more tokens.
fn text_with_long_token(rng: &mut Rng) -> Vec<u8> {
    let token = match rng.below(3) {
        0 => {
            let length = rng.between(63, 66);
            name(rng, length)
        }
        1 => {
            let length = rng.between(127, 130);
            string(rng, length)
        }
        _ => {
            let length = rng.between(63, 66);
            long_number(rng, length)
        }
    };
    surrounded(rng, &token)
}

/// Some tokens, a number near the ends of its range, more tokens.
fn text_with_far_number(rng: &mut Rng) -> Vec<u8> {
    let token = far_number(rng);
    surrounded(rng, &token)
}

/// Near the most tokens, sometimes with a fault near the last one.
fn many_tokens(rng: &mut Rng) -> Vec<u8> {
    const SHORT: &[&[u8]] = &[b"a", b"in", b"7", b"=", b"->", b"<=", b"(", b",", b"''"];
    let count = rng.between(4095, 4098);
    let faulty = if rng.percent(30) {
        rng.between(4094, 4098)
    } else {
        usize::MAX
    };
    let mut text = Vec::new();
    for place in 0..count {
        if place == faulty {
            text.extend(fault(rng));
        } else {
            text.extend(rng.pick(SHORT));
        }
        text.push(rng.pick(b" \n"));
    }
    if rng.percent(20) {
        text.pop();
    }
    text
}

/// Near the longest text.
fn long_text(rng: &mut Rng) -> Vec<u8> {
    let length = rng.between(16_383, 16_386);
    let mut text = match rng.below(4) {
        0 => vec![b' '; length],
        1 => vec![b'#'; length],
        _ => sequence(rng, 3_000),
    };
    while text.len() < length {
        let token = good_token(rng);
        join(rng, Lines::Any, GAPS, &mut text, &token);
    }
    text.truncate(length);
    text
}

/// So many good tokens with gaps between them.
fn sequence(rng: &mut Rng, count: usize) -> Vec<u8> {
    let mut text = Vec::new();
    for _ in 0..count {
        let token = good_token(rng);
        join(rng, Lines::Any, GAPS, &mut text, &token);
    }
    if rng.percent(30) {
        text.extend(gap(rng, Lines::Any));
    }
    text
}

fn surrounded(rng: &mut Rng, token: &[u8]) -> Vec<u8> {
    let before = rng.pick(&[0, 0, 1, 5]);
    let mut text = sequence(rng, before);
    join(rng, Lines::Any, GAPS, &mut text, token);
    for _ in 0..rng.pick(&[0, 0, 1, 5]) {
        let next = good_token(rng);
        join(rng, Lines::Any, GAPS, &mut text, &next);
    }
    text
}

fn good_token(rng: &mut Rng) -> Vec<u8> {
    match rng.below(8) {
        0 | 1 => {
            let length = rng.between(1, 12);
            name(rng, length)
        }
        2 => rng.pick(WORDS).to_vec(),
        3 => near_word(rng),
        4 => number(rng),
        5 => {
            let length = rng.between(0, 12);
            string(rng, length)
        }
        _ => rng.pick(MARKS).to_vec(),
    }
}

fn name(rng: &mut Rng, length: usize) -> Vec<u8> {
    let mut name = vec![rng.pick(LETTERS)];
    name.extend(rng.picks(WORD_BYTES, length - 1));
    name
}

/// A name that differs little from a keyword, `true` or `false`.
fn near_word(rng: &mut Rng) -> Vec<u8> {
    let mut word = rng.pick(WORDS).to_vec();
    let place = rng.below(word.len());
    match rng.below(4) {
        0 => word.push(rng.pick(WORD_BYTES)),
        1 => word[place] = rng.pick(LETTERS),
        2 => word[place] = word[place].to_ascii_uppercase(),
        _ => word.truncate(place.max(1)),
    }
    word
}

/// A string with this length between its quotes.
fn string(rng: &mut Rng, length: usize) -> Vec<u8> {
    let quote = rng.pick(b"'\"");
    let mut string = vec![quote];
    string.extend((0..length).map(|_| match rng.between(32, 126) as u8 {
        b if b == quote => b' ',
        b => b,
    }));
    string.push(quote);
    string
}

/// A number that is in range.
fn number(rng: &mut Rng) -> Vec<u8> {
    let length = rng.between(1, 8);
    let mut number = rng.picks(DIGITS, length);
    if rng.percent(40) {
        let length = rng.between(1, 8);
        number.push(b'.');
        number.extend(rng.picks(DIGITS, length));
    }
    if rng.percent(30) {
        let length = rng.between(1, 2);
        number.extend(exponent_mark(rng));
        number.extend(rng.picks(DIGITS, length));
    }
    number
}

/// `e` or `E` with a sign or none.
fn exponent_mark(rng: &mut Rng) -> Vec<u8> {
    rng.pick(&[&b"e"[..], b"E", b"e+", b"E+", b"e-", b"E-"])
        .to_vec()
}

/// A number of this many bytes, in range or not.
fn long_number(rng: &mut Rng, length: usize) -> Vec<u8> {
    let mut tail = Vec::new();
    if rng.percent(50) {
        tail.extend(exponent_mark(rng));
        tail.extend(rng.pick(&[&b"0"[..], b"7", b"980", b"00000999", b"12345678"]));
    }
    let significant = rng.between(0, 20);
    let mut number = vec![b'0'; length - tail.len()];
    let from = rng.below(number.len() - significant);
    for digit in &mut number[from..from + significant] {
        *digit = rng.pick(DIGITS);
    }
    if rng.percent(60) {
        let point = rng.between(1, number.len() - 2);
        number[point] = b'.';
    }
    number.extend(tail);
    number
}

/// A number whose digits, written exponent or reduced exponent are near the
/// ends of their range.
fn far_number(rng: &mut Rng) -> Vec<u8> {
    let zeros_before = rng.pick(&[0, 0, 1, 5]);
    let zeros_after = rng.pick(&[0, 0, 1, 2, 9]);
    let significant = rng.pick(&[0, 1, 2, 17, 18, 19, 20]);
    let mut digits = vec![b'0'; zeros_before];
    digits.extend(rng.picks(DIGITS, significant));
    digits.extend(vec![b'0'; zeros_after]);
    if digits.is_empty() {
        digits.push(b'0');
    }
    let trailing = digits.iter().rev().take_while(|&&d| d == b'0').count() as i64;
    let fraction = if rng.percent(60) {
        rng.below(digits.len())
    } else {
        0
    };
    let written = if rng.percent(25) {
        signed(rng, &[9_998, 9_999, 10_000, 10_001, 99_999, 4_294_967_296])
    } else {
        let reduced = signed(rng, &[0, 1, 997, 998, 999, 1_000, 1_001]);
        reduced + fraction as i64 - trailing
    };
    if fraction > 0 {
        digits.insert(digits.len() - fraction, b'.');
    }
    if written != 0 || rng.percent(50) {
        digits.extend(exponent(rng, written));
    }
    digits
}

fn signed(rng: &mut Rng, sizes: &[i64]) -> i64 {
    let size = rng.pick(sizes);
    if rng.percent(50) {
        -size
    } else {
        size
    }
}

/// This exponent as written, with or without zeros before it.
fn exponent(rng: &mut Rng, value: i64) -> Vec<u8> {
    let mut bytes = vec![rng.pick(b"eE")];
    if value < 0 {
        bytes.push(b'-');
    } else if rng.percent(50) {
        bytes.push(b'+');
    }
    bytes.extend(vec![b'0'; rng.pick(&[0, 0, 0, 1, 12])]);
    bytes.extend(value.abs().to_string().bytes());
    bytes
}

/// Something that is refused.
fn fault(rng: &mut Rng) -> Vec<u8> {
    if rng.percent(25) {
        return name(rng, 65);
    }
    rng.pick(FAULTS).to_vec()
}
