//! Bytes into tokens.

use crate::codes;
use crate::fault::Fault;
use crate::limits;
use crate::number::{self, Parts};
use crate::token::{Symbol, Token};

/// What a byte can begin.
#[derive(Clone, Copy, PartialEq, Eq)]
enum Class {
    Nothing,
    Blank,
    Comment,
    Letter,
    Digit,
    Quote,
    /// A token of this byte alone, whatever comes next; `SINGLES` says which.
    Single,
    /// A token of one or of two bytes.
    Double,
}

static CLASSES: [Class; 256] = classes();
static SINGLES: [Symbol; 256] = singles();
/// Whether a byte goes on with a word: a letter or a digit.
static WORD: [bool; 256] = word_bytes();

const fn classes() -> [Class; 256] {
    let mut table = [Class::Nothing; 256];
    let mut byte = 0;
    while byte < 256 {
        table[byte] = match byte as u8 {
            9..=13 | b' ' => Class::Blank,
            b'#' => Class::Comment,
            b'A'..=b'Z' | b'a'..=b'z' | b'_' => Class::Letter,
            b'0'..=b'9' => Class::Digit,
            b'\'' | b'"' => Class::Quote,
            b'-' | b'<' | b'>' | b'=' | b'!' | b'&' | b'|' => Class::Double,
            b'+' | b'*' | b'/' | b'^' | b':' | b',' | b';' => Class::Single,
            b'(' | b')' | b'[' | b']' | b'{' | b'}' => Class::Single,
            _ => Class::Nothing,
        };
        byte += 1;
    }
    table
}

const fn singles() -> [Symbol; 256] {
    let mut table = [Symbol::Operator; 256];
    table[b'(' as usize] = Symbol::OpenRound;
    table[b')' as usize] = Symbol::CloseRound;
    table[b'[' as usize] = Symbol::OpenSquare;
    table[b']' as usize] = Symbol::CloseSquare;
    table[b'{' as usize] = Symbol::OpenCurly;
    table[b'}' as usize] = Symbol::CloseCurly;
    table[b':' as usize] = Symbol::Colon;
    table[b',' as usize] = Symbol::Comma;
    table[b';' as usize] = Symbol::Semicolon;
    table
}

const fn word_bytes() -> [bool; 256] {
    let mut table = [false; 256];
    let mut byte = 0;
    while byte < 256 {
        table[byte] = matches!(CLASSES[byte], Class::Letter | Class::Digit);
        byte += 1;
    }
    table
}

fn class(byte: u8) -> Class {
    CLASSES[usize::from(byte)]
}

/// Refuses a text that is too long.
pub fn length(text: &[u8]) -> Result<(), Fault> {
    if text.len() > limits::TEXT_BYTES {
        return fault(codes::TEXT_TOO_LONG, limits::TEXT_BYTES);
    }
    Ok(())
}

/// The tokens of a text in order and its end behind them, or its first fault.
/// The text is not too long.
pub fn lex(text: &[u8]) -> Result<Vec<Token>, Fault> {
    let mut tokens = Vec::with_capacity(text.len().min(limits::TOKENS) + 1);
    let mut at = 0;
    let mut line = 1;
    loop {
        let Some(&byte) = text.get(at) else {
            tokens.push(token(Symbol::End, at, at, line));
            return Ok(tokens);
        };
        let (symbol, end) = match class(byte) {
            // Every line feed is a blank: a comment ends before its own, and no
            // token holds one.
            Class::Blank => {
                line += u16::from(byte == b'\n');
                at += 1;
                continue;
            }
            Class::Single => (SINGLES[usize::from(byte)], at + 1),
            Class::Letter => word(text, at)?,
            Class::Digit => number(text, at)?,
            Class::Double => double(text, at)?,
            Class::Quote => string(text, at)?,
            Class::Comment => {
                at = span(text, at, |b| b != b'\n');
                continue;
            }
            Class::Nothing => return fault(codes::NO_TOKEN, at),
        };
        if tokens.len() == limits::TOKENS {
            return fault(codes::TOO_MANY_TOKENS, at);
        }
        tokens.push(token(symbol, at, end, line));
        at = end;
    }
}

fn token(symbol: Symbol, start: usize, end: usize, line: u16) -> Token {
    Token {
        start: start as u16,
        end: end as u16,
        line,
        symbol,
    }
}

#[cold]
fn fault<T>(code: u32, position: usize) -> Result<T, Fault> {
    Err(Fault::new(code, position as u32))
}

/// The end of the run of bytes from `from` on that `belongs` holds for.
fn span(text: &[u8], from: usize, belongs: impl Fn(u8) -> bool) -> usize {
    let rest = &text[from..];
    from + rest.iter().position(|&b| !belongs(b)).unwrap_or(rest.len())
}

/// A name, a keyword, `true` or `false`.
fn word(text: &[u8], start: usize) -> Result<(Symbol, usize), Fault> {
    let end = span(text, start + 1, |b| WORD[usize::from(b)]);
    if end - start > limits::NAME_BYTES {
        return fault(codes::TOKEN_TOO_LONG, start);
    }
    Ok((word_symbol(&text[start..end]), end))
}

/// The first byte leaves three words at most to compare with.
fn word_symbol(word: &[u8]) -> Symbol {
    match (word[0], word) {
        (b'e', b"extent") => Symbol::Extent,
        (b'e', b"else") => Symbol::Reserved,
        (b'f', b"fragment") => Symbol::Fragment,
        (b'f', b"false") => Symbol::Truth,
        (b'f', b"for") => Symbol::Reserved,
        (b'g', b"graph") => Symbol::Graph,
        (b'i', b"in" | b"if") => Symbol::Reserved,
        (b'l', b"logical") => Symbol::Logical,
        (b'l', b"length_of") => Symbol::Reserved,
        (b'r', b"range_of") => Symbol::Reserved,
        (b's', b"scalar") => Symbol::Scalar,
        (b's', b"string") => Symbol::StringType,
        (b's', b"shape_of") => Symbol::Reserved,
        (b't', b"tensor") => Symbol::Tensor,
        (b't', b"true") => Symbol::Truth,
        (b'v', b"version") => Symbol::Version,
        _ => Symbol::Name,
    }
}

/// A string: anything printable between two equal quotes, without escapes.
fn string(text: &[u8], start: usize) -> Result<(Symbol, usize), Fault> {
    let quote = text[start];
    let close = span(text, start + 1, |b| b != quote && (32..=126).contains(&b));
    if text.get(close) != Some(&quote) {
        return fault(codes::BAD_STRING, start);
    }
    if close - (start + 1) > limits::STRING_BYTES {
        return fault(codes::TOKEN_TOO_LONG, start);
    }
    Ok((Symbol::String, close + 1))
}

/// A token that begins with a mark which can begin one of two bytes; the longer
/// one where both are there.
fn double(text: &[u8], start: usize) -> Result<(Symbol, usize), Fault> {
    let next = text.get(start + 1).copied();
    let (symbol, length) = match (text[start], next) {
        (b'-', Some(b'>')) => (Symbol::Arrow, 2),
        (b'<' | b'>' | b'=' | b'!', Some(b'=')) => (Symbol::Operator, 2),
        (b'&', Some(b'&')) | (b'|', Some(b'|')) => (Symbol::Operator, 2),
        (b'&' | b'|', _) => return fault(codes::NO_TOKEN, start),
        (b'=', _) => (Symbol::Equals, 1),
        (b'-', _) => (Symbol::Minus, 1),
        _ => (Symbol::Operator, 1),
    };
    Ok((symbol, start + length))
}

/// A number: digits, then a point and digits or not, then an exponent or not.
fn number(text: &[u8], start: usize) -> Result<(Symbol, usize), Fault> {
    // Few digits without an exponent are in range whatever they are.
    let whole_end = number::digits_end(text, start + 1);
    let end = number::fraction_end(text, whole_end);
    if end - start <= limits::MANTISSA_DIGITS && !goes_on(text, end) {
        return Ok((number_symbol(end == whole_end), end));
    }
    let (parts, end) = Parts::from([start, whole_end, end], text);
    if goes_on(text, end) {
        return fault(codes::NUMBER_MISSPELT, start);
    }
    if end - start > limits::NUMBER_BYTES {
        return fault(codes::TOKEN_TOO_LONG, start);
    }
    if !parts.is_in_range() {
        return fault(codes::OUT_OF_RANGE, start);
    }
    Ok((number_symbol(parts.is_whole()), end))
}

fn number_symbol(is_whole: bool) -> Symbol {
    if is_whole {
        Symbol::Whole
    } else {
        Symbol::Real
    }
}

/// Whether a byte follows that no number may have behind it.
fn goes_on(text: &[u8], end: usize) -> bool {
    text.get(end)
        .is_some_and(|&b| b == b'.' || class(b) == Class::Letter)
}
