//! Words into bytes.

use crate::rng::Rng;

/// What a word is in a document's body, where tables or counts speak of it.
#[derive(Clone, Copy, PartialEq, Eq)]
pub enum Role {
    Plain,
    Assigned,
    Operation,
    Used,
}

#[derive(Clone)]
pub struct Word {
    pub spelling: String,
    pub role: Role,
}

impl Word {
    pub fn new(spelling: &str, role: Role) -> Word {
        Word {
            spelling: spelling.to_string(),
            role,
        }
    }

    pub fn plain(spelling: &str) -> Word {
        Word::new(spelling, Role::Plain)
    }
}

/// Whether a text may have several lines.
#[derive(Clone, Copy, PartialEq, Eq)]
pub enum Lines {
    Any,
    One,
}

/// The bytes of names and numbers, which may not touch.
pub const WORD_BYTES: &[u8] = b"abcdefghijklmnopqrstuvwxyzABCDEFGHIJKLMNOPQRSTUVWXYZ_0123456789";

/// Spells words, and gives the text with the place of each word in it.
pub fn spell(rng: &mut Rng, lines: Lines, words: &[Word]) -> (Vec<u8>, Vec<usize>) {
    let gaps = rng.pick(&[0, 20, 50, 100]);
    let mut text = Vec::new();
    let mut places = Vec::with_capacity(words.len());
    for word in words {
        join(rng, lines, gaps, &mut text, word.spelling.as_bytes());
        places.push(text.len() - word.spelling.len());
    }
    if rng.percent(20) {
        text.extend(gap(rng, lines));
    }
    if rng.percent(10) {
        text.extend(b"# end");
    }
    (text, places)
}

/// Appends a token, with a gap before it wherever it needs one, and otherwise
/// this many times in a hundred.
pub fn join(rng: &mut Rng, lines: Lines, gaps: usize, text: &mut Vec<u8>, token: &[u8]) {
    let may_touch = match (text.last(), token.first()) {
        (Some(last), Some(first)) => !(WORD_BYTES.contains(last) && WORD_BYTES.contains(first)),
        _ => true,
    };
    if !may_touch || rng.percent(gaps) {
        text.extend(gap(rng, lines));
    }
    text.extend(token);
}

/// White space or, where there may be several lines, a comment.
pub fn gap(rng: &mut Rng, lines: Lines) -> Vec<u8> {
    let length = rng.pick(&[1, 1, 1, 2, 3, 9]);
    if lines == Lines::One {
        return rng.picks(b" \t\x0b\x0c\r   ", length);
    }
    if rng.percent(90) {
        return rng.picks(b" \n\t\x0b\x0c\r  ", length);
    }
    let mut comment = vec![b'#'];
    comment.extend((0..length).map(|_| rng.byte()).filter(|&b| b != b'\n'));
    comment.push(b'\n');
    comment
}
