//! What operations are lent: texts with other bytes behind them, tables and
//! outputs between guards.

use std::sync::LazyLock;

/// Words, or bytes, kept before and behind what is lent to be written.
pub const GUARD: usize = 16;

/// Bytes that stand behind every lent text; most tokens could run on into them.
const BEHIND_TEXT: &[u8] = b"0=>.e9&|'\"\n";

/// A text with other bytes behind it.
pub struct LentText {
    bytes: Vec<u8>,
}

impl LentText {
    pub fn new(text: &[u8]) -> LentText {
        LentText {
            bytes: [text, BEHIND_TEXT].concat(),
        }
    }

    pub fn lent(&self) -> &[u8] {
        &self.bytes[..self.bytes.len() - BEHIND_TEXT.len()]
    }
}

/// What stands in tables and outputs before the run; more is never lent.
static WORDS: LazyLock<Vec<u32>> = LazyLock::new(|| (0..65_536).map(|n| 0xA5A5_0000 ^ n).collect());
static BYTES: LazyLock<Vec<u8>> = LazyLock::new(|| (0..65_536).map(|n| 0x80 | n as u8).collect());

/// A table of this length and its guards before the run.
pub fn pattern(table_words: usize) -> Vec<u32> {
    WORDS[..table_words + 2 * GUARD].to_vec()
}

/// An output of this length and its guards before the run.
pub fn byte_pattern(bytes: usize) -> Vec<u8> {
    BYTES[..bytes + 2 * GUARD].to_vec()
}

/// The lent part of a table or an output with its guards.
pub fn lent<T>(items: &mut [T]) -> &mut [T] {
    let end = items.len() - GUARD;
    &mut items[GUARD..end]
}
