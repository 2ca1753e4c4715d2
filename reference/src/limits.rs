//! The sizes that texts, trees and lent tables keep to.

/// Bytes in a text.
pub const TEXT_BYTES: usize = 16_384;
/// Tokens in a text.
pub const TOKENS: usize = 4_096;
/// Bytes in a name.
pub const NAME_BYTES: usize = 64;
/// Bytes in a string, its quotes not counted.
pub const STRING_BYTES: usize = 128;
/// Bytes in a number.
pub const NUMBER_BYTES: usize = 64;
/// Digits in a reduced mantissa.
pub const MANTISSA_DIGITS: usize = 18;
/// The greatest size of an exponent as written.
pub const WRITTEN_EXPONENT: i32 = 9_999;
/// The greatest size of a reduced exponent.
pub const REDUCED_EXPONENT: i32 = 999;
/// The digits of the greatest extent.
pub const GREATEST_EXTENT: &[u8] = b"2147483647";
/// The digits of the least extent, which has a sign before them.
pub const LEAST_EXTENT: &[u8] = b"2147483648";
/// Brackets of arrays and tuples that are open at once.
pub const BRACKETS: usize = 8;
/// Operations of a list.
pub const OPERATIONS: usize = 128;
/// Parameters of an operation.
pub const PARAMETERS: usize = 32;
/// Results of an operation.
pub const RESULTS: usize = 8;
/// Inputs of a graph.
pub const INPUTS: usize = 32;
/// Outputs of a graph.
pub const OUTPUTS: usize = 32;
/// Calls of a graph.
pub const CALLS: usize = 384;
/// Places of a graph's body that assign an identifier.
pub const ASSIGNED: usize = 1_024;
/// Places of a graph's body that use an identifier.
pub const USED: usize = 1_024;

/// Words that a lent token table has at least.
pub const TABLE_WORDS: usize = 4 * TOKENS;
/// Words that a lent work area has at least.
pub const WORK_WORDS: usize = 16_384;
/// Words that a lent call table has at least.
pub const CALL_WORDS: usize = 4 * CALLS;
/// Words that a lent wire table has at least.
pub const WIRE_WORDS: usize = 2 * USED;
