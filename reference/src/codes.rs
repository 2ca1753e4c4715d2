//! The codes of refusals.

/// A lent table or work area is too short.
pub const ROOM_TOO_SHORT: u32 = 1;
/// The text is longer than its limit.
pub const TEXT_TOO_LONG: u32 = 2;
/// A byte begins no token.
pub const NO_TOKEN: u32 = 3;
/// A number runs on into a letter, an underscore or a point.
pub const NUMBER_MISSPELT: u32 = 4;
/// A string is not closed, or holds a byte outside 32 to 126.
pub const BAD_STRING: u32 = 5;
/// A name, string or number is longer than its limit.
pub const TOKEN_TOO_LONG: u32 = 6;
/// A number is out of range.
pub const OUT_OF_RANGE: u32 = 7;
/// There are more tokens than their limit.
pub const TOO_MANY_TOKENS: u32 = 8;
/// No valid text has this token, or its end, here.
pub const SYNTAX: u32 = 9;
/// More brackets are open than their limit.
pub const TOO_DEEP: u32 = 10;
/// The version is not spelt `1.0`.
pub const VERSION: u32 = 11;
/// There is more of something than its limit.
pub const TOO_MANY: u32 = 12;
/// An operation's name, or a name of a header, is repeated.
pub const REPEATED: u32 = 13;
/// A default does not fit its parameter.
pub const UNFIT_DEFAULT: u32 = 14;
/// An operation is not declared.
pub const UNDECLARED: u32 = 15;
/// A positional argument may not stand where it stands.
pub const MISPLACED: u32 = 16;
/// A named argument names no parameter, or one that is bound already.
pub const BAD_LABEL: u32 = 17;
/// An argument does not fit its parameter.
pub const UNFIT_ARGUMENT: u32 = 18;
/// A parameter without default is not bound.
pub const UNBOUND: u32 = 19;
/// A left side does not match the results.
pub const UNMATCHED: u32 = 20;
/// An identifier is assigned again.
pub const ASSIGNED_AGAIN: u32 = 21;
/// An identifier is used that no earlier call assigns.
pub const NOT_ASSIGNED: u32 = 22;
/// An input is not assigned by `external`, or something else is.
pub const EXTERNAL: u32 = 23;
/// An output is never assigned.
pub const NO_OUTPUT: u32 = 24;
/// The canonical text has more bytes or tokens than a text may have.
pub const CANONICAL_TOO_LONG: u32 = 25;
/// The lent output is shorter than the canonical text.
pub const OUTPUT_TOO_SHORT: u32 = 26;
/// An order has more or fewer numbers than the graph has calls.
pub const ORDER_LENGTH: u32 = 41;
/// A number of an order is no call of the graph.
pub const NO_CALL: u32 = 42;
/// A number of an order stands at an earlier place too.
pub const CALL_REPEATED: u32 = 43;
/// A call uses an identifier whose assigning call stands at no earlier place.
pub const USE_TOO_EARLY: u32 = 44;
