//! What tables hold.

use crate::raw;

/// What a token is.
#[derive(Clone, Copy, Debug, PartialEq, Eq, Hash)]
#[repr(u32)]
pub enum Kind {
    Name = raw::NAME,
    /// A number of digits alone.
    Whole = raw::WHOLE,
    /// A number with a point or an exponent.
    Real = raw::REAL,
    /// Its start and end take in the quotes.
    String = raw::STRING,
    /// `true` or `false`.
    Logical = raw::LOGICAL,
    Keyword = raw::KEYWORD,
    Operator = raw::OPERATOR,
    /// A bracket, `:`, `=`, `,`, `;` or `->`.
    Syntactic = raw::SYNTACTIC,
}

/// A token: the bytes of the text from `start` up to but not including `end`, and its line, from 1.
#[derive(Clone, Copy, Debug, PartialEq, Eq, Hash)]
pub struct Token {
    pub kind: Kind,
    pub start: usize,
    pub end: usize,
    /// One more than the number of line feeds before it. A token has none in it.
    pub line: usize,
}

/// A call of a document.
#[derive(Clone, Copy, Debug, PartialEq, Eq, Hash)]
pub struct Call {
    /// The operation's index in the list.
    pub operation: usize,
    /// The place of the operation's name in the document.
    pub position: usize,
    /// How many identifiers the call assigns.
    pub assigned: usize,
    /// How many identifiers it uses.
    pub used: usize,
}

/// A use of an identifier.
#[derive(Clone, Copy, Debug, PartialEq, Eq, Hash)]
pub struct Wire {
    /// The place of the use in the document.
    pub position: usize,
    /// The index of the call that assigns the identifier, always an earlier one.
    pub from: usize,
}

/// The calls of an accepted document and the uses of identifiers, both in the document's order.
#[derive(Clone, Debug, PartialEq, Eq)]
pub struct Checked {
    pub calls: Vec<Call>,
    pub wires: Vec<Wire>,
}

impl Kind {
    fn from_number(number: u32) -> Kind {
        match number {
            raw::NAME => Kind::Name,
            raw::WHOLE => Kind::Whole,
            raw::REAL => Kind::Real,
            raw::STRING => Kind::String,
            raw::LOGICAL => Kind::Logical,
            raw::KEYWORD => Kind::Keyword,
            raw::OPERATOR => Kind::Operator,
            _ => Kind::Syntactic,
        }
    }
}

/// The first records of a token table.
pub(crate) fn tokens(table: &[u32], count: usize) -> Vec<Token> {
    let records = table.chunks_exact(raw::TOKEN_RECORD_WORDS).take(count);
    let token = |record: &[u32]| Token {
        kind: Kind::from_number(record[0]),
        start: record[1] as usize,
        end: record[2] as usize,
        line: record[3] as usize,
    };
    records.map(token).collect()
}

/// The first records of a call table, and those of a wire table that go with them.
pub(crate) fn checked(calls: &[u32], wires: &[u32], count: usize) -> Checked {
    let call = |record: &[u32]| Call {
        operation: record[0] as usize,
        position: record[1] as usize,
        assigned: record[2] as usize,
        used: record[3] as usize,
    };
    let wire = |record: &[u32]| Wire { position: record[0] as usize, from: record[1] as usize };
    let calls: Vec<Call> = calls.chunks_exact(raw::CALL_RECORD_WORDS).take(count).map(call).collect();
    let uses = calls.iter().map(|call| call.used).sum();
    Checked { wires: wires.chunks_exact(raw::WIRE_RECORD_WORDS).take(uses).map(wire).collect(), calls }
}
