//! Tokens: what they are and where they stand.

/// A token: the bytes of its text from `start` up to but not including `end`, and
/// the line on which it starts, from 1. A text's places are at most 16,384. It is
/// stored as one word of eight bytes.
#[derive(Clone, Copy, Debug, PartialEq, Eq)]
#[repr(align(8))]
pub struct Token {
    pub start: u16,
    pub end: u16,
    pub line: u16,
    pub symbol: Symbol,
}

/// What the grammar tells apart. The leaves of values come first, then the
/// keywords, the operators and the syntactic characters.
#[derive(Clone, Copy, Debug, PartialEq, Eq)]
#[repr(u8)]
pub enum Symbol {
    Name,
    Whole,
    Real,
    String,
    Truth,
    Version,
    Graph,
    Fragment,
    Tensor,
    Extent,
    Scalar,
    Logical,
    StringType,
    /// A keyword that flat texts have no place for.
    Reserved,
    /// `-`, which may stand before a number.
    Minus,
    /// Any other operator.
    Operator,
    OpenRound,
    CloseRound,
    OpenSquare,
    CloseSquare,
    OpenCurly,
    CloseCurly,
    Colon,
    Equals,
    Comma,
    Semicolon,
    Arrow,
    /// The end of the text.
    End,
}

/// A set of symbols.
#[derive(Clone, Copy)]
pub struct Symbols(u32);

/// The tokens from one place of a text's tokens up to but not including another.
#[derive(Clone, Copy, Debug, PartialEq, Eq)]
pub struct Span {
    pub first: u16,
    pub end: u16,
}

impl Token {
    pub fn position(self) -> u32 {
        u32::from(self.start)
    }

    pub fn bytes(self, text: &[u8]) -> &[u8] {
        &text[usize::from(self.start)..usize::from(self.end)]
    }
}

impl Symbol {
    /// The number of the token's kind in the token table.
    pub fn kind(self) -> u32 {
        match self {
            Symbol::Name => 1,
            Symbol::Whole => 2,
            Symbol::Real => 3,
            Symbol::String => 4,
            Symbol::Truth => 5,
            symbol if symbol as u8 <= Symbol::Reserved as u8 => 6,
            Symbol::Minus | Symbol::Operator => 7,
            _ => 8,
        }
    }
}

impl Symbols {
    pub const fn of(symbols: &[Symbol]) -> Symbols {
        let mut set = 0;
        let mut place = 0;
        while place < symbols.len() {
            set |= 1 << symbols[place] as u32;
            place += 1;
        }
        Symbols(set)
    }

    pub fn has(self, symbol: Symbol) -> bool {
        self.0 & (1 << symbol as u32) != 0
    }
}

impl Span {
    pub fn new(first: usize, end: usize) -> Span {
        Span {
            first: first as u16,
            end: end as u16,
        }
    }

    pub fn of<T>(self, items: &[T]) -> &[T] {
        &items[usize::from(self.first)..usize::from(self.end)]
    }

    pub fn of_mut<T>(self, items: &mut [T]) -> &mut [T] {
        &mut items[usize::from(self.first)..usize::from(self.end)]
    }

    pub fn len(self) -> usize {
        usize::from(self.end - self.first)
    }
}
