//! What texts say. A value, a left side or a default is the span of its tokens,
//! which the parser has seen to be one.

use crate::names::Names;
use crate::token::{Span, Symbol, Token};

/// An operation list.
pub struct List<'a> {
    pub text: &'a [u8],
    pub tokens: Vec<Token>,
    pub operations: Vec<Operation>,
    /// The parameters of all operations in a row.
    pub parameters: Vec<Parameter>,
    /// The names of the results of all operations in a row.
    pub results: Vec<Token>,
    /// The items of all tuple types, those of one in a row.
    pub types: Vec<Type>,
    /// The names of operations, parameters and results, once the rules are kept.
    pub names: Names<'a, Meaning>,
}

/// What a name of an operation list stands for.
#[derive(Clone, Copy, Default)]
pub struct Meaning {
    /// The index of the operation of that name.
    pub operation: Option<u16>,
    /// The index of the last header with a parameter or a result of that name.
    pub header: Option<u16>,
}

/// An operation as its header declares it.
pub struct Operation {
    /// Where `fragment` stands.
    pub position: u32,
    pub name: Token,
    pub parameters: Span,
    pub results: Span,
    /// The one result's type, or the tuple of the types of several.
    pub result_type: Type,
    /// The parameters without default, a bit for each of the first 32.
    pub required: u32,
}

pub struct Parameter {
    pub name: Token,
    /// The name's number among those of the list.
    pub number: u16,
    pub ty: Type,
    /// The default's tokens; none without a default.
    pub default: Span,
}

/// An item type in so many arrays.
#[derive(Clone, Copy, Debug, PartialEq, Eq)]
pub struct Type {
    pub arrays: u8,
    pub item: Item,
}

#[derive(Clone, Copy, Debug, PartialEq, Eq)]
pub enum Item {
    Tensor,
    Extent,
    Scalar,
    Logical,
    String,
    /// A tuple of these types of its list.
    Tuple(Span),
}

/// A document: its version, its graph's name, inputs and outputs, and its body.
pub struct Document<'a> {
    pub text: &'a [u8],
    pub tokens: Vec<Token>,
    pub version: Token,
    pub name: Token,
    /// The inputs with commas between them.
    pub inputs: Span,
    /// The outputs with commas between them.
    pub outputs: Span,
    pub calls: Vec<Call>,
    /// The arguments of all calls in a row.
    pub arguments: Vec<Argument>,
}

/// An assignment of what an operation gives to a left side.
pub struct Call {
    pub left: Span,
    /// Whether the left side is a tuple without brackets.
    pub bare: bool,
    pub operation: Token,
    pub arguments: Span,
}

/// A leaf of a value: a name, a string, a truth value, or a number with a sign
/// before it or none. With a sign it is two tokens.
#[derive(Clone, Copy)]
pub struct Leaf {
    pub negative: bool,
    /// The name or the literal without its sign.
    pub token: Token,
}

/// An argument; it is positional without a label.
pub struct Argument {
    pub label: Option<Token>,
    pub value: Span,
}

impl Operation {
    pub fn parameters<'l>(&self, list: &'l List) -> &'l [Parameter] {
        self.parameters.of(&list.parameters)
    }
}

impl Leaf {
    /// A leaf of one token.
    pub fn plain(token: Token) -> Leaf {
        Leaf {
            negative: false,
            token,
        }
    }

    /// The leaf that comes first, and the tokens behind it. A bracket is taken for
    /// a leaf that fits nothing.
    pub fn first(tokens: &[Token]) -> Option<(Leaf, &[Token])> {
        let (first, rest) = tokens.split_first()?;
        if first.symbol != Symbol::Minus {
            return Some((Leaf::plain(*first), rest));
        }
        let (number, rest) = rest.split_first()?;
        let leaf = Leaf {
            negative: true,
            token: *number,
        };
        Some((leaf, rest))
    }
}

impl Document<'_> {
    /// The names in a span, in reading order. A label is in no value's span.
    pub fn names(&self, span: Span) -> impl Iterator<Item = Token> + '_ {
        let tokens = span.of(&self.tokens).iter().copied();
        tokens.filter(|token| token.symbol == Symbol::Name)
    }

    /// Where a span that is not empty begins.
    pub fn position(&self, span: Span) -> u32 {
        self.tokens[usize::from(span.first)].position()
    }
}
