//! Tokens into trees.
//!
//! The readers go by the next token alone and take it only where a valid text
//! may have it, so they stop at the first token, or at the text's end, that no
//! valid text has there. A bracket that would be one too many stops them too.

use crate::codes;
use crate::fault::Fault;
use crate::limits;
use crate::names::Names;
use crate::token::{Span, Symbol, Symbols, Token};
use crate::tree::{Argument, Call, Document, Item, List, Operation, Parameter, Type};

/// What values may hold where they stand: defaults, left sides and arguments. Where
/// numbers may stand, a sign may stand before them.
const LITERALS: Symbols =
    Symbols::of(&[Symbol::Whole, Symbol::Real, Symbol::String, Symbol::Truth]);
const NAMES: Symbols = Symbols::of(&[Symbol::Name]);
const LEAVES: Symbols = Symbols::of(&[
    Symbol::Name,
    Symbol::Whole,
    Symbol::Real,
    Symbol::String,
    Symbol::Truth,
]);

/// Reads an operation list: headers without bodies, up to the text's end.
pub fn operation_list(text: &[u8], tokens: Vec<Token>) -> Result<List<'_>, Fault> {
    let mut headers = Headers {
        reader: Reader::new(&tokens),
        operations: Vec::with_capacity(16),
        parameters: Vec::with_capacity(64),
        results: Vec::with_capacity(16),
        types: Vec::new(),
        pending: Vec::new(),
    };
    while headers.reader.next() != Symbol::End {
        headers.operation()?;
    }
    let Headers {
        operations,
        parameters,
        results,
        types,
        ..
    } = headers;
    let count = operations.len() + parameters.len() + results.len();
    Ok(List {
        text,
        tokens,
        operations,
        parameters,
        results,
        types,
        names: Names::with_capacity(text, count),
    })
}

/// Reads a document: the version, a graph's header and its body, the text's end.
pub fn document(text: &[u8], tokens: Vec<Token>) -> Result<Document<'_>, Fault> {
    let mut reader = Reader::new(&tokens);
    reader.expect(Symbol::Version)?;
    let version = reader.number()?;
    reader.expect(Symbol::Graph)?;
    let name = reader.expect(Symbol::Name)?;
    let inputs = reader.listed()?;
    reader.expect(Symbol::Arrow)?;
    let outputs = reader.listed()?;
    reader.expect(Symbol::OpenCurly)?;
    let mut calls = Vec::with_capacity(tokens.len() / 16 + 1);
    let mut arguments = Vec::with_capacity(tokens.len() / 4 + 1);
    calls.push(reader.call(&mut arguments)?);
    while !reader.take(Symbol::CloseCurly) {
        calls.push(reader.call(&mut arguments)?);
    }
    reader.expect_end()?;
    Ok(Document {
        text,
        tokens,
        version,
        name,
        inputs,
        outputs,
        calls,
        arguments,
    })
}

/// The headers that are read so far.
struct Headers<'t> {
    reader: Reader<'t>,
    operations: Vec<Operation>,
    parameters: Vec<Parameter>,
    results: Vec<Token>,
    types: Vec<Type>,
    /// The items of tuple types, and the types of results, that are not read to their end.
    pending: Vec<Type>,
}

impl Headers<'_> {
    /// `fragment` and a header.
    fn operation(&mut self) -> Result<(), Fault> {
        let fragment = self.reader.expect(Symbol::Fragment)?;
        let name = self.reader.expect(Symbol::Name)?;
        let (first_parameter, first_result) = (self.parameters.len(), self.results.len());
        self.reader.expect(Symbol::OpenRound)?;
        let required = self.parameters()?;
        self.reader.expect(Symbol::CloseRound)?;
        self.reader.expect(Symbol::Arrow)?;
        self.reader.expect(Symbol::OpenRound)?;
        let result_type = self.results()?;
        self.reader.expect(Symbol::CloseRound)?;
        self.operations.push(Operation {
            position: fragment.position(),
            name,
            parameters: Span::new(first_parameter, self.parameters.len()),
            results: Span::new(first_result, self.results.len()),
            result_type,
            required,
        });
        Ok(())
    }

    /// Parameters, and the mask of those without default.
    fn parameters(&mut self) -> Result<u32, Fault> {
        let mut required = 0;
        let mut bit = 1;
        loop {
            if !self.parameter()? {
                required |= bit;
            }
            bit <<= 1;
            if !self.reader.take(Symbol::Comma) {
                return Ok(required);
            }
        }
    }

    /// A parameter, and whether it has a default.
    fn parameter(&mut self) -> Result<bool, Fault> {
        let name = self.reader.expect(Symbol::Name)?;
        self.reader.expect(Symbol::Colon)?;
        let ty = self.ty()?;
        let has_default = self.reader.take(Symbol::Equals);
        let first = self.reader.at;
        if has_default {
            self.reader.value(LITERALS)?;
        }
        self.parameters.push(Parameter {
            name,
            number: 0,
            ty,
            default: Span::new(first, self.reader.at),
        });
        Ok(has_default)
    }

    /// Results, and their type.
    fn results(&mut self) -> Result<Type, Fault> {
        let mark = self.pending.len();
        loop {
            let name = self.reader.expect(Symbol::Name)?;
            self.results.push(name);
            self.reader.expect(Symbol::Colon)?;
            let ty = self.ty()?;
            self.pending.push(ty);
            if !self.reader.take(Symbol::Comma) {
                break;
            }
        }
        if let [only] = self.pending[mark..] {
            self.pending.truncate(mark);
            return Ok(only);
        }
        Ok(Type {
            arrays: 0,
            item: self.tuple_of(mark),
        })
    }

    /// A type: a basic type or a tuple of types, then any number of `[` `]`.
    fn ty(&mut self) -> Result<Type, Fault> {
        let item = match self.reader.next() {
            Symbol::Tensor => self.basic(Item::Tensor),
            Symbol::Extent => self.basic(Item::Extent),
            Symbol::Scalar => self.basic(Item::Scalar),
            Symbol::Logical => self.basic(Item::Logical),
            Symbol::StringType => self.basic(Item::String),
            Symbol::OpenRound => self.tuple_type()?,
            _ => return self.reader.stop(codes::SYNTAX),
        };
        let mut arrays = 0;
        while self.reader.next() == Symbol::OpenSquare {
            self.reader.open()?;
            self.reader.close(Symbol::CloseSquare)?;
            arrays += 1;
        }
        Ok(Type { arrays, item })
    }

    fn basic(&mut self, item: Item) -> Item {
        self.reader.at += 1;
        item
    }

    fn tuple_type(&mut self) -> Result<Item, Fault> {
        let mark = self.pending.len();
        self.reader.open()?;
        let first = self.ty()?;
        self.pending.push(first);
        self.reader.expect(Symbol::Comma)?;
        loop {
            let next = self.ty()?;
            self.pending.push(next);
            if !self.reader.take(Symbol::Comma) {
                break;
            }
        }
        self.reader.close(Symbol::CloseRound)?;
        Ok(self.tuple_of(mark))
    }

    /// The tuple of the pending types from `mark` on.
    fn tuple_of(&mut self, mark: usize) -> Item {
        let first = self.types.len();
        self.types.extend(self.pending.drain(mark..));
        Item::Tuple(Span::new(first, self.types.len()))
    }
}

struct Reader<'t> {
    /// The tokens; the last is the text's end, which is never taken.
    tokens: &'t [Token],
    /// The place of the next token.
    at: usize,
    /// Brackets of arrays and tuples that are open.
    open: usize,
}

impl<'t> Reader<'t> {
    fn new(tokens: &'t [Token]) -> Self {
        Reader {
            tokens,
            at: 0,
            open: 0,
        }
    }

    /// A left side, `=`, an operation and its arguments, and `;` or not.
    fn call(&mut self, arguments: &mut Vec<Argument>) -> Result<Call, Fault> {
        let (left, bare) = self.left()?;
        self.expect(Symbol::Equals)?;
        let operation = self.expect(Symbol::Name)?;
        self.expect(Symbol::OpenRound)?;
        let first = arguments.len();
        arguments.push(self.argument()?);
        while self.take(Symbol::Comma) {
            arguments.push(self.argument()?);
        }
        self.expect(Symbol::CloseRound)?;
        self.take(Symbol::Semicolon);
        Ok(Call {
            left,
            bare,
            operation,
            arguments: Span::new(first, arguments.len()),
        })
    }

    /// A left side, and whether it is a tuple without brackets.
    fn left(&mut self) -> Result<(Span, bool), Fault> {
        let first = self.at;
        self.value(NAMES)?;
        let bare = self.take(Symbol::Comma);
        if bare {
            self.values(NAMES)?;
        }
        Ok((Span::new(first, self.at), bare))
    }

    fn argument(&mut self) -> Result<Argument, Fault> {
        let label = self.label();
        let first = self.at;
        self.value(LEAVES)?;
        Ok(Argument {
            label,
            value: Span::new(first, self.at),
        })
    }

    /// Takes a name and the `=` behind it, if both are next.
    fn label(&mut self) -> Option<Token> {
        match self.tokens[self.at..] {
            [name, equals, ..]
                if name.symbol == Symbol::Name && equals.symbol == Symbol::Equals =>
            {
                self.at += 2;
                Some(name)
            }
            _ => None,
        }
    }

    /// A value with these leaves. What is more than one token is in a function of
    /// its own, so that the others are read without a call.
    #[inline(always)]
    fn value(&mut self, leaves: Symbols) -> Result<(), Fault> {
        if leaves.has(self.next()) {
            self.at += 1;
            return Ok(());
        }
        self.compound(leaves)
    }

    /// A number behind its sign, where literals may stand; an array or a tuple.
    fn compound(&mut self, leaves: Symbols) -> Result<(), Fault> {
        match self.next() {
            Symbol::OpenSquare => {
                self.open()?;
                if self.next() != Symbol::CloseSquare {
                    self.values(leaves)?;
                }
                self.close(Symbol::CloseSquare)
            }
            Symbol::Minus if leaves.has(Symbol::Whole) => {
                self.at += 1;
                self.number().map(drop)
            }
            Symbol::OpenRound => {
                self.open()?;
                self.value(leaves)?;
                self.expect(Symbol::Comma)?;
                self.values(leaves)?;
                self.close(Symbol::CloseRound)
            }
            _ => self.stop(codes::SYNTAX),
        }
    }

    /// One value or more with commas between them.
    #[inline(always)]
    fn values(&mut self, leaves: Symbols) -> Result<(), Fault> {
        self.value(leaves)?;
        while self.take(Symbol::Comma) {
            self.value(leaves)?;
        }
        Ok(())
    }

    /// One name or more with commas between them, in brackets.
    fn listed(&mut self) -> Result<Span, Fault> {
        self.expect(Symbol::OpenRound)?;
        let first = self.at;
        self.expect(Symbol::Name)?;
        while self.take(Symbol::Comma) {
            self.expect(Symbol::Name)?;
        }
        let end = self.at;
        self.expect(Symbol::CloseRound)?;
        Ok(Span::new(first, end))
    }

    fn number(&mut self) -> Result<Token, Fault> {
        match self.next() {
            Symbol::Whole => self.expect(Symbol::Whole),
            _ => self.expect(Symbol::Real),
        }
    }

    /// Takes the opening bracket that is next, unless it is one too many.
    fn open(&mut self) -> Result<(), Fault> {
        if self.open == limits::BRACKETS {
            return self.stop(codes::TOO_DEEP);
        }
        self.open += 1;
        self.at += 1;
        Ok(())
    }

    fn close(&mut self, bracket: Symbol) -> Result<(), Fault> {
        self.open -= 1;
        self.expect(bracket)?;
        Ok(())
    }

    fn expect_end(&self) -> Result<(), Fault> {
        if self.next() != Symbol::End {
            return self.stop(codes::SYNTAX);
        }
        Ok(())
    }

    /// Takes this very token, which is not the end.
    fn expect(&mut self, symbol: Symbol) -> Result<Token, Fault> {
        let token = self.tokens[self.at];
        if token.symbol != symbol {
            return self.stop(codes::SYNTAX);
        }
        self.at += 1;
        Ok(token)
    }

    /// Takes this very token if it is next, and says whether it was.
    fn take(&mut self, symbol: Symbol) -> bool {
        if self.next() != symbol {
            return false;
        }
        self.at += 1;
        true
    }

    fn next(&self) -> Symbol {
        self.tokens[self.at].symbol
    }

    /// Refuses at the next token or at the text's end.
    #[cold]
    fn stop<T>(&self, code: u32) -> Result<T, Fault> {
        Err(Fault::new(code, self.tokens[self.at].position()))
    }
}
