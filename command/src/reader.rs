//! Tokens into trees: the command's own plain reading, for words and names alone. Verdicts are the library's.
//!
//! The readers go by the next token alone and note what they looked for, so that a stop can say what may stand there. After a stop they
//! go on at the next header or call, to find what else there is.

use crate::tree::{Argument, Call, Document, Form, Literal, Name, Operation, Parameter, Type, Value};
use sluicegnome::{limits, Code, Kind, Token};

/// Where the reading stopped: with code 9 or 10, at a token or the text's end, and what may stand there.
#[derive(Debug)]
pub struct Stop {
    pub code: Code,
    pub position: usize,
    pub expected: Vec<&'static str>,
}

/// What was read, if there was no stop, and every stop.
pub struct Reading<T> {
    pub tree: Option<T>,
    pub stops: Vec<Stop>,
}

/// Reads an operation list: headers without bodies, up to the text's end.
pub fn operation_list<'a>(text: &'a [u8], tokens: &[Token]) -> Reading<Vec<Operation<'a>>> {
    let mut reader = Reader::new(text, tokens);
    let mut operations = Vec::new();
    let mut stops = Vec::new();
    while reader.token().is_some() {
        reader.looked_for("the end of the text");
        match reader.operation() {
            Ok(operation) => operations.push(operation),
            Err(stop) => {
                stops.push(stop);
                reader.skip_to("fragment");
            }
        }
    }
    Reading { tree: stops.is_empty().then_some(operations), stops }
}

/// Reads a document: the version, a graph's header and its body, the text's end.
pub fn document<'a>(text: &'a [u8], tokens: &[Token]) -> Reading<Document<'a>> {
    let mut reader = Reader::new(text, tokens);
    let mut stops = Vec::new();
    let header = reader.document_header();
    let header = header.map_err(|stop| {
        stops.push(stop);
        reader.skip_to("{");
        reader.take("{", "`{`");
    });
    let has_body = header.is_ok() || reader.token().is_some();
    let calls = if has_body { reader.body(&mut stops) } else { Vec::new() };
    if stops.is_empty() && reader.token().is_some() {
        reader.looked_for("the end of the text");
        stops.push(reader.stop(Code::Syntax));
    }
    let tree = match header {
        Ok(header) if stops.is_empty() => Some(Document { calls, ..header }),
        _ => None,
    };
    Reading { tree, stops }
}

/// What values may hold where they stand.
#[derive(Clone, Copy, PartialEq, Eq)]
enum Leaves {
    /// Defaults.
    Literals,
    /// Left sides.
    Names,
    /// Arguments.
    Both,
}

struct Reader<'a, 't> {
    text: &'a [u8],
    tokens: &'t [Token],
    /// The place of the next token.
    next: usize,
    /// Brackets of arrays and tuples that are open.
    open: usize,
    /// What was looked for at the next token.
    expected: Vec<&'static str>,
}

impl<'a, 't> Reader<'a, 't> {
    fn new(text: &'a [u8], tokens: &'t [Token]) -> Self {
        Reader { text, tokens, next: 0, open: 0, expected: Vec::new() }
    }

    /// `fragment` and a header.
    fn operation(&mut self) -> Result<Operation<'a>, Stop> {
        let position = self.position();
        self.expect("fragment", "`fragment`")?;
        let name = self.name("a name")?;
        self.expect("(", "`(`")?;
        let parameters = self.several(Self::parameter)?;
        self.expect(")", "`)`")?;
        self.expect("->", "`->`")?;
        self.expect("(", "`(`")?;
        let results = self.several(Self::result)?;
        self.expect(")", "`)`")?;
        Ok(Operation { position, name, parameters, results })
    }

    fn parameter(&mut self) -> Result<Parameter<'a>, Stop> {
        let (name, ty) = self.result()?;
        let default = match self.take("=", "`=`") {
            true => Some(self.value(Leaves::Literals)?),
            false => None,
        };
        Ok(Parameter { name, ty, default })
    }

    fn result(&mut self) -> Result<(Name<'a>, Type), Stop> {
        let name = self.name("a name")?;
        self.expect(":", "`:`")?;
        Ok((name, self.ty()?))
    }

    /// A type: a basic type or a tuple of types, then any number of `[` `]`.
    fn ty(&mut self) -> Result<Type, Stop> {
        let mut ty = if self.next_is("(") {
            self.open_bracket()?;
            let items = self.at_least_two(Self::ty)?;
            self.close_bracket(")", "`)`")?;
            Type::Tuple(items)
        } else {
            self.basic_type()?
        };
        while self.looks_at("[", "`[`") {
            self.open_bracket()?;
            self.close_bracket("]", "`]`")?;
            ty = Type::Array(Box::new(ty));
        }
        Ok(ty)
    }

    fn basic_type(&mut self) -> Result<Type, Stop> {
        for word in ["tensor", "extent", "scalar", "logical", "string"] {
            if self.next_is(word) {
                self.advance();
                return Ok(Type::Basic(word));
            }
        }
        self.looked_for("a type");
        Err(self.stop(Code::Syntax))
    }

    /// A document up to and with the `{` of its body, without calls.
    fn document_header(&mut self) -> Result<Document<'a>, Stop> {
        self.expect("version", "`version`")?;
        let (_, version) = self.number()?;
        self.expect("graph", "`graph`")?;
        let name = self.name("a name")?;
        let inputs = self.names_in_brackets()?;
        self.expect("->", "`->`")?;
        let outputs = self.names_in_brackets()?;
        self.expect("{", "`{`")?;
        Ok(Document { version, name, inputs, outputs, calls: Vec::new() })
    }

    fn names_in_brackets(&mut self) -> Result<Vec<Name<'a>>, Stop> {
        self.expect("(", "`(`")?;
        let names = self.several(|reader| reader.name("a name"))?;
        self.expect(")", "`)`")?;
        Ok(names)
    }

    /// The calls up to and with the `}`.
    fn body(&mut self, stops: &mut Vec<Stop>) -> Vec<Call<'a>> {
        let mut calls = Vec::new();
        let mut first = true;
        while first || !self.take("}", "`}`") {
            match self.call() {
                Ok(call) => calls.push(call),
                Err(stop) => {
                    stops.push(stop);
                    self.skip_call();
                    if self.token().is_none() {
                        break;
                    }
                }
            }
            first = false;
        }
        calls
    }

    /// A left side, `=`, an operation and its arguments, and `;` or not.
    fn call(&mut self) -> Result<Call<'a>, Stop> {
        let left = self.left()?;
        self.expect("=", "`=`")?;
        let operation = self.name("an operation's name")?;
        self.expect("(", "`(`")?;
        let arguments = self.several(Self::argument)?;
        self.expect(")", "`)`")?;
        self.take(";", "`;`");
        Ok(Call { left, operation, arguments })
    }

    /// A left side; as a tuple it may be without brackets.
    fn left(&mut self) -> Result<Value<'a>, Stop> {
        let first = self.value(Leaves::Names)?;
        if !self.take(",", "`,`") {
            return Ok(first);
        }
        let position = first.position;
        let mut items = vec![first];
        items.extend(self.several(|reader| reader.value(Leaves::Names))?);
        Ok(Value { position, end: self.last_end(), form: Form::Tuple(items) })
    }

    fn argument(&mut self) -> Result<Argument<'a>, Stop> {
        let next_two = (self.token(), self.tokens.get(self.next + 1));
        let label = match next_two {
            (Some(first), Some(second)) if first.kind == Kind::Name && self.spelling(*second) == "=" => {
                let label = self.name("a name")?;
                self.expect("=", "`=`")?;
                Some(label)
            }
            _ => None,
        };
        let value = self.value(Leaves::Both)?;
        if label.is_none() && matches!(value.form, Form::Name(_)) {
            self.looked_for("`=`");
        }
        Ok(Argument { label, value })
    }

    fn value(&mut self, leaves: Leaves) -> Result<Value<'a>, Stop> {
        let Some(token) = self.token() else {
            return Err(self.no_value(leaves));
        };
        let spelling = self.spelling(token);
        let form = match token.kind {
            Kind::Name if leaves != Leaves::Literals => {
                self.advance();
                Form::Name(spelling)
            }
            Kind::Whole | Kind::Real | Kind::String | Kind::Logical if leaves != Leaves::Names => {
                self.advance();
                Form::Literal(Literal { kind: token.kind, negative: false, spelling })
            }
            Kind::Operator if spelling == "-" && leaves != Leaves::Names => {
                self.advance();
                let (kind, number) = self.number()?;
                Form::Literal(Literal { kind, negative: true, spelling: number.spelling })
            }
            _ if spelling == "[" => Form::Array(self.array(leaves)?),
            _ if spelling == "(" => Form::Tuple(self.tuple(leaves)?),
            _ => return Err(self.no_value(leaves)),
        };
        Ok(Value { position: token.start, end: self.last_end(), form })
    }

    fn no_value(&mut self, leaves: Leaves) -> Stop {
        if leaves != Leaves::Literals {
            self.looked_for("a name");
        }
        if leaves != Leaves::Names {
            self.looked_for("a literal");
        }
        self.looked_for("`[`");
        self.looked_for("`(`");
        self.stop(Code::Syntax)
    }

    fn array(&mut self, leaves: Leaves) -> Result<Vec<Value<'a>>, Stop> {
        self.open_bracket()?;
        let items = match self.looks_at("]", "`]`") {
            true => Vec::new(),
            false => self.several(|reader| reader.value(leaves))?,
        };
        self.close_bracket("]", "`]`")?;
        Ok(items)
    }

    fn tuple(&mut self, leaves: Leaves) -> Result<Vec<Value<'a>>, Stop> {
        self.open_bracket()?;
        let items = self.at_least_two(|reader| reader.value(leaves))?;
        self.close_bracket(")", "`)`")?;
        Ok(items)
    }

    /// One item or more with commas between them.
    fn several<T>(&mut self, item: impl Fn(&mut Self) -> Result<T, Stop>) -> Result<Vec<T>, Stop> {
        let mut items = vec![item(self)?];
        while self.take(",", "`,`") {
            items.push(item(self)?);
        }
        Ok(items)
    }

    /// Two items or more with commas between them.
    fn at_least_two<T>(&mut self, item: impl Fn(&mut Self) -> Result<T, Stop>) -> Result<Vec<T>, Stop> {
        let mut items = vec![item(self)?];
        self.expect(",", "`,`")?;
        items.extend(self.several(item)?);
        Ok(items)
    }

    /// Takes the bracket that is next, unless it is one too many.
    fn open_bracket(&mut self) -> Result<(), Stop> {
        if self.open == limits::BRACKETS {
            return Err(self.stop(Code::TooDeep));
        }
        self.open += 1;
        self.advance();
        Ok(())
    }

    fn close_bracket(&mut self, spelling: &str, words: &'static str) -> Result<(), Stop> {
        self.expect(spelling, words)?;
        self.open -= 1;
        Ok(())
    }

    /// A number without a sign, and its kind.
    fn number(&mut self) -> Result<(Kind, Name<'a>), Stop> {
        match self.token() {
            Some(token) if matches!(token.kind, Kind::Whole | Kind::Real) => Ok((token.kind, self.take_name(token))),
            _ => {
                self.looked_for("a number");
                Err(self.stop(Code::Syntax))
            }
        }
    }

    fn name(&mut self, words: &'static str) -> Result<Name<'a>, Stop> {
        match self.token() {
            Some(token) if token.kind == Kind::Name => Ok(self.take_name(token)),
            _ => {
                self.looked_for(words);
                Err(self.stop(Code::Syntax))
            }
        }
    }

    fn take_name(&mut self, token: Token) -> Name<'a> {
        self.advance();
        Name { spelling: self.spelling(token), position: token.start }
    }

    /// Takes this very token.
    fn expect(&mut self, spelling: &str, words: &'static str) -> Result<(), Stop> {
        match self.take(spelling, words) {
            true => Ok(()),
            false => Err(self.stop(Code::Syntax)),
        }
    }

    /// Takes this very token if it is next, and says whether it was.
    fn take(&mut self, spelling: &str, words: &'static str) -> bool {
        let is_next = self.looks_at(spelling, words);
        if is_next {
            self.advance();
        }
        is_next
    }

    /// Whether this very token is next; that it was looked for is noted.
    fn looks_at(&mut self, spelling: &str, words: &'static str) -> bool {
        self.looked_for(words);
        self.next_is(spelling)
    }

    fn next_is(&self, spelling: &str) -> bool {
        self.token().is_some_and(|token| self.spelling(token) == spelling)
    }

    fn looked_for(&mut self, words: &'static str) {
        if !self.expected.contains(&words) {
            self.expected.push(words);
        }
    }

    fn advance(&mut self) {
        self.next += 1;
        self.expected.clear();
    }

    fn token(&self) -> Option<Token> {
        self.tokens.get(self.next).copied()
    }

    /// The end of the token before the next one.
    fn last_end(&self) -> usize {
        self.tokens[..self.next].last().map_or(0, |token| token.end)
    }

    fn spelling(&self, token: Token) -> &'a str {
        let bytes = self.text.get(token.start..token.end).unwrap_or_default();
        std::str::from_utf8(bytes).unwrap_or_default()
    }

    /// Where the next token, or the text's end, stands.
    fn position(&self) -> usize {
        self.token().map_or(self.text.len(), |token| token.start)
    }

    fn stop(&mut self, code: Code) -> Stop {
        Stop { code, position: self.position(), expected: std::mem::take(&mut self.expected) }
    }

    /// Goes on after a stop: at this very token, or at the text's end.
    fn skip_to(&mut self, spelling: &str) {
        self.open = 0;
        while self.token().is_some() && !self.next_is(spelling) {
            self.advance();
        }
    }

    /// Goes on after a stop in a call: behind the next `;`, or at a `}`.
    fn skip_call(&mut self) {
        self.open = 0;
        while self.token().is_some() && !self.next_is("}") {
            let ends = self.next_is(";");
            self.advance();
            if ends {
                break;
            }
        }
    }
}
