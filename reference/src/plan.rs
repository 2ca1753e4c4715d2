//! What an accepted document says, however it is spelt.

use crate::binding::Binding;
use crate::graph::Graph;
use crate::number::{self, Parts};
use crate::token::{Span, Symbol, Token};
use crate::tree::{self, Document, Item, Leaf, List, Type};

/// A document's plan under an operation list. Spacing, spelling, and whether a
/// value was positional, named or a default are no part of it.
#[derive(Debug, PartialEq, Eq)]
pub struct Plan<'a> {
    graph: &'a [u8],
    inputs: Vec<&'a [u8]>,
    outputs: Vec<&'a [u8]>,
    calls: Vec<Call<'a>>,
}

#[derive(Debug, PartialEq, Eq)]
struct Call<'a> {
    /// The operation's index in the list.
    operation: usize,
    /// The left side; a tuple at its top is the same with and without brackets.
    left: Value<'a>,
    /// For every parameter in declared order its bound or default value.
    values: Vec<Value<'a>>,
}

/// A value read at a type.
#[derive(Debug, PartialEq, Eq)]
enum Value<'a> {
    Name(&'a [u8]),
    /// A number at extent. Minus zero is zero.
    Extent(i64),
    /// A number at scalar or tensor: its reduced mantissa, with the sign, and exponent.
    Number(i64, i32),
    Logical(bool),
    /// A string's content.
    String(&'a [u8]),
    Array(Vec<Value<'a>>),
    Tuple(Vec<Value<'a>>),
}

impl<'a> Plan<'a> {
    /// The plan of a document; one that has no faults has a plan.
    pub fn new(list: &'a List, document: &'a Document, graph: &Graph) -> Option<Plan<'a>> {
        let names = |span| document.names(span).map(|name| name.bytes(document.text));
        let calls = document.calls.iter().zip(&graph.calls);
        Some(Plan {
            graph: document.name.bytes(document.text),
            inputs: names(document.inputs).collect(),
            outputs: names(document.outputs).collect(),
            calls: calls
                .map(|(call, [operation, ..])| {
                    let bindings = call.arguments.of(&graph.bindings);
                    Call::new(list, document, call, *operation as usize, bindings)
                })
                .collect::<Option<_>>()?,
        })
    }
}

impl<'a> Call<'a> {
    fn new(
        list: &'a List,
        document: &'a Document,
        written: &tree::Call,
        index: usize,
        bindings: &[Binding],
    ) -> Option<Call<'a>> {
        let operation = &list.operations[index];
        let parameters = operation.parameters(list);
        let mut values: Vec<Option<Value>> = parameters.iter().map(|_| None).collect();
        for (argument, binding) in written
            .arguments
            .of(&document.arguments)
            .iter()
            .zip(bindings)
        {
            if let Binding::Binds(place) = *binding {
                let place = usize::from(place);
                let mut reading =
                    Reading::new(list, document.text, &document.tokens, argument.value);
                values[place] = Some(reading.value(parameters[place].ty)?);
            }
        }
        for (value, parameter) in values.iter_mut().zip(parameters) {
            if value.is_none() {
                let mut reading = Reading::new(list, list.text, &list.tokens, parameter.default);
                *value = Some(reading.value(parameter.ty)?);
            }
        }
        let mut left = Reading::new(list, document.text, &document.tokens, written.left);
        Some(Call {
            operation: index,
            left: match operation.result_type.item {
                Item::Tuple(types) if written.bare => Value::Tuple(left.items(types)?),
                _ => left.value(operation.result_type)?,
            },
            values: values.into_iter().collect::<Option<_>>()?,
        })
    }
}

/// Tokens of a text that are read at types.
struct Reading<'a> {
    types: &'a [Type],
    text: &'a [u8],
    rest: &'a [Token],
}

impl<'a> Reading<'a> {
    fn new(list: &'a List, text: &'a [u8], tokens: &'a [Token], value: Span) -> Reading<'a> {
        Reading {
            types: &list.types,
            text,
            rest: value.of(tokens),
        }
    }

    /// The value that comes next, if it fits.
    fn value(&mut self, ty: Type) -> Option<Value<'a>> {
        if ty.arrays > 0 {
            return self.array(ty.of_items()).map(Value::Array);
        }
        let Item::Tuple(types) = ty.item else {
            return self.leaf(ty.item);
        };
        self.take(Symbol::OpenRound)?;
        let items = self.items(types)?;
        self.take(Symbol::CloseRound)?;
        Some(Value::Tuple(items))
    }

    fn array(&mut self, ty: Type) -> Option<Vec<Value<'a>>> {
        self.take(Symbol::OpenSquare)?;
        let mut items = Vec::new();
        while self.take(Symbol::CloseSquare).is_none() {
            if !items.is_empty() {
                self.take(Symbol::Comma)?;
            }
            items.push(self.value(ty)?);
        }
        Some(items)
    }

    fn items(&mut self, types: Span) -> Option<Vec<Value<'a>>> {
        let mut items = Vec::new();
        for ty in types.of(self.types) {
            if !items.is_empty() {
                self.take(Symbol::Comma)?;
            }
            items.push(self.value(*ty)?);
        }
        Some(items)
    }

    fn leaf(&mut self, item: Item) -> Option<Value<'a>> {
        let (Leaf { negative, token }, rest) = Leaf::first(self.rest)?;
        self.rest = rest;
        let bytes = token.bytes(self.text);
        let signed = |size: i64| if negative { -size } else { size };
        match (token.symbol, item) {
            (Symbol::Name, Item::Tensor) => Some(Value::Name(bytes)),
            (Symbol::Whole, Item::Extent) if number::is_extent(bytes, negative) => {
                let digits = number::plain(bytes).iter();
                let size = digits.fold(0, |size, digit| 10 * size + i64::from(digit - b'0'));
                Some(Value::Extent(signed(size)))
            }
            (Symbol::Whole | Symbol::Real, Item::Scalar | Item::Tensor) => {
                let (parts, _) = Parts::at(bytes, 0);
                let reduced = parts.reduced()?;
                Some(Value::Number(signed(reduced.mantissa()), reduced.exponent))
            }
            (Symbol::Truth, Item::Logical | Item::Tensor) => Some(Value::Logical(bytes == b"true")),
            (Symbol::String, Item::String) => Some(Value::String(&bytes[1..bytes.len() - 1])),
            _ => None,
        }
    }

    /// Takes this very token, if it is next.
    fn take(&mut self, symbol: Symbol) -> Option<()> {
        let (first, rest) = self.rest.split_first()?;
        (first.symbol == symbol).then(|| self.rest = rest)
    }
}

#[cfg(test)]
mod tests {
    use crate::same_plan;

    #[test]
    fn signs() {
        let list = b"fragment external(shape: extent[]) -> (output: tensor) \
            fragment shift(x: tensor, step: extent = -1, by: scalar = 0) -> (y: tensor)";
        let same = |one: &str, other: &str| {
            let [one, other] = [one, other].map(|arguments| {
                format!("version 1.0 graph g(a) -> (b) {{ a = external(shape = [1]) b = shift({arguments}) }}")
            });
            same_plan(list, one.as_bytes(), other.as_bytes())
        };
        for (one, other) in [
            ("a, step = -0", "a, step = 0"),
            ("a, step = - # c\n01", "a"),
            ("a, by = -0.0e5", "a"),
            ("a, by = -10e-1", "a, by = -1"),
            ("-0", "0.0"),
            (
                "-2147483648, step = -2147483648",
                "-2147483648e0, step = -02147483648",
            ),
        ] {
            assert!(same(one, other), "{one}; {other}");
        }
        for (one, other) in [
            ("a, step = 1", "a"),
            ("a, by = -1", "a, by = 1"),
            ("-1", "1"),
            ("-1", "-10"),
            ("a, by = -1e-1", "a, by = -1e1"),
        ] {
            assert!(!same(one, other), "{one}; {other}");
        }
    }
}
