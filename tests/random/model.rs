//! Operation lists and documents before they are spelt.

use crate::literal;
use crate::rng::Rng;
use crate::spelling::{Role, Word};

#[derive(Clone, PartialEq, Eq)]
pub enum Type {
    Basic(&'static str),
    Array(Box<Type>),
    Tuple(Vec<Type>),
}

/// A value, a left side or a default.
#[derive(Clone, PartialEq, Eq)]
pub enum Value {
    Name(String),
    /// A number has its sign, if it has one, directly before it.
    Literal(String),
    Array(Vec<Value>),
    Tuple(Vec<Value>),
}

#[derive(Clone, PartialEq, Eq)]
pub struct Parameter {
    pub name: String,
    pub ty: Type,
    pub default: Option<Value>,
}

#[derive(Clone, PartialEq, Eq)]
pub struct Operation {
    pub name: String,
    pub parameters: Vec<Parameter>,
    pub results: Vec<(String, Type)>,
}

#[derive(Clone, PartialEq, Eq)]
pub struct Argument {
    pub label: Option<String>,
    pub value: Value,
}

#[derive(Clone, PartialEq, Eq)]
pub struct Call {
    pub left: Value,
    pub operation: String,
    pub arguments: Vec<Argument>,
}

#[derive(Clone, PartialEq, Eq)]
pub struct Document {
    pub version: String,
    pub name: String,
    pub inputs: Vec<String>,
    pub outputs: Vec<String>,
    pub calls: Vec<Call>,
}

impl Type {
    pub fn tensor() -> Type {
        Type::Basic("tensor")
    }

    pub fn array(item: Type) -> Type {
        Type::Array(Box::new(item))
    }

    /// Whether the type is tensor, an array of such, or a tuple of only such.
    pub fn is_all_tensor(&self) -> bool {
        match self {
            Type::Basic(name) => *name == "tensor",
            Type::Array(item) => item.is_all_tensor(),
            Type::Tuple(items) => items.iter().all(Type::is_all_tensor),
        }
    }

    fn words(&self, words: &mut Vec<Word>) {
        match self {
            Type::Basic(name) => words.push(Word::plain(name)),
            Type::Array(item) => {
                item.words(words);
                words.extend(["[", "]"].map(Word::plain));
            }
            Type::Tuple(items) => bracketed(words, "(", ")", items, Type::words),
        }
    }
}

impl Value {
    pub fn name(name: &str) -> Value {
        Value::Name(name.to_string())
    }

    pub fn literal(spelling: &str) -> Value {
        Value::Literal(spelling.to_string())
    }

    /// The names in the value, in reading order.
    pub fn names(&self) -> Vec<String> {
        match self {
            Value::Name(name) => vec![name.clone()],
            Value::Literal(_) => Vec::new(),
            Value::Array(items) | Value::Tuple(items) => {
                items.iter().flat_map(Value::names).collect()
            }
        }
    }

    fn words(&self, words: &mut Vec<Word>, names: Role) {
        let item_words = |item: &Value, words: &mut Vec<Word>| item.words(words, names);
        match self {
            Value::Name(name) => words.push(Word::new(name, names)),
            Value::Literal(spelling) => literal_words(spelling, words),
            Value::Array(items) => bracketed(words, "[", "]", items, item_words),
            Value::Tuple(items) => bracketed(words, "(", ")", items, item_words),
        }
    }
}

impl Operation {
    /// The one result's type, or the tuple of the types of several.
    pub fn result_type(&self) -> Type {
        match &self.results[..] {
            [(_, ty)] => ty.clone(),
            several => Type::Tuple(several.iter().map(|(_, ty)| ty.clone()).collect()),
        }
    }

    fn words(&self, words: &mut Vec<Word>) {
        words.extend(["fragment", &self.name].map(Word::plain));
        bracketed(words, "(", ")", &self.parameters, |parameter, words| {
            words.extend([parameter.name.as_str(), ":"].map(Word::plain));
            parameter.ty.words(words);
            if let Some(default) = &parameter.default {
                words.push(Word::plain("="));
                default.words(words, Role::Plain);
            }
        });
        words.push(Word::plain("->"));
        bracketed(words, "(", ")", &self.results, |(name, ty), words| {
            words.extend([name.as_str(), ":"].map(Word::plain));
            ty.words(words);
        });
    }
}

impl Call {
    /// The place of the argument for the parameter at this index.
    pub fn argument_for(&self, index: usize, parameter: &Parameter) -> Option<usize> {
        let mut arguments = self.arguments.iter().enumerate();
        let found = arguments.find(|(place, argument)| match &argument.label {
            Some(label) => *label == parameter.name,
            None => *place == index,
        });
        found.map(|(place, _)| place)
    }

    /// The call in words: a tuple on the left is bare or not, and `;` is there or not.
    pub fn words(&self, bare: bool, ended: bool, words: &mut Vec<Word>) {
        match &self.left {
            Value::Tuple(items) if bare => {
                separated(words, items, |item, words| {
                    item.words(words, Role::Assigned)
                });
            }
            left => left.words(words, Role::Assigned),
        }
        words.push(Word::plain("="));
        words.push(Word::new(&self.operation, Role::Operation));
        bracketed(words, "(", ")", &self.arguments, |argument, words| {
            if let Some(label) = &argument.label {
                words.extend([label.as_str(), "="].map(Word::plain));
            }
            argument.value.words(words, Role::Used);
        });
        if ended {
            words.push(Word::plain(";"));
        }
    }
}

impl Document {
    /// The graph's name, inputs and outputs in words.
    pub fn header_words(&self, words: &mut Vec<Word>) {
        let name_words = |name: &String, words: &mut Vec<Word>| words.push(Word::plain(name));
        words.push(Word::plain(&self.name));
        bracketed(words, "(", ")", &self.inputs, name_words);
        words.push(Word::plain("->"));
        bracketed(words, "(", ")", &self.outputs, name_words);
    }
}

/// A literal in words: a sign is a word of its own.
fn literal_words(spelling: &str, words: &mut Vec<Word>) {
    let (sign, rest) = literal::signed(spelling);
    words.extend(sign.map(Word::plain));
    words.push(Word::plain(rest));
}

/// The operation of this name, which the list declares.
pub fn operation<'a>(list: &'a [Operation], name: &str) -> &'a Operation {
    let found = list.iter().find(|operation| operation.name == name);
    found.expect("the operation is declared")
}

/// An operation list in words.
pub fn list_words(list: &[Operation]) -> Vec<Word> {
    let mut words = Vec::new();
    for operation in list {
        operation.words(&mut words);
    }
    words
}

/// A document in words.
pub fn document_words(rng: &mut Rng, document: &Document) -> Vec<Word> {
    let mut words = ["version", &document.version, "graph"]
        .map(Word::plain)
        .to_vec();
    document.header_words(&mut words);
    words.push(Word::plain("{"));
    for call in &document.calls {
        call.words(rng.percent(70), rng.percent(60), &mut words);
    }
    words.push(Word::plain("}"));
    words
}

fn bracketed<T>(
    words: &mut Vec<Word>,
    open: &str,
    close: &str,
    items: &[T],
    item_words: impl Fn(&T, &mut Vec<Word>),
) {
    words.push(Word::plain(open));
    separated(words, items, item_words);
    words.push(Word::plain(close));
}

/// The items with commas between them.
fn separated<T>(words: &mut Vec<Word>, items: &[T], item_words: impl Fn(&T, &mut Vec<Word>)) {
    for (place, item) in items.iter().enumerate() {
        if place > 0 {
            words.push(Word::plain(","));
        }
        item_words(item, words);
    }
}
