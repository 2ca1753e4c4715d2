//! What texts say: operation lists and documents as trees.

use sluicegnome::Kind;
use std::fmt;

/// A name and the place where it stands.
#[derive(Clone, Copy, Debug, PartialEq, Eq)]
pub struct Name<'a> {
    pub spelling: &'a str,
    pub position: usize,
}

/// An operation as its header declares it.
#[derive(Debug)]
pub struct Operation<'a> {
    /// Where `fragment` stands.
    pub position: usize,
    pub name: Name<'a>,
    pub parameters: Vec<Parameter<'a>>,
    pub results: Vec<(Name<'a>, Type)>,
}

#[derive(Debug)]
pub struct Parameter<'a> {
    pub name: Name<'a>,
    pub ty: Type,
    pub default: Option<Value<'a>>,
}

#[derive(Clone, Debug, PartialEq, Eq)]
pub enum Type {
    /// `tensor`, `extent`, `scalar`, `logical` or `string`.
    Basic(&'static str),
    Array(Box<Type>),
    Tuple(Vec<Type>),
}

/// A value, a left side or a default: the bytes from `position` up to `end`.
#[derive(Debug)]
pub struct Value<'a> {
    pub position: usize,
    pub end: usize,
    pub form: Form<'a>,
}

#[derive(Debug)]
pub enum Form<'a> {
    Name(&'a str),
    Literal(Literal<'a>),
    Array(Vec<Value<'a>>),
    Tuple(Vec<Value<'a>>),
}

/// A number, which may have a sign, a string, `true` or `false`.
#[derive(Clone, Copy, Debug)]
pub struct Literal<'a> {
    pub kind: Kind,
    pub negative: bool,
    /// Without the sign.
    pub spelling: &'a str,
}

#[derive(Debug)]
pub struct Document<'a> {
    pub version: Name<'a>,
    pub name: Name<'a>,
    pub inputs: Vec<Name<'a>>,
    pub outputs: Vec<Name<'a>>,
    pub calls: Vec<Call<'a>>,
}

#[derive(Debug)]
pub struct Call<'a> {
    pub left: Value<'a>,
    pub operation: Name<'a>,
    pub arguments: Vec<Argument<'a>>,
}

/// An argument; it is positional without a label.
#[derive(Debug)]
pub struct Argument<'a> {
    pub label: Option<Name<'a>>,
    pub value: Value<'a>,
}

impl Operation<'_> {
    /// The one result's type, or the tuple of the types of several.
    pub fn result_type(&self) -> Type {
        match &self.results[..] {
            [(_, ty)] => ty.clone(),
            several => Type::Tuple(several.iter().map(|(_, ty)| ty.clone()).collect()),
        }
    }
}

impl Argument<'_> {
    /// Where the argument begins: at its label, or at its value without one.
    pub fn position(&self) -> usize {
        self.label.map_or(self.value.position, |label| label.position)
    }
}

impl<'a> Call<'a> {
    /// The identifiers that the call assigns, in reading order.
    pub fn assigned(&self) -> Vec<Name<'a>> {
        self.left.names()
    }

    /// The identifiers that it uses, in reading order.
    pub fn used(&self) -> Vec<Name<'a>> {
        self.arguments.iter().flat_map(|argument| argument.value.names()).collect()
    }
}

impl<'a> Value<'a> {
    /// The names in the value, in reading order.
    pub fn names(&self) -> Vec<Name<'a>> {
        match &self.form {
            Form::Name(spelling) => vec![Name { spelling, position: self.position }],
            Form::Literal(..) => Vec::new(),
            Form::Array(items) | Form::Tuple(items) => items.iter().flat_map(Value::names).collect(),
        }
    }
}

impl Type {
    /// Whether the type is tensor, an array of such, or a tuple of only such.
    pub fn is_all_tensor(&self) -> bool {
        match self {
            Type::Basic(word) => *word == "tensor",
            Type::Array(item) => item.is_all_tensor(),
            Type::Tuple(items) => items.iter().all(Type::is_all_tensor),
        }
    }
}

impl Literal<'_> {
    pub fn is_number(&self) -> bool {
        matches!(self.kind, Kind::Whole | Kind::Real)
    }
}

/// A sign stands directly before its number, wherever it stands in the text.
impl fmt::Display for Literal<'_> {
    fn fmt(&self, f: &mut fmt::Formatter) -> fmt::Result {
        write!(f, "{}{}", if self.negative { "-" } else { "" }, self.spelling)
    }
}

impl fmt::Display for Type {
    fn fmt(&self, f: &mut fmt::Formatter) -> fmt::Result {
        match self {
            Type::Basic(word) => f.write_str(word),
            Type::Array(item) => write!(f, "{item}[]"),
            Type::Tuple(items) => {
                let items: Vec<String> = items.iter().map(Type::to_string).collect();
                write!(f, "({})", items.join(","))
            }
        }
    }
}
