//! An accepted graph: its calls with every value, which values the file writes and which the list gives, and the wires.
//!
//! The values are those of the canonical text, and the wires those of the library's tables. What the file writes itself is seen in the
//! file.

use crate::fitting::{bindings, Binding};
use crate::number::decimal;
use crate::reader;
use crate::texts::{tokens, Texts};
use crate::tree::{self, Form, Name, Operation, Value};
use sluicegnome::{Checked, Code, Refusal};

/// Lines of a canonical text before its first call.
const LINES_BEFORE_CALLS: usize = 3;

pub struct Graph {
    pub name: String,
    pub inputs: Vec<String>,
    pub outputs: Vec<String>,
    pub calls: Vec<Call>,
    /// The canonical text; nothing if it would be too long.
    pub canonical: String,
}

pub struct Call {
    /// The left side in canonical spelling.
    pub left: String,
    pub assigned: Vec<String>,
    pub operation: String,
    /// The place of the operation's name in the file.
    pub position: usize,
    /// A value for each parameter, in declared order.
    pub values: Vec<Bound>,
    /// The calls that its identifiers come from, one for each use.
    pub sources: Vec<usize>,
    /// Its line in the canonical text.
    pub line: String,
}

/// The value of a parameter.
#[derive(Clone)]
pub struct Bound {
    pub parameter: String,
    /// In canonical spelling.
    pub spelling: String,
    /// With numbers in decimal.
    pub decimal: String,
    /// Whether the list gives it.
    pub default: bool,
    /// The identifiers in it.
    pub uses: Vec<String>,
}

impl Bound {
    /// The value in decimal, and where it comes from.
    pub fn marked(&self) -> String {
        format!("{} {}", self.decimal, if self.default { "(default)" } else { "(written)" })
    }
}

/// Why there is no graph: the library refused it, or the command could not read what the library accepted, which is a defect of it.
pub enum Failure {
    Refused(Refusal),
    Defect,
}

impl From<Refusal> for Failure {
    fn from(refusal: Refusal) -> Failure {
        Failure::Refused(refusal)
    }
}

/// The graph of a document, with the values of its canonical text.
pub fn graph(texts: &Texts) -> Result<Graph, Failure> {
    let checked = sluicegnome::check(&texts.list.bytes, &texts.subject().bytes)?;
    let canonical = sluicegnome::canon(&texts.list.bytes, &texts.subject().bytes)?;
    build(texts, &checked, Some(&canonical)).ok_or(Failure::Defect)
}

/// The graph of a document. If its canonical text would be too long, the values are spelt as in the file and the list.
pub fn graph_of_any_length(texts: &Texts) -> Result<Graph, Failure> {
    match graph(texts) {
        Err(Failure::Refused(refusal)) if refusal.code == Code::CanonTooLong => {
            let checked = sluicegnome::check(&texts.list.bytes, &texts.subject().bytes)?;
            build(texts, &checked, None).ok_or(Failure::Defect)
        }
        answer => answer,
    }
}

fn build(texts: &Texts, checked: &Checked, canonical: Option<&[u8]>) -> Option<Graph> {
    let list = texts.operations()?;
    let written = texts.tree()?;
    let spelt = match canonical {
        Some(canonical) => Some(reader::document(canonical, &tokens(canonical)).tree?),
        None => None,
    };
    let canonical = std::str::from_utf8(canonical.unwrap_or_default()).ok()?;
    let mut lines = canonical.lines().skip(LINES_BEFORE_CALLS);
    let mut wires = checked.wires.iter();
    let mut calls = Vec::new();
    for (index, record) in checked.calls.iter().enumerate() {
        let spelt = match &spelt {
            Some(spelt) => Some(spelt.calls.get(index)?),
            None => None,
        };
        let call = call(list.get(record.operation)?, written.calls.get(index)?, spelt)?;
        let sources = wires.by_ref().take(record.used).map(|wire| wire.from).collect();
        calls.push(Call { sources, line: lines.next().unwrap_or_default().to_string(), ..call });
    }
    Some(Graph {
        name: written.name.spelling.to_string(),
        inputs: spellings(&written.inputs),
        outputs: spellings(&written.outputs),
        calls,
        canonical: canonical.to_string(),
    })
}

/// A call as it is written, without wires and line. Its values are those of the canonical call, if there is one.
fn call(operation: &Operation, written: &tree::Call, canonical: Option<&tree::Call>) -> Option<Call> {
    let bound = bindings(operation, &written.arguments);
    let mut values = Vec::new();
    for (index, parameter) in operation.parameters.iter().enumerate() {
        let place = bound.iter().position(|binding| *binding == Binding::To(index));
        let value = match (canonical, place) {
            (Some(canonical), _) => &canonical.arguments.get(index)?.value,
            (None, Some(place)) => &written.arguments.get(place)?.value,
            (None, None) => parameter.default.as_ref()?,
        };
        values.push(Bound {
            parameter: parameter.name.spelling.to_string(),
            spelling: spelled(value, &str::to_string),
            decimal: spelled(value, &decimal),
            default: place.is_none(),
            uses: spellings(&value.names()),
        });
    }
    Some(Call {
        left: left_side(&written.left),
        assigned: spellings(&written.assigned()),
        operation: operation.name.spelling.to_string(),
        position: written.operation.position,
        values,
        sources: Vec::new(),
        line: String::new(),
    })
}

/// A left side in canonical spelling: its top tuple is bare.
pub fn left_side(left: &Value) -> String {
    let spelt = spelled(left, &str::to_string);
    match left.form {
        Form::Tuple(_) => spelt[1..spelt.len() - 1].to_string(),
        _ => spelt,
    }
}

fn spellings(names: &[Name]) -> Vec<String> {
    names.iter().map(|name| name.spelling.to_string()).collect()
}

/// A value without blanks, its numbers spelt in this way.
fn spelled(value: &Value, number: &dyn Fn(&str) -> String) -> String {
    let items = |items: &[Value]| items.iter().map(|item| spelled(item, number)).collect::<Vec<String>>().join(",");
    match &value.form {
        Form::Name(name) => name.to_string(),
        Form::Literal(literal) if literal.is_number() => number(&literal.to_string()),
        Form::Literal(literal) => literal.to_string(),
        Form::Array(values) => format!("[{}]", items(values)),
        Form::Tuple(values) => format!("({})", items(values)),
    }
}
