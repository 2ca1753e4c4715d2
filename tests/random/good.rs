//! Good operation lists, and good documents under them.

use crate::model::{Argument, Call, Document, Operation, Parameter, Type, Value};
use crate::rng::Rng;
use crate::spelling::WORD_BYTES;
use std::collections::HashSet;

const TENSOR: &[&str] = &["tensor"];
pub const BASIC: &[&str] = &["tensor", "extent", "scalar", "logical", "string"];

#[rustfmt::skip]
const WHOLE: &[&str] = &[
    "0", "1", "2", "10", "007", "00", "640", "2147483646", "2147483647", "0000000000002147483647",
];
#[rustfmt::skip]
const GREAT: &[&str] = &[
    "2147483648", "2147483649", "4294967296", "999999999999999999", "21474836470", "18000000000000000000000",
];
/// The least extent, without its sign.
const LEAST: &[&str] = &["2147483648", "000002147483648"];
#[rustfmt::skip]
const REAL: &[&str] = &[
    "0.0", "0.50", "1.0", "2e0", "1E-5", "3.25e+2", "1e999", "0.000e9999", "120.00", "2147483647.0",
    "5e-1", "1e-999", "0.001e1002", "123456789012345678.0e-20",
];
#[rustfmt::skip]
const STRINGS: &[&str] = &[
    "''", "\"\"", "'constant'", "\"it's\"", "'say \"x\"'", "'#'", "'(['", "'a,b'", "'true'",
];
/// Names that are near to keywords, or mean something elsewhere.
const NAMES: &[&str] = &["in_", "graph1", "_", "external", "True", "tensors", "e5"];

/// With more inputs than this `external` is not called again; one call gives 27 at most.
const ENOUGH_INPUTS: usize = 5;

/// A good list. It declares `external`, and another operation that gives a tensor.
pub fn list(rng: &mut Rng) -> Vec<Operation> {
    let mut names = Names::other_than(["external".to_string()]);
    let count = rng.pick(&[2, 2, 3, 4, 6, 12]);
    let mut list: Vec<Operation> = (0..count)
        .map(|_| {
            let name = names.fresh(rng);
            operation(rng, name)
        })
        .collect();
    list[0].name = "external".to_string();
    for (_, ty) in &mut list[0].results {
        *ty = any_type(rng, TENSOR, 2);
    }
    list[1].results.truncate(1);
    list[1].results[0].1 = Type::tensor();
    rng.shuffle(&mut list);
    list
}

fn operation(rng: &mut Rng, name: String) -> Operation {
    let mut names = Names::default();
    let count = rng.pick(&[1, 1, 2, 3, 4, 8]);
    let parameters = (0..count).map(|_| parameter(rng, &mut names)).collect();
    let count = rng.pick(&[1, 1, 1, 2, 3]);
    let results = (0..count)
        .map(|_| {
            let basic = if rng.percent(85) { TENSOR } else { BASIC };
            (names.fresh(rng), any_type(rng, basic, 2))
        })
        .collect();
    Operation {
        name,
        parameters,
        results,
    }
}

fn parameter(rng: &mut Rng, names: &mut Names) -> Parameter {
    let basic = if rng.percent(50) { TENSOR } else { BASIC };
    let ty = any_type(rng, basic, 2);
    let default = if rng.percent(55) {
        Some(value(rng, &ty, &[]))
    } else {
        None
    };
    Parameter {
        name: names.fresh(rng),
        ty,
        default,
    }
}

/// A type made of these basic types, with at most this many brackets in its values.
pub fn any_type(rng: &mut Rng, basic: &[&'static str], depth: usize) -> Type {
    let choice = if depth == 0 { 0 } else { rng.below(10) };
    match choice {
        0..=6 => Type::Basic(rng.pick(basic)),
        7..=8 => Type::array(any_type(rng, basic, depth - 1)),
        _ => {
            let count = rng.between(2, 3);
            let items = (0..count).map(|_| any_type(rng, basic, depth - 1));
            Type::Tuple(items.collect())
        }
    }
}

/// A value that fits a type; its names are among these identifiers.
pub fn value(rng: &mut Rng, ty: &Type, identifiers: &[String]) -> Value {
    match ty {
        Type::Basic("tensor") if !identifiers.is_empty() && rng.percent(75) => {
            Value::Name(identifiers[rng.below(identifiers.len())].clone())
        }
        Type::Basic(basic) => Value::Literal(literal(rng, basic)),
        Type::Array(item) => {
            let count = rng.pick(&[0, 1, 1, 2, 3]);
            Value::Array((0..count).map(|_| value(rng, item, identifiers)).collect())
        }
        Type::Tuple(items) => {
            let items = items.iter().map(|item| value(rng, item, identifiers));
            Value::Tuple(items.collect())
        }
    }
}

/// A literal that fits a basic type. Numbers often have a sign.
fn literal(rng: &mut Rng, basic: &str) -> String {
    let kinds: &[&[&str]] = match basic {
        "extent" => &[WHOLE, WHOLE, WHOLE, LEAST],
        "scalar" => &[WHOLE, GREAT, REAL],
        "logical" => &[&["true", "false"]],
        "string" => &[STRINGS],
        _ => &[WHOLE, GREAT, REAL, &["true", "false"]],
    };
    let kind = rng.pick(kinds);
    let spelling = rng.pick(kind);
    let is_number = spelling.as_bytes()[0].is_ascii_digit();
    if kind == LEAST || is_number && rng.percent(40) {
        return format!("-{spelling}");
    }
    spelling.to_string()
}

/// A good document under a list of this module.
pub fn document(rng: &mut Rng, list: &[Operation]) -> Document {
    let mut operations: Vec<&Operation> = Vec::new();
    operations.extend(list.iter().find(|o| o.name == "external"));
    operations.extend(list.iter().find(|o| gives_tensor(o)));
    let callable: Vec<&Operation> = list
        .iter()
        .filter(|o| matchable(&o.result_type()))
        .collect();
    let count = rng.pick(&[0, 0, 1, 3, 7, 12]);
    operations.extend(rng.picks(&callable, count));
    rng.shuffle(&mut operations);

    let mut names = Names::default();
    let mut identifiers = Vec::new();
    let mut inputs = Vec::new();
    let mut others = Vec::new();
    let mut calls = Vec::new();
    for operation in operations {
        if operation.name == "external" && inputs.len() > ENOUGH_INPUTS {
            continue;
        }
        let (call, assigned) = call(rng, operation, &identifiers, &mut names);
        calls.push(call);
        identifiers.extend(assigned.clone());
        if operation.name == "external" {
            inputs.extend(assigned);
        } else {
            others.extend(assigned);
        }
    }
    rng.shuffle(&mut inputs);
    rng.shuffle(&mut others);
    let outputs = rng.between(1, 3);
    others.truncate(outputs);
    Document {
        version: "1.0".to_string(),
        name: Names::default().fresh(rng),
        inputs,
        outputs: others,
        calls,
    }
}

/// A good call with new names on its left side, and these names.
pub fn call(
    rng: &mut Rng,
    operation: &Operation,
    identifiers: &[String],
    names: &mut Names,
) -> (Call, Vec<String>) {
    let arguments = arguments(rng, operation, identifiers);
    let mut assigned = Vec::new();
    let left = left(rng, &operation.result_type(), names, &mut assigned);
    let call = Call {
        left,
        operation: operation.name.clone(),
        arguments,
    };
    (call, assigned)
}

fn gives_tensor(operation: &Operation) -> bool {
    operation.name != "external" && operation.result_type() == Type::tensor()
}

/// Whether some left side matches a type.
pub fn matchable(ty: &Type) -> bool {
    match ty {
        Type::Basic(basic) => *basic == "tensor",
        Type::Array(_) => true,
        Type::Tuple(items) => items.iter().all(matchable),
    }
}

/// A left side that matches a type, of new names, which are noted. An array has
/// items wherever it can, so that `external` gives an input.
fn left(rng: &mut Rng, ty: &Type, names: &mut Names, assigned: &mut Vec<String>) -> Value {
    match ty {
        Type::Basic(_) => {
            let name = names.fresh(rng);
            assigned.push(name.clone());
            Value::Name(name)
        }
        Type::Array(item) => {
            let count = if matchable(item) {
                rng.between(1, 3)
            } else {
                0
            };
            let items = (0..count).map(|_| left(rng, item, names, assigned));
            Value::Array(items.collect())
        }
        Type::Tuple(items) => {
            let items = items.iter().map(|item| left(rng, item, names, assigned));
            Value::Tuple(items.collect())
        }
    }
}

/// Arguments that bind every parameter without default: first some positional
/// ones, then named ones in any order.
fn arguments(rng: &mut Rng, operation: &Operation, identifiers: &[String]) -> Vec<Argument> {
    let parameters = &operation.parameters;
    let all_tensor = parameters.iter().take_while(|p| p.ty.is_all_tensor());
    let positional = rng.between(0, all_tensor.count());
    let mut named: Vec<&Parameter> = parameters[positional..]
        .iter()
        .filter(|p| p.default.is_none() || rng.percent(50))
        .collect();
    if positional + named.len() == 0 {
        named.push(&parameters[0]);
    }
    rng.shuffle(&mut named);
    let mut argument = |label, ty| Argument {
        label,
        value: value(rng, ty, identifiers),
    };
    let mut arguments: Vec<Argument> = parameters[..positional]
        .iter()
        .map(|p| argument(None, &p.ty))
        .collect();
    arguments.extend(named.iter().map(|p| argument(Some(p.name.clone()), &p.ty)));
    arguments
}

/// Names of which no two are the same.
#[derive(Default)]
pub struct Names {
    taken: HashSet<String>,
}

impl Names {
    /// Names that are none of these.
    pub fn other_than(taken: impl IntoIterator<Item = String>) -> Names {
        Names {
            taken: taken.into_iter().collect(),
        }
    }

    pub fn fresh(&mut self, rng: &mut Rng) -> String {
        loop {
            let name = match rng.below(20) {
                0 => rng.pick(NAMES).to_string(),
                1 => name(rng, 64),
                _ => {
                    let length = rng.pick(&[1, 1, 2, 3, 6]);
                    name(rng, length)
                }
            };
            if self.taken.insert(name.clone()) {
                return name;
            }
        }
    }
}

/// A name of this length; the `x` at its end or the letter alone keep it from
/// being a keyword.
fn name(rng: &mut Rng, length: usize) -> String {
    let letter = rng.pick(b"abcdxyz_");
    let rest = rng.picks(WORD_BYTES, length - 1);
    let mut bytes = [&[letter], &rest[..]].concat();
    bytes[length - 1] = rng.pick(b"abxyz_");
    String::from_utf8(bytes).expect("names are of ASCII bytes")
}
