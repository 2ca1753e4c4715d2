//! Pairs whose canonical text has nearly, just or more than as many bytes or
//! tokens as a text may have. The documents are far shorter than their canonical
//! text, most of which comes from a default.

use crate::model::{Argument, Call, Document, Operation, Parameter, Type, Value};
use crate::plan::canonical_text;
use crate::rng::Rng;

pub fn near_limits(rng: &mut Rng) -> (Vec<Operation>, Document) {
    let beyond = rng.between(0, 4);
    if rng.percent(50) {
        near_bytes(rng, 16_382 + beyond)
    } else {
        near_tokens(rng, 4_094 + beyond)
    }
}

/// A canonical text of so many bytes.
fn near_bytes(rng: &mut Rng, bytes: usize) -> (Vec<Operation>, Document) {
    let default = rng.between(60, 80);
    let list = list(Type::Basic("string"), string(default));
    let size = |calls| {
        canonical_text(&list, &document(calls, string(0)))
            .text
            .len()
    };
    let each = size(1) - size(0);
    let rest = bytes - size(0);
    let document = document(rest / each, string(rest % each));
    (list, document)
}

/// A canonical text of so many tokens.
fn near_tokens(rng: &mut Rng, tokens: usize) -> (Vec<Operation>, Document) {
    let default = array(rng.between(80, 100), rng.pick(&["1", "-1", "-0"]));
    let list = list(Type::array(Type::Basic("extent")), default);
    let size = |calls| canonical_text(&list, &document(calls, array(1, "1"))).tokens;
    let each = size(1) - size(0);
    let rest = tokens - size(0);
    // An item more takes two tokens, and a sign one.
    let (calls, rest) = (rest / each, rest % each);
    let mut items = vec![Value::literal("1"); rest / 2];
    items.push(Value::literal(if rest % 2 == 1 { "-1" } else { "-0" }));
    (list, document(calls, Value::Array(items)))
}

/// `external`, and an operation with a default of this type.
fn list(ty: Type, default: Value) -> Vec<Operation> {
    let parameter = |name: &str, ty, default| Parameter {
        name: name.to_string(),
        ty,
        default,
    };
    let operation = |name: &str, parameters| Operation {
        name: name.to_string(),
        parameters,
        results: vec![("z".to_string(), Type::tensor())],
    };
    let shape = parameter("shape", Type::array(Type::Basic("extent")), None);
    let x = parameter("x", Type::tensor(), None);
    let y = parameter("y", ty, Some(default));
    vec![
        operation("external", vec![shape]),
        operation("fill", vec![x, y]),
    ]
}

/// So many calls that leave the default out, and one that writes this value.
fn document(calls: usize, last: Value) -> Document {
    let argument = |label: Option<&str>, value| Argument {
        label: label.map(str::to_string),
        value,
    };
    let call = |left: &str, operation: &str, arguments| Call {
        left: Value::name(left),
        operation: operation.to_string(),
        arguments,
    };
    let a = || argument(None, Value::name("a"));
    let shape = argument(Some("shape"), array(1, "1"));
    let mut all = vec![call("a", "external", vec![shape])];
    all.extend((0..calls).map(|n| call(&format!("f{n:03}"), "fill", vec![a()])));
    all.push(call("z", "fill", vec![a(), argument(Some("y"), last)]));
    Document {
        version: "1.0".to_string(),
        name: "g".to_string(),
        inputs: vec!["a".to_string()],
        outputs: vec!["z".to_string()],
        calls: all,
    }
}

fn string(bytes: usize) -> Value {
    Value::Literal(format!("'{}'", "s".repeat(bytes)))
}

fn array(items: usize, item: &str) -> Value {
    Value::Array(vec![Value::literal(item); items])
}
