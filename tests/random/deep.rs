//! Pairs with about as many brackets open as may be.

use crate::model::{Argument, Call, Document, Operation, Parameter, Type, Value};
use crate::rng::Rng;

/// One bracket around something.
#[derive(Clone, Copy)]
enum Around {
    Array,
    /// A tuple with another item before it.
    TupleAfter,
    /// A tuple with another item behind it.
    TupleBefore,
}

const AROUND: &[Around] = &[Around::Array, Around::TupleAfter, Around::TupleBefore];

/// An operation whose types, default, arguments and left side have about eight
/// brackets, mostly of the same sorts.
pub fn deep(rng: &mut Rng) -> (Vec<Operation>, Document) {
    let depth = rng.between(6, 10);
    let sorts = rng.between(1, 3);
    let literal = rng.pick(&["1", "-1", "-0"]);
    let brackets = rng.picks(&AROUND[..sorts], depth);
    let mut similar = || {
        let mut brackets = brackets.clone();
        if rng.percent(20) {
            brackets.pop();
        }
        if rng.percent(20) {
            brackets.push(rng.pick(AROUND));
        }
        brackets
    };
    let parameter = Parameter {
        name: "x".to_string(),
        ty: deep_type(&similar()),
        default: Some(deep_value(&similar(), || Value::literal(literal))),
    };
    let list = vec![
        Operation {
            name: "external".to_string(),
            parameters: vec![parameter.clone()],
            results: vec![("y".to_string(), Type::tensor())],
        },
        Operation {
            name: "deep".to_string(),
            parameters: vec![parameter],
            results: vec![("y".to_string(), deep_type(&similar()))],
        },
    ];
    let mut count = 0;
    let left = deep_value(&similar(), || {
        count += 1;
        Value::Name(format!("z{count}"))
    });
    let document = Document {
        version: "1.0".to_string(),
        name: "g".to_string(),
        inputs: vec!["a".to_string()],
        outputs: vec!["z1".to_string()],
        calls: vec![
            Call {
                left: Value::name("a"),
                operation: "external".to_string(),
                arguments: vec![Argument {
                    label: Some("x".to_string()),
                    value: deep_value(&similar(), || Value::literal(literal)),
                }],
            },
            Call {
                left,
                operation: "deep".to_string(),
                arguments: vec![Argument {
                    label: None,
                    value: deep_value(&similar(), || Value::name("a")),
                }],
            },
        ],
    };
    (list, document)
}

fn deep_type(brackets: &[Around]) -> Type {
    let around = |inner, bracket: &Around| match bracket {
        Around::Array => Type::array(inner),
        Around::TupleAfter => Type::Tuple(vec![Type::tensor(), inner]),
        Around::TupleBefore => Type::Tuple(vec![inner, Type::tensor()]),
    };
    brackets.iter().fold(Type::tensor(), around)
}

fn deep_value(brackets: &[Around], mut leaf: impl FnMut() -> Value) -> Value {
    let innermost = leaf();
    let around = |inner, bracket: &Around| match bracket {
        Around::Array => Value::Array(vec![inner]),
        Around::TupleAfter => Value::Tuple(vec![leaf(), inner]),
        Around::TupleBefore => Value::Tuple(vec![inner, leaf()]),
    };
    brackets.iter().fold(innermost, around)
}
