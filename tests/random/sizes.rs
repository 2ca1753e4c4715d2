//! Pairs that have nearly, just or more than as many of something as they may.

use crate::model::{Argument, Call, Document, Operation, Parameter, Type, Value};
use crate::rng::Rng;

type Growth = fn(&mut Vec<Operation>, &mut Document, usize);

/// What grows, with its size.
const GROWTHS: &[(Growth, usize)] = &[
    (operations, 128),
    (parameters, 32),
    (results, 8),
    (inputs, 32),
    (outputs, 32),
    (calls, 384),
    (assigned, 1_024),
    (used, 1_024),
];

pub fn near_sizes(rng: &mut Rng) -> (Vec<Operation>, Document) {
    let (mut list, mut document) = small();
    let (grow, size) = rng.pick(GROWTHS);
    let count = rng.between(size - 1, size + 2);
    grow(&mut list, &mut document, count);
    if rng.percent(20) {
        let (grow, size) = rng.pick(&GROWTHS[..5]);
        let count = rng.between(size - 1, size + 2);
        grow(&mut list, &mut document, count);
    }
    (list, document)
}

/// `external` and `each` give arrays, `one` gives a tensor.
fn small() -> (Vec<Operation>, Document) {
    let list = vec![
        operation("external", Type::Basic("extent"), "output"),
        operation("each", Type::tensor(), "y"),
        Operation {
            results: vec![("y".to_string(), Type::tensor())],
            ..operation("one", Type::tensor(), "y")
        },
    ];
    let document = Document {
        version: "1.0".to_string(),
        name: "g".to_string(),
        inputs: vec!["a".to_string()],
        outputs: vec!["z".to_string()],
        calls: vec![
            call(vec!["a".to_string()], "external", vec![Value::literal("1")]),
            call(vec!["z".to_string()], "each", vec![Value::name("a")]),
        ],
    };
    (list, document)
}

/// An operation from an array of the item type to an array of tensors.
fn operation(name: &str, item: Type, result: &str) -> Operation {
    Operation {
        name: name.to_string(),
        parameters: vec![Parameter {
            name: "x".to_string(),
            ty: Type::array(item),
            default: None,
        }],
        results: vec![(result.to_string(), Type::array(Type::tensor()))],
    }
}

fn call(left: Vec<String>, operation: &str, items: Vec<Value>) -> Call {
    Call {
        left: Value::Array(left.into_iter().map(Value::Name).collect()),
        operation: operation.to_string(),
        arguments: vec![Argument {
            label: Some("x".to_string()),
            value: Value::Array(items),
        }],
    }
}

fn numbered(letter: char, count: usize) -> Vec<String> {
    (0..count).map(|n| format!("{letter}{n}")).collect()
}

fn operations(list: &mut Vec<Operation>, _: &mut Document, count: usize) {
    for name in numbered('o', count.saturating_sub(list.len())) {
        list.push(operation(&name, Type::tensor(), "y"));
    }
}

/// An operation with so many parameters, called with as many arguments.
fn parameters(list: &mut Vec<Operation>, document: &mut Document, count: usize) {
    let parameter = |name| Parameter {
        name,
        ty: Type::tensor(),
        default: None,
    };
    list.push(Operation {
        name: "wide".to_string(),
        parameters: numbered('p', count).into_iter().map(parameter).collect(),
        results: vec![("y".to_string(), Type::tensor())],
    });
    let argument = || Argument {
        label: None,
        value: Value::name("a"),
    };
    document.calls.push(Call {
        left: Value::name("w"),
        operation: "wide".to_string(),
        arguments: (0..count).map(|_| argument()).collect(),
    });
}

/// An operation with so many results, and a call that takes them.
fn results(list: &mut Vec<Operation>, document: &mut Document, count: usize) {
    let names = numbered('r', count);
    list.push(Operation {
        name: "many".to_string(),
        results: names.iter().cloned().map(|n| (n, Type::tensor())).collect(),
        ..operation("many", Type::tensor(), "y")
    });
    document.calls.push(Call {
        left: Value::Tuple(names.into_iter().map(Value::Name).collect()),
        ..call(Vec::new(), "many", vec![Value::name("a")])
    });
}

fn inputs(_: &mut Vec<Operation>, document: &mut Document, count: usize) {
    let names = numbered('i', count.saturating_sub(document.inputs.len()));
    document.inputs.extend(names.clone());
    document.calls.push(call(names, "external", Vec::new()));
}

fn outputs(_: &mut Vec<Operation>, document: &mut Document, count: usize) {
    let names = numbered('o', count.saturating_sub(document.outputs.len()));
    document.outputs.extend(names.clone());
    document.calls.push(call(names, "each", Vec::new()));
}

fn calls(_: &mut Vec<Operation>, document: &mut Document, count: usize) {
    for name in numbered('c', count.saturating_sub(document.calls.len())) {
        document.calls.push(Call {
            left: Value::Name(name),
            operation: "one".to_string(),
            arguments: vec![Argument {
                label: None,
                value: Value::Array(Vec::new()),
            }],
        });
    }
}

fn assigned(_: &mut Vec<Operation>, document: &mut Document, count: usize) {
    let names = numbered('v', count - 2);
    document.calls.push(call(names, "each", Vec::new()));
}

fn used(_: &mut Vec<Operation>, document: &mut Document, count: usize) {
    let uses = vec![Value::name("a"); count - 1];
    document.calls.push(call(Vec::new(), "each", uses));
}
