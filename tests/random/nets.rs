//! Good pairs with many calls and wires.

use crate::model::{Argument, Call, Document, Operation, Parameter, Type, Value};
use crate::rng::Rng;

/// Tokens of the calls and uses of identifiers, at most; a text has room for more.
const TOKENS: usize = 3_900;
const USES: usize = 1_000;

/// Calls of `external`, at most.
const INPUTS: usize = 30;

/// A few operations, and a document with so many calls, or fewer where they
/// would not fit in a text. Most use what earlier ones assign.
pub fn net(rng: &mut Rng, calls: usize) -> (Vec<Operation>, Document) {
    let mut net = Net::default();
    net.call(rng, "external");
    while net.calls.len() + 1 < calls && net.tokens < TOKENS && net.uses < USES {
        let operation = match rng.below(20) {
            0 if net.inputs.len() < INPUTS => "external",
            0..=12 => "join",
            13..=16 => "pair",
            _ => "split",
        };
        net.call(rng, operation);
    }
    net.call(rng, "join");
    rng.shuffle(&mut net.inputs);
    rng.shuffle(&mut net.others);
    net.others.truncate(rng.between(1, 3));
    let document = Document {
        version: "1.0".to_string(),
        name: "net".to_string(),
        inputs: net.inputs,
        outputs: net.others,
        calls: net.calls,
    };
    (list(), document)
}

/// `external`, and operations from an array of tensors to a tensor, to two, and to an array.
fn list() -> Vec<Operation> {
    let result = |name: &str, ty| (name.to_string(), ty);
    let operation = |name: &str, item, results| Operation {
        name: name.to_string(),
        parameters: vec![Parameter {
            name: "x".to_string(),
            ty: Type::array(item),
            default: None,
        }],
        results,
    };
    let one = vec![result("y", Type::tensor())];
    let two = vec![result("y", Type::tensor()), result("z", Type::tensor())];
    let many = vec![result("y", Type::array(Type::tensor()))];
    vec![
        operation("external", Type::Basic("extent"), one.clone()),
        operation("join", Type::tensor(), one),
        operation("pair", Type::tensor(), two),
        operation("split", Type::tensor(), many),
    ]
}

#[derive(Default)]
struct Net {
    calls: Vec<Call>,
    /// What the calls assign, in their order.
    assigned: Vec<String>,
    inputs: Vec<String>,
    others: Vec<String>,
    tokens: usize,
    uses: usize,
}

impl Net {
    /// Adds a call with new names on its left side.
    fn call(&mut self, rng: &mut Rng, operation: &str) {
        let items: Vec<Value> = match operation {
            "external" => vec![Value::literal("1")],
            _ => (0..rng.pick(&[0, 1, 1, 2, 2, 2, 3, 5]))
                .map(|_| self.used(rng))
                .collect(),
        };
        self.tokens += 9 + 2 * items.len();
        let label = match rng.percent(30) || operation == "external" {
            true => Some("x".to_string()),
            false => None,
        };
        let left = match operation {
            "pair" => Value::Tuple(self.fresh(2, false)),
            "split" => Value::Array(self.fresh(rng.below(4), false)),
            _ => self.fresh(1, operation == "external").remove(0),
        };
        self.calls.push(Call {
            left,
            operation: operation.to_string(),
            arguments: vec![Argument {
                label,
                value: Value::Array(items),
            }],
        });
    }

    /// One of the last identifiers, or of all, or a number.
    fn used(&mut self, rng: &mut Rng) -> Value {
        if rng.percent(5) {
            return Value::literal("0.5");
        }
        let count = self.assigned.len();
        let back = match rng.percent(60) {
            true => rng.below(count.min(4)),
            false => rng.below(count),
        };
        self.uses += 1;
        Value::name(&self.assigned[count - 1 - back])
    }

    /// So many new names.
    fn fresh(&mut self, count: usize, input: bool) -> Vec<Value> {
        let first = self.assigned.len();
        let names = (first..first + count).map(|number| format!("v{number}"));
        let names: Vec<String> = names.collect();
        self.tokens += 2 * count;
        self.assigned.extend(names.clone());
        match input {
            true => self.inputs.extend(names.clone()),
            false => self.others.extend(names.clone()),
        }
        names.into_iter().map(Value::Name).collect()
    }
}
