//! Plans of good documents: their canonical text, and other ways to write them.

use crate::literal;
use crate::model::{operation, Argument, Document, Operation, Parameter, Type, Value};
use crate::rng::Rng;
use crate::spelling::Word;

pub struct Canonical {
    pub text: Vec<u8>,
    pub tokens: usize,
}

/// The document with every parameter named, in declared order, and every
/// literal in its canonical spelling. Two good documents have one plan when
/// these are equal.
pub fn plan(list: &[Operation], document: &Document) -> Document {
    let mut plan = document.clone();
    for call in &mut plan.calls {
        let parameters = operation(list, &call.operation).parameters.iter();
        let values = parameters.enumerate().map(|(index, parameter)| {
            let bound = call.argument_for(index, parameter);
            let value = match bound {
                Some(place) => Some(&call.arguments[place].value),
                None => parameter.default.as_ref(),
            };
            let value = value.expect("a good call binds every parameter without default");
            named(parameter, canonical(value, &parameter.ty))
        });
        call.arguments = values.collect();
    }
    plan
}

/// The canonical text of a good document.
pub fn canonical_text(list: &[Operation], document: &Document) -> Canonical {
    let plan = plan(list, document);
    let mut header = vec![Word::plain("graph ")];
    plan.header_words(&mut header);
    let mut lines = vec![
        ["version ", "1.0"].map(Word::plain).to_vec(),
        header,
        vec![Word::plain("{")],
    ];
    for call in &plan.calls {
        let mut line = Vec::new();
        call.words(true, true, &mut line);
        lines.push(line);
    }
    lines.push(vec![Word::plain("}")]);
    let mut text = Vec::new();
    for line in &lines {
        text.extend(line.iter().flat_map(|word| word.spelling.bytes()));
        text.push(b'\n');
    }
    Canonical {
        text,
        tokens: lines.iter().map(Vec::len).sum(),
    }
}

/// Another way to write the plan of a good document: literals are spelt anew,
/// defaults are written out or not, the first arguments are positional or not,
/// and the others stand in any order.
pub fn respelt(rng: &mut Rng, list: &[Operation], document: &Document) -> Document {
    let mut respelt = plan(list, document);
    for call in &mut respelt.calls {
        let parameters = &operation(list, &call.operation).parameters;
        call.arguments = respelt_arguments(rng, parameters, &call.arguments);
    }
    respelt
}

/// The same operations with the literals of defaults spelt anew.
pub fn respelt_list(rng: &mut Rng, list: &[Operation]) -> Vec<Operation> {
    let mut respelt = list.to_vec();
    for parameter in respelt.iter_mut().flat_map(|o| &mut o.parameters) {
        if let Some(default) = &mut parameter.default {
            *default = respelt_value(rng, default, &parameter.ty);
        }
    }
    respelt
}

/// Other arguments for the same values, which are those of all parameters.
fn respelt_arguments(
    rng: &mut Rng,
    parameters: &[Parameter],
    values: &[Argument],
) -> Vec<Argument> {
    let always = rng.below(parameters.len());
    let mut arguments = Vec::new();
    let mut may_be_positional = 0;
    for (place, (parameter, argument)) in parameters.iter().zip(values).enumerate() {
        if place != always && is_default(parameter, &argument.value) && rng.percent(50) {
            continue;
        }
        if arguments.len() == place && may_be_positional == place && parameter.ty.is_all_tensor() {
            may_be_positional += 1;
        }
        let value = respelt_value(rng, &argument.value, &parameter.ty);
        arguments.push(named(parameter, value));
    }
    let positional = rng.between(0, may_be_positional);
    for argument in &mut arguments[..positional] {
        argument.label = None;
    }
    rng.shuffle(&mut arguments[positional..]);
    arguments
}

/// Whether this value, in its canonical spelling, is what the default says.
fn is_default(parameter: &Parameter, value: &Value) -> bool {
    let default = parameter.default.as_ref();
    default.is_some_and(|default| canonical(default, &parameter.ty) == *value)
}

fn named(parameter: &Parameter, value: Value) -> Argument {
    Argument {
        label: Some(parameter.name.clone()),
        value,
    }
}

/// A value with its literals in their canonical spelling.
fn canonical(value: &Value, ty: &Type) -> Value {
    spelt(value, ty, &mut literal::canonical)
}

/// A value with its literals in some spelling.
fn respelt_value(rng: &mut Rng, value: &Value, ty: &Type) -> Value {
    spelt(value, ty, &mut |literal, basic| {
        literal::respelt(rng, literal, basic)
    })
}

/// A value with each literal as `spell` has it, which is told the basic type
/// that the literal is read at.
fn spelt(value: &Value, ty: &Type, spell: &mut impl FnMut(&str, &str) -> String) -> Value {
    match (value, ty) {
        (Value::Literal(literal), Type::Basic(basic)) => Value::Literal(spell(literal, basic)),
        (Value::Array(items), Type::Array(item_type)) => {
            let items = items.iter().map(|item| spelt(item, item_type, spell));
            Value::Array(items.collect())
        }
        (Value::Tuple(items), Type::Tuple(types)) => {
            let items = items.iter().zip(types);
            let items = items.map(|(item, ty)| spelt(item, ty, spell));
            Value::Tuple(items.collect())
        }
        _ => value.clone(),
    }
}
