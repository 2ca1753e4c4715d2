//! Changes to what a good document says.

use crate::good::{self, Names};
use crate::literal;
use crate::model::{operation, Argument, Document, Operation, Type, Value};
use crate::plan::plan;
use crate::rng::Rng;

/// A good document with another plan.
pub fn changed(rng: &mut Rng, list: &[Operation], document: &Document) -> Document {
    let before = plan(list, document);
    loop {
        let mut changed = document.clone();
        change(rng, list, &mut changed);
        if plan(list, &changed) != before {
            return changed;
        }
    }
}

/// A change of one thing that leaves the document good, and perhaps as it was.
fn change(rng: &mut Rng, list: &[Operation], document: &mut Document) {
    let place = rng.below(document.calls.len());
    match rng.below(14) {
        0 => document.name = Names::default().fresh(rng),
        1 => exchange(rng, &mut document.inputs),
        2 => exchange(rng, &mut document.outputs),
        3 => rename(rng, document),
        4 => exchange_calls(document, place),
        5 => add_call(rng, list, document),
        6 => drop_last_call(document),
        7 => add_left_item(rng, list, document, place),
        8 => call_twin(rng, list, document, place),
        9 | 10 => change_sign(rng, document, place),
        _ => change_value(rng, list, document, place),
    }
}

fn exchange(rng: &mut Rng, names: &mut [String]) {
    let (one, other) = (rng.below(names.len()), rng.below(names.len()));
    names.swap(one, other);
}

/// Gives an identifier a new name, wherever it stands.
fn rename(rng: &mut Rng, document: &mut Document) {
    let taken = assigned(document, document.calls.len());
    let old = taken[rng.below(taken.len())].clone();
    let new = Names::other_than(taken).fresh(rng);
    let rename = |name: &mut String| {
        if *name == old {
            name.clone_from(&new);
        }
    };
    document.inputs.iter_mut().for_each(&rename);
    document.outputs.iter_mut().for_each(&rename);
    for call in &mut document.calls {
        each_name(&mut call.left, &rename);
        for argument in &mut call.arguments {
            each_name(&mut argument.value, &rename);
        }
    }
}

/// Exchanges a call and the next one, unless that uses what it assigns.
fn exchange_calls(document: &mut Document, place: usize) {
    let Some(next) = document.calls.get(place + 1) else {
        return;
    };
    let assigned = document.calls[place].left.names();
    let uses = next
        .arguments
        .iter()
        .flat_map(|argument| argument.value.names());
    if !uses.into_iter().any(|name| assigned.contains(&name)) {
        document.calls.swap(place, place + 1);
    }
}

fn add_call(rng: &mut Rng, list: &[Operation], document: &mut Document) {
    let operation = &list[rng.below(list.len())];
    if operation.name != "external" && good::matchable(&operation.result_type()) {
        let identifiers = assigned(document, document.calls.len());
        let mut names = Names::other_than(identifiers.clone());
        let (call, _) = good::call(rng, operation, &identifiers, &mut names);
        document.calls.push(call);
    }
}

/// Takes the last call out, unless it assigns an input or an output.
fn drop_last_call(document: &mut Document) {
    let last = document.calls.last().map(|call| call.left.names());
    let is_header_name = |name| document.inputs.contains(name) || document.outputs.contains(name);
    if document.calls.len() > 1 && !last.iter().flatten().any(is_header_name) {
        document.calls.pop();
    }
}

/// Assigns one identifier more where a call gives an array of tensors.
fn add_left_item(rng: &mut Rng, list: &[Operation], document: &mut Document, place: usize) {
    let mut names = Names::other_than(assigned(document, document.calls.len()));
    let call = &mut document.calls[place];
    let result_type = operation(list, &call.operation).result_type();
    match &mut call.left {
        Value::Array(items)
            if call.operation != "external" && result_type == Type::array(Type::tensor()) =>
        {
            items.push(Value::Name(names.fresh(rng)));
        }
        _ => {}
    }
}

/// Calls another operation with the same parameters and results, if there is one.
fn call_twin(rng: &mut Rng, list: &[Operation], document: &mut Document, place: usize) {
    let called = operation(list, &document.calls[place].operation);
    let is_twin = |other: &&Operation| {
        other.parameters == called.parameters && other.results == called.results
    };
    let twins: Vec<&Operation> = list.iter().filter(is_twin).collect();
    let twin = rng.pick(&twins);
    if called.name != "external" && twin.name != "external" {
        document.calls[place].operation.clone_from(&twin.name);
    }
}

/// Gives a parameter of a call another value.
fn change_value(rng: &mut Rng, list: &[Operation], document: &mut Document, place: usize) {
    let identifiers = assigned(document, place);
    let call = &mut document.calls[place];
    let parameters = &operation(list, &call.operation).parameters;
    let index = rng.below(parameters.len());
    let parameter = &parameters[index];
    let value = good::value(rng, &parameter.ty, &identifiers);
    match call.argument_for(index, parameter) {
        Some(place) => call.arguments[place].value = value,
        None => call.arguments.push(Argument {
            label: Some(parameter.name.clone()),
            value,
        }),
    }
}

/// Gives a number of a call the other sign, if one of its literals is picked that may have it.
fn change_sign(rng: &mut Rng, document: &mut Document, place: usize) {
    let mut literals = Vec::new();
    for argument in &mut document.calls[place].arguments {
        add_literals(&mut argument.value, &mut literals);
    }
    if !literals.is_empty() {
        let place = rng.below(literals.len());
        *literals[place] = literal::negated(literals[place]);
    }
}

/// Adds the literals of a value to these.
fn add_literals<'v>(value: &'v mut Value, all: &mut Vec<&'v mut String>) {
    match value {
        Value::Name(_) => {}
        Value::Literal(literal) => all.push(literal),
        Value::Array(items) | Value::Tuple(items) => {
            items.iter_mut().for_each(|item| add_literals(item, all));
        }
    }
}

/// The identifiers that the calls before this place assign.
fn assigned(document: &Document, place: usize) -> Vec<String> {
    let calls = document.calls[..place].iter();
    calls.flat_map(|call| call.left.names()).collect()
}

fn each_name(value: &mut Value, change: &impl Fn(&mut String)) {
    match value {
        Value::Name(name) => change(name),
        Value::Literal(_) => {}
        Value::Array(items) | Value::Tuple(items) => {
            items.iter_mut().for_each(|item| each_name(item, change));
        }
    }
}
