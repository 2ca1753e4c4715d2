//! The rules of an operation list, a function for each code.

use crate::codes;
use crate::fault::{Fault, First};
use crate::fitting::Fitting;
use crate::limits;
use crate::token::Token;
use crate::tree::List;

/// Refuses with the first fault of the list, or numbers its names.
pub fn keep(list: &mut List) -> Result<(), Fault> {
    let mut first = First::default();
    too_many(list, &mut first);
    repeated_operations(list, &mut first);
    repeated_in_headers(list, &mut first);
    unfit_defaults(list, &mut first);
    first.none()
}

/// 12: operations, parameters of one or results of one above their size.
fn too_many(list: &List, first: &mut First) {
    if let Some(operation) = list.operations.get(limits::OPERATIONS) {
        first.note(codes::TOO_MANY, operation.position);
    }
    for operation in &list.operations {
        if let Some(parameter) = operation.parameters(list).get(limits::PARAMETERS) {
            first.note(codes::TOO_MANY, parameter.name.position());
        }
        if let Some(result) = operation.results.of(&list.results).get(limits::RESULTS) {
            first.note(codes::TOO_MANY, result.position());
        }
    }
}

/// 13: an operation name repeated; at the second one.
fn repeated_operations(list: &mut List, first: &mut First) {
    for (index, operation) in list.operations.iter().enumerate() {
        let (_, meaning) = list.names.enter(operation.name);
        if meaning.operation.is_some() {
            first.note(codes::REPEATED, operation.name.position());
        } else {
            meaning.operation = Some(index as u16);
        }
    }
}

/// 13: a name repeated among one header's parameters and results; at the second one.
fn repeated_in_headers(list: &mut List, first: &mut First) {
    let names = &mut list.names;
    let mut enter = |header: usize, name: Token| {
        let (number, meaning) = names.enter(name);
        if meaning.header == Some(header as u16) {
            first.note(codes::REPEATED, name.position());
        }
        meaning.header = Some(header as u16);
        number
    };
    for (header, operation) in list.operations.iter().enumerate() {
        let parameters = operation.parameters.of_mut(&mut list.parameters);
        for parameter in parameters {
            parameter.number = enter(header, parameter.name);
        }
        for result in operation.results.of(&list.results) {
            enter(header, *result);
        }
    }
}

/// 14: a default that does not fit; at its start.
fn unfit_defaults(list: &List, first: &mut First) {
    let fitting = Fitting {
        types: &list.types,
        text: list.text,
    };
    for parameter in &list.parameters {
        let default = parameter.default.of(&list.tokens);
        if !default.is_empty() && !fitting.fits(default, parameter.ty) {
            first.note(codes::UNFIT_DEFAULT, default[0].position());
        }
    }
}
