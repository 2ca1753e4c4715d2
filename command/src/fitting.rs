//! Which values a type takes, and which parameter each argument binds.

use crate::tree::{Argument, Form, Literal, Operation, Type, Value};
use sluicegnome::Kind;

/// The least and the greatest whole number that fit extent.
pub const LEAST_EXTENT: i64 = -2_147_483_648;
pub const GREATEST_EXTENT: i64 = 2_147_483_647;

/// Whether a value fits a type. A left side matches the results when it fits their type.
pub fn fits(value: &Value, ty: &Type) -> bool {
    match (&value.form, ty) {
        (Form::Name(_), Type::Basic(word)) => *word == "tensor",
        (Form::Literal(literal), Type::Basic(word)) => literal_fits(literal, word),
        (Form::Array(items), Type::Array(item_type)) => items.iter().all(|item| fits(item, item_type)),
        (Form::Tuple(items), Type::Tuple(types)) => items.len() == types.len() && items.iter().zip(types).all(|(item, ty)| fits(item, ty)),
        _ => false,
    }
}

fn literal_fits(literal: &Literal, word: &str) -> bool {
    match word {
        "tensor" => literal.kind != Kind::String,
        "extent" => literal.kind == Kind::Whole && is_extent(literal),
        "scalar" => literal.is_number(),
        "logical" => literal.kind == Kind::Logical,
        _ => literal.kind == Kind::String,
    }
}

/// Whether a whole number is an extent. One that is too long for 64 bits is none.
fn is_extent(whole: &Literal) -> bool {
    let value: Result<i64, _> = whole.to_string().parse();
    value.is_ok_and(|value| (LEAST_EXTENT..=GREATEST_EXTENT).contains(&value))
}

/// What becomes of an argument.
#[derive(Clone, Copy, Debug, PartialEq, Eq)]
pub enum Binding {
    /// It binds the parameter at this place.
    To(usize),
    /// It is positional and stands after a named one.
    AfterNamed,
    /// It is positional and stands beyond the parameters.
    Beyond,
    /// It is positional, and the parameter at its place is not all tensor.
    NotTensor,
    /// It is named, and no parameter has that name.
    Unknown,
    /// It is named, and its parameter is bound already.
    Bound,
}

/// What becomes of each argument of a call of this operation.
pub fn bindings(operation: &Operation, arguments: &[Argument]) -> Vec<Binding> {
    let mut bindings = Vec::with_capacity(arguments.len());
    let mut after_named = false;
    for (place, argument) in arguments.iter().enumerate() {
        let named = argument.label.map(|label| operation.parameters.iter().position(|p| p.name.spelling == label.spelling));
        bindings.push(match named {
            None if after_named => Binding::AfterNamed,
            None => positional(operation, place),
            Some(None) => Binding::Unknown,
            Some(Some(index)) if bindings.contains(&Binding::To(index)) => Binding::Bound,
            Some(Some(index)) => Binding::To(index),
        });
        after_named |= named.is_some();
    }
    bindings
}

fn positional(operation: &Operation, place: usize) -> Binding {
    match operation.parameters.get(place) {
        None => Binding::Beyond,
        Some(parameter) if parameter.ty.is_all_tensor() => Binding::To(place),
        Some(_) => Binding::NotTensor,
    }
}

/// The first parameter without default that nothing is bound to.
pub fn first_unbound(operation: &Operation, bindings: &[Binding]) -> Option<usize> {
    let mut parameters = operation.parameters.iter().enumerate();
    let unbound = parameters.find(|(index, p)| p.default.is_none() && !bindings.contains(&Binding::To(*index)));
    unbound.map(|(index, _)| index)
}
