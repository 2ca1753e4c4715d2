//! Faults of an operation list's rules: codes 12 to 14.

use super::Hint;
use crate::place::line;
use crate::tree::{Name, Operation};
use sluicegnome::{limits, Code, Refusal};

pub fn hint(plain: Hint, text: &[u8], list: &[Operation], fault: &Refusal) -> Hint {
    match fault.code {
        Code::TooMany => too_many(plain, list, fault.position),
        Code::Repeated => repeated(plain, text, list, fault.position),
        Code::BadDefault => bad_default(plain, text, list, fault.position),
        _ => plain,
    }
}

fn too_many(plain: Hint, list: &[Operation], position: usize) -> Hint {
    let plain = plain.caused_by("the list is larger than the library reads");
    if list.iter().any(|operation| operation.position == position) {
        return plain.says(format!("the list has more than {} operations", limits::OPERATIONS)).long("fragment".len());
    }
    for operation in list {
        let name = operation.name.spelling;
        if let Some(parameter) = operation.parameters.iter().find(|parameter| parameter.name.position == position) {
            let sentence = format!("`{name}` has more than {} parameters", limits::PARAMETERS);
            return plain.says(sentence).long(parameter.name.spelling.len());
        }
        if let Some((result, _)) = operation.results.iter().find(|(result, _)| result.position == position) {
            return plain.says(format!("`{name}` has more than {} results", limits::RESULTS)).long(result.spelling.len());
        }
    }
    plain
}

fn repeated(plain: Hint, text: &[u8], list: &[Operation], position: usize) -> Hint {
    let operations: Vec<Name> = list.iter().map(|operation| operation.name).collect();
    if let Some((first, name)) = first_of(&operations, position) {
        let sentence = format!("the operation `{name}` is declared again; it is declared in line {} already", line(text, first));
        return plain.says(sentence).helped_by("remove one of the two declarations").long(name.len());
    }
    for operation in list {
        let parameters = operation.parameters.iter().map(|parameter| parameter.name);
        let names: Vec<Name> = parameters.chain(operation.results.iter().map(|(name, _)| *name)).collect();
        if let Some((_, name)) = first_of(&names, position) {
            let sentence = format!("`{name}` stands twice among the parameters and results of `{}`", operation.name.spelling);
            return plain.says(sentence).long(name.len());
        }
    }
    plain
}

/// The place where the name at this position stands first, if it stands there again.
pub fn first_of<'a>(names: &[Name<'a>], position: usize) -> Option<(usize, &'a str)> {
    let again = names.iter().find(|name| name.position == position)?;
    let first = names.iter().find(|name| name.spelling == again.spelling)?;
    (first.position != position).then_some((first.position, again.spelling))
}

fn bad_default(plain: Hint, text: &[u8], list: &[Operation], position: usize) -> Hint {
    for operation in list {
        for parameter in &operation.parameters {
            if let Some(default) = parameter.default.as_ref().filter(|default| default.position == position) {
                let length = default.end - default.position;
                let shown = crate::escape::escaped(&text[default.position..default.end]);
                let (name, ty) = (parameter.name.spelling, &parameter.ty);
                let sentence = format!("the default `{shown}` does not fit `{name}: {ty}` of `{}`", operation.name.spelling);
                let help = super::document::mend_value(default, ty);
                return plain.says(sentence).helped_by(help).long(length);
            }
        }
    }
    plain
}
