//! Faults of a document's rules: codes 11 to 24.

use super::list::first_of;
use super::Hint;
use crate::escape::escaped;
use crate::fitting::{bindings, fits, Binding, GREATEST_EXTENT, LEAST_EXTENT};
use crate::near::nearest;
use crate::number::counted;
use crate::place::line;
use crate::rules::assigners;
use crate::tree::{Argument, Call, Document, Form, Name, Operation, Type, Value};
use sluicegnome::{limits, Code, Kind, Refusal};

/// A document, its text, and the operations that it may call.
pub struct Parts<'a> {
    pub text: &'a [u8],
    pub list: &'a [Operation<'a>],
    pub tree: &'a Document<'a>,
}

pub fn hint(plain: Hint, parts: &Parts, fault: &Refusal) -> Hint {
    let words = plain.clone();
    let position = fault.position;
    let hint = match fault.code {
        Code::Version => parts.version(words),
        Code::TooMany => parts.too_many(words, position),
        Code::Repeated => parts.repeated(words, position),
        Code::Undeclared => parts.undeclared(words, position),
        Code::Misplaced => parts.misplaced(words, position),
        Code::Misnamed => parts.misnamed(words, position),
        Code::Misfit => parts.misfit(words, position),
        Code::Missing => parts.missing(words, position, fault.detail),
        Code::Unmatched => parts.unmatched(words, position),
        Code::Again => parts.again(words, position),
        Code::Unassigned => parts.unassigned(words, position),
        Code::Misfed => parts.misfed(words, position),
        Code::Unmade => parts.unmade(words, position),
        _ => None,
    };
    hint.unwrap_or(plain)
}

impl Parts<'_> {
    fn version(&self, plain: Hint) -> Option<Hint> {
        let version = self.tree.version.spelling;
        Some(plain.says(format!("the version is `{version}`; only `1.0`, spelt so, is read")).long(version.len()))
    }

    fn too_many(&self, plain: Hint, position: usize) -> Option<Hint> {
        let calls = || self.tree.calls.iter();
        let at = |names: Vec<Name>, size: usize| names.get(size).is_some_and(|name| name.position == position);
        let (what, most) = if at(self.tree.inputs.clone(), limits::INPUTS) {
            ("inputs", limits::INPUTS)
        } else if at(self.tree.outputs.clone(), limits::OUTPUTS) {
            ("outputs", limits::OUTPUTS)
        } else if calls().nth(limits::CALLS).is_some_and(|call| call.left.position == position) {
            ("calls", limits::CALLS)
        } else if at(calls().flat_map(Call::assigned).collect(), limits::ASSIGNED) {
            ("identifiers that are assigned", limits::ASSIGNED)
        } else {
            ("uses of identifiers", limits::USES)
        };
        let plain = plain.says(format!("the graph has more than {most} {what}")).caused_by("the graph is larger than the library reads");
        Some(plain.long(self.name_length(position)))
    }

    fn repeated(&self, plain: Hint, position: usize) -> Option<Hint> {
        let names: Vec<Name> = self.tree.inputs.iter().chain(&self.tree.outputs).copied().collect();
        let (first, name) = first_of(&names, position)?;
        let is_input = |at: usize| self.tree.inputs.iter().any(|input| input.position == at);
        let sentence = match (is_input(first), is_input(position)) {
            (true, false) => format!("`{name}` is an input and an output"),
            (true, true) => format!("the input `{name}` stands in the header twice"),
            _ => format!("the output `{name}` stands in the header twice"),
        };
        let plain = plain.says(sentence).long(name.len());
        Some(match is_input(first) && !is_input(position) {
            true => plain.caused_by("an input is handed through").helped_by("assign the output by a call, such as a copy"),
            false => plain,
        })
    }

    fn undeclared(&self, plain: Hint, position: usize) -> Option<Hint> {
        let name = self.tree.calls.iter().find(|call| call.operation.position == position)?.operation.spelling;
        let near = nearest(name, self.list.iter().map(|operation| operation.name.spelling));
        Some(plain.says(format!("the operation `{name}` is not declared in the list")).did_you_mean(near).long(name.len()))
    }

    fn misplaced(&self, plain: Hint, position: usize) -> Option<Hint> {
        let (operation, argument, place, binding) = self.argument(|argument| argument.position() == position)?;
        let value = self.shown(&argument.value);
        let name = operation.name.spelling;
        let plain = plain.long(argument.value.end - position);
        Some(match (binding, operation.parameters.get(place)) {
            (Binding::AfterNamed, parameter) => {
                let said = plain
                    .says(format!("`{value}` stands without a name behind a named argument"))
                    .caused_by("once an argument is named, all behind it are");
                match parameter {
                    Some(parameter) => said.helped_by(format!("write `{} = {value}`, if that is meant", parameter.name.spelling)),
                    None => said,
                }
            }
            (Binding::Beyond, _) => plain
                .says(format!("`{value}` is one argument too many for `{name}`"))
                .caused_by(format!("`{name}` has {}", counted(operation.parameters.len(), "parameter")))
                .helped_by("leave it out"),
            (_, Some(parameter)) => plain
                .says(format!("`{value}` stands for `{}: {}` of `{name}` without its name", parameter.name.spelling, parameter.ty))
                .caused_by("only tensors may be given by their place")
                .helped_by(format!("write `{} = {value}`", parameter.name.spelling)),
            _ => plain,
        })
    }

    fn misnamed(&self, plain: Hint, position: usize) -> Option<Hint> {
        let (operation, argument, _, binding) = self.argument(|argument| argument.position() == position)?;
        let label = argument.label?.spelling;
        let name = operation.name.spelling;
        let plain = plain.long(label.len());
        let parameters: Vec<&str> = operation.parameters.iter().map(|parameter| parameter.name.spelling).collect();
        Some(match binding {
            Binding::Unknown => plain
                .says(format!("`{name}` has no parameter `{label}`"))
                .caused_by(format!("its parameters are {}", parameters.join(", ")))
                .did_you_mean(nearest(label, parameters.iter().copied())),
            _ => plain
                .says(format!("`{label}` of `{name}` has a value already"))
                .caused_by("it was given before, by its name or by its place")
                .helped_by("leave one of the two out"),
        })
    }

    fn misfit(&self, plain: Hint, position: usize) -> Option<Hint> {
        let (operation, argument, _, binding) = self.argument(|argument| argument.value.position == position)?;
        let Binding::To(index) = binding else {
            return None;
        };
        let parameter = &operation.parameters[index];
        let sentence = format!(
            "`{}` does not fit `{}: {}` of `{}`",
            self.shown(&argument.value),
            parameter.name.spelling,
            parameter.ty,
            operation.name.spelling
        );
        let length = argument.value.end - position;
        Some(plain.says(sentence).helped_by(mend_value(&argument.value, &parameter.ty)).long(length))
    }

    fn missing(&self, plain: Hint, position: usize, index: usize) -> Option<Hint> {
        let call = self.tree.calls.iter().find(|call| call.operation.position == position)?;
        let operation = self.declared(call)?;
        let parameter = operation.parameters.get(index)?;
        let (name, wanted) = (operation.name.spelling, parameter.name.spelling);
        let plain = plain.says(format!("`{name}` is called without `{wanted}: {}`, which has no default", parameter.ty)).long(name.len());
        let bindings = bindings(operation, &call.arguments);
        let unplaced = call.arguments.get(index).filter(|_| bindings.get(index) == Some(&Binding::NotTensor));
        if let Some(argument) = unplaced {
            let help = format!("write `{wanted} = {}`", self.shown(&argument.value));
            return Some(plain.caused_by("only tensors may be given by their place").helped_by(help));
        }
        let unknown = call.arguments.iter().zip(&bindings).filter(|(_, binding)| **binding == Binding::Unknown);
        let labels = unknown.filter_map(|(argument, _)| argument.label).map(|label| label.spelling);
        Some(match nearest(wanted, labels) {
            Some(label) => {
                plain.caused_by(format!("`{label}` is no parameter of `{name}`")).helped_by(format!("did you mean `{wanted}` by it?"))
            }
            None => plain.caused_by("the argument was left out").helped_by(format!("add `{wanted} = ...`")),
        })
    }

    fn unmatched(&self, plain: Hint, position: usize) -> Option<Hint> {
        let call = self.tree.calls.iter().find(|call| call.left.position == position)?;
        let operation = self.declared(call)?;
        let results: Vec<String> = operation.results.iter().map(|(name, ty)| format!("{}: {ty}", name.spelling)).collect();
        let left = self.shown(&call.left);
        let sentence = format!("`{left}` does not match what `{}` gives, `{}`", operation.name.spelling, results.join(", "));
        let plain = plain.says(sentence).long(call.left.end - position);
        let given = match &call.left.form {
            Form::Tuple(items) => items.len(),
            _ => 1,
        };
        Some(match &operation.results[..] {
            [(_, Type::Array(_))] if matches!(call.left.form, Form::Name(_)) => {
                plain.caused_by("the result is an array").helped_by(format!("write `[{left}]`, or as many names as there are items"))
            }
            [(_, Type::Array(_))] if matches!(call.left.form, Form::Tuple(_)) => {
                plain.caused_by("the result is an array").helped_by(format!("write `[{}]`", left.trim_matches(['(', ')'])))
            }
            results if results.len() != given => {
                plain.caused_by(format!("there are {} and {}", counted(results.len(), "result"), counted(given, "item")))
            }
            _ => plain,
        })
    }

    fn again(&self, plain: Hint, position: usize) -> Option<Hint> {
        let assigned: Vec<Name> = self.tree.calls.iter().flat_map(Call::assigned).collect();
        let (first, name) = first_of(&assigned, position)?;
        let sentence = format!("`{name}` is assigned again; line {} assigns it already", line(self.text, first));
        Some(plain.says(sentence).helped_by("give one of the two another name").long(name.len()))
    }

    fn unassigned(&self, plain: Hint, position: usize) -> Option<Hint> {
        let mut calls = self.tree.calls.iter().enumerate();
        let (index, name) = calls.find_map(|(index, call)| Some((index, name_at(call.used(), position)?)))?;
        let plain = plain.long(name.len());
        if let Some(&by) = assigners(self.tree).get(name) {
            let later = line(self.text, self.tree.calls[by].left.position);
            let plain = plain.says(format!("`{name}` is used before it is assigned, in line {later}"));
            return Some(match by == index {
                true => plain.caused_by("a call cannot use what it assigns itself").helped_by("use another name on the left"),
                false => {
                    plain.caused_by("the calls stand in another order than they run").helped_by(format!("move the call of line {later} up"))
                }
            });
        }
        let reach: Vec<Name> = self.tree.calls[..index].iter().flat_map(Call::assigned).collect();
        let near = nearest(name, reach.iter().map(|name| name.spelling));
        let plain = plain.says(format!("`{name}` is used, but no earlier call assigns it")).did_you_mean(near);
        Some(match self.tree.inputs.iter().any(|input| input.spelling == name) {
            true => plain
                .caused_by("an input is assigned by a call of `external` too")
                .helped_by(format!("write `{name} = external(shape = [...])` first")),
            false => plain,
        })
    }

    fn misfed(&self, plain: Hint, position: usize) -> Option<Hint> {
        let inputs = &self.tree.inputs;
        let unmade = inputs.iter().filter(|input| !assigners(self.tree).contains_key(input.spelling));
        if let Some(input) = inputs.iter().find(|input| input.position == position) {
            let external = self.tree.calls.iter().filter(|call| call.operation.spelling == "external").flat_map(Call::assigned);
            let loose: Vec<Name> = external.filter(|name| !inputs.iter().any(|input| input.spelling == name.spelling)).collect();
            let near = nearest(input.spelling, loose.iter().map(|name| name.spelling));
            let help = format!("write `{} = external(shape = [...])` in the body", input.spelling);
            return Some(
                plain
                    .says(format!("the input `{}` is never assigned", input.spelling))
                    .helped_by(help)
                    .did_you_mean(near)
                    .long(input.spelling.len()),
            );
        }
        let (call, name) = self.tree.calls.iter().find_map(|call| Some((call, name_at(call.assigned(), position)?)))?;
        let plain = plain.long(name.len());
        if call.operation.spelling != "external" {
            let sentence = format!("the input `{name}` is assigned by `{}`; only `external` may", call.operation.spelling);
            return Some(plain.says(sentence).helped_by("give what the call makes another name"));
        }
        let near = nearest(name, unmade.map(|input| input.spelling));
        let sentence = format!("`{name}` is assigned by `external`, but is no input of the graph");
        Some(plain.says(sentence).helped_by("add it to the inputs in the header, or take it from another operation").did_you_mean(near))
    }

    fn unmade(&self, plain: Hint, position: usize) -> Option<Hint> {
        let output = self.tree.outputs.iter().find(|output| output.position == position)?.spelling;
        let assigned: Vec<Name> = self.tree.calls.iter().flat_map(Call::assigned).collect();
        let near = nearest(output, assigned.iter().map(|name| name.spelling));
        Some(plain.says(format!("the output `{output}` is never assigned")).did_you_mean(near).long(output.len()))
    }

    /// The first argument of a declared operation's call that is so, its operation, its place and what becomes of it.
    fn argument(&self, is_so: impl Fn(&Argument) -> bool) -> Option<(&Operation<'_>, &Argument<'_>, usize, Binding)> {
        self.tree.calls.iter().find_map(|call| {
            let place = call.arguments.iter().position(&is_so)?;
            let operation = self.declared(call)?;
            Some((operation, &call.arguments[place], place, bindings(operation, &call.arguments)[place]))
        })
    }

    fn declared(&self, call: &Call) -> Option<&Operation<'_>> {
        self.list.iter().find(|operation| operation.name.spelling == call.operation.spelling)
    }

    fn shown(&self, value: &Value) -> String {
        escaped(self.text.get(value.position..value.end).unwrap_or_default())
    }

    fn name_length(&self, position: usize) -> usize {
        let rest = &self.text[position..];
        rest.iter().take_while(|byte| byte.is_ascii_alphanumeric() || **byte == b'_').count().max(1)
    }
}

/// The name of these that stands at a position.
fn name_at<'a>(names: Vec<Name<'a>>, position: usize) -> Option<&'a str> {
    names.into_iter().find(|name| name.position == position).map(|name| name.spelling)
}

/// What to write where a value does not fit a type.
pub fn mend_value(value: &Value, ty: &Type) -> String {
    match (&value.form, ty) {
        (Form::Literal(literal), Type::Basic("extent")) if literal.kind == Kind::Whole => {
            format!("an extent lies between {LEAST_EXTENT} and {GREATEST_EXTENT}")
        }
        (Form::Literal(literal), Type::Basic("extent")) if literal.kind == Kind::Real => {
            "an extent is a whole number, without point or exponent".to_string()
        }
        (Form::Literal(literal), Type::Array(_)) => format!("an array stands in brackets: `[{literal}]`"),
        (Form::Name(name), Type::Array(item)) if **item == Type::Basic("tensor") => format!("an array stands in brackets: `[{name}]`"),
        (Form::Literal(literal), Type::Basic("string")) => format!("a string stands in quotes: `'{literal}'`"),
        (Form::Name(name), Type::Basic("string")) => format!("a string stands in quotes: `'{name}'`"),
        (Form::Name(_), Type::Basic(word)) => format!("an identifier is a tensor; write {}", literal_of(word)),
        (Form::Tuple(items), Type::Tuple(types)) if items.len() != types.len() => format!("the tuple has {} items", types.len()),
        (Form::Array(_) | Form::Tuple(_), Type::Basic(word)) => format!("write {}, without brackets", literal_of(word)),
        (Form::Literal(..), Type::Basic(word)) => format!("write {}", literal_of(word)),
        (Form::Array(items), Type::Array(item)) => mend_item(items.iter().map(|value| (value, &**item))),
        (Form::Tuple(items), Type::Tuple(types)) => mend_item(items.iter().zip(types)),
        _ => format!("write a value of the type `{ty}`"),
    }
}

/// What to write for the first item that does not fit.
fn mend_item<'a>(items: impl Iterator<Item = (&'a Value<'a>, &'a Type)>) -> String {
    let unfit = items.enumerate().find(|(_, (value, ty))| !fits(value, ty));
    unfit.map_or(String::new(), |(place, (value, ty))| format!("item {}: {}", place + 1, mend_value(value, ty)))
}

fn literal_of(word: &str) -> &'static str {
    match word {
        "extent" => "a whole number",
        "scalar" => "a number",
        "logical" => "`true` or `false`",
        "string" => "a string in quotes",
        _ => "an identifier, a number, `true` or `false`",
    }
}
