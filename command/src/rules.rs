//! The rules of lists, documents and orders, every fault of them: the command's own reading, which is not proved.

use crate::fitting::{bindings, first_unbound, fits, Binding};
use crate::order::uses;
use crate::tree::{Call, Document, Name, Operation};
use sluicegnome::{limits, Checked, Code, Refusal, Text};
use std::collections::{HashMap, HashSet};

/// Every fault of a list.
pub fn list_faults(list: &[Operation]) -> Vec<Refusal> {
    let mut faults = Faults::new(Text::List);
    faults.beyond(limits::OPERATIONS, list.iter().map(|operation| operation.position));
    faults.repeated(list.iter().map(|operation| operation.name));
    for operation in list {
        let parameters = || operation.parameters.iter().map(|parameter| parameter.name);
        let results = || operation.results.iter().map(|(name, _)| *name);
        faults.beyond(limits::PARAMETERS, places(parameters()));
        faults.beyond(limits::RESULTS, places(results()));
        faults.repeated(parameters().chain(results()));
        for parameter in &operation.parameters {
            if let Some(default) = parameter.default.as_ref().filter(|default| !fits(default, &parameter.ty)) {
                faults.add(Code::BadDefault, default.position);
            }
        }
    }
    faults.sorted()
}

/// Every fault of a document under a list that has none.
pub fn document_faults(list: &[Operation], document: &Document) -> Vec<Refusal> {
    let mut faults = Faults::new(Text::Document);
    if document.version.spelling != "1.0" {
        faults.add(Code::Version, document.version.position);
    }
    faults.counts(document);
    faults.repeated(document.inputs.iter().chain(&document.outputs).copied());
    for call in &document.calls {
        match list.iter().find(|operation| operation.name.spelling == call.operation.spelling) {
            Some(operation) => faults.call(operation, call),
            None => faults.add(Code::Undeclared, call.operation.position),
        }
    }
    faults.wiring(document);
    faults.ends(document);
    faults.sorted()
}

/// Every fault of an order that has as many numbers as the graph has calls; of each number the one with the smallest code.
pub fn order_faults(checked: &Checked, order: &[u32]) -> Vec<Refusal> {
    let mut faults = Faults::new(Text::None);
    let uses = uses(checked);
    let mut before = HashSet::new();
    for (place, call) in order.iter().map(|call| *call as usize).enumerate() {
        match uses.get(call) {
            None => faults.add(Code::NoCall, place),
            Some(_) if before.contains(&call) => faults.add(Code::CallRepeated, place),
            Some(uses) if uses.iter().any(|wire| !before.contains(&wire.from)) => faults.add(Code::UseTooEarly, place),
            Some(_) => {}
        }
        before.insert(call);
    }
    faults.sorted()
}

/// The index of the call that assigns each identifier first.
pub fn assigners<'a>(document: &Document<'a>) -> HashMap<&'a str, usize> {
    let mut assigners = HashMap::new();
    for (index, call) in document.calls.iter().enumerate() {
        for name in call.assigned() {
            assigners.entry(name.spelling).or_insert(index);
        }
    }
    assigners
}

struct Faults {
    text: Text,
    found: Vec<Refusal>,
}

impl Faults {
    fn new(text: Text) -> Faults {
        Faults { text, found: Vec::new() }
    }

    fn add(&mut self, code: Code, position: usize) {
        self.add_detailed(code, position, 0);
    }

    fn add_detailed(&mut self, code: Code, position: usize, detail: usize) {
        self.found.push(Refusal { code, text: self.text, position, detail });
    }

    fn sorted(mut self) -> Vec<Refusal> {
        self.found.sort_by_key(|fault| (fault.position, fault.code));
        self.found
    }

    /// 12: the first of these places beyond the size.
    fn beyond(&mut self, size: usize, mut places: impl Iterator<Item = usize>) {
        if let Some(position) = places.nth(size) {
            self.add(Code::TooMany, position);
        }
    }

    /// 13: every name that stands before it already.
    fn repeated<'a>(&mut self, names: impl Iterator<Item = Name<'a>>) {
        let mut seen = HashSet::new();
        for name in names {
            if !seen.insert(name.spelling) {
                self.add(Code::Repeated, name.position);
            }
        }
    }

    /// 12, of a document.
    fn counts(&mut self, document: &Document) {
        let calls = || document.calls.iter();
        self.beyond(limits::INPUTS, places(document.inputs.iter().copied()));
        self.beyond(limits::OUTPUTS, places(document.outputs.iter().copied()));
        self.beyond(limits::CALLS, calls().map(|call| call.left.position));
        self.beyond(limits::ASSIGNED, places(calls().flat_map(Call::assigned)));
        self.beyond(limits::USES, places(calls().flat_map(Call::used)));
    }

    /// 16 to 20: the arguments and the left side of a call of a declared operation.
    fn call(&mut self, operation: &Operation, call: &Call) {
        let bindings = bindings(operation, &call.arguments);
        for (argument, binding) in call.arguments.iter().zip(&bindings) {
            match *binding {
                Binding::AfterNamed | Binding::Beyond | Binding::NotTensor => self.add(Code::Misplaced, argument.position()),
                Binding::Unknown | Binding::Bound => self.add(Code::Misnamed, argument.position()),
                Binding::To(index) if !fits(&argument.value, &operation.parameters[index].ty) => {
                    self.add(Code::Misfit, argument.value.position)
                }
                Binding::To(_) => {}
            }
        }
        if let Some(index) = first_unbound(operation, &bindings) {
            self.add_detailed(Code::Missing, call.operation.position, index);
        }
        if !fits(&call.left, &operation.result_type()) {
            self.add(Code::Unmatched, call.left.position);
        }
    }

    /// 21 and 22: identifiers assigned again, or used before they are assigned.
    fn wiring(&mut self, document: &Document) {
        let mut assigned = HashSet::new();
        for call in &document.calls {
            for name in call.used() {
                if !assigned.contains(name.spelling) {
                    self.add(Code::Unassigned, name.position);
                }
            }
            for name in call.assigned() {
                if !assigned.insert(name.spelling) {
                    self.add(Code::Again, name.position);
                }
            }
        }
    }

    /// 23 and 24: where inputs come from, and that outputs are assigned.
    fn ends(&mut self, document: &Document) {
        let assigners = assigners(document);
        let never = |name: &&Name| !assigners.contains_key(name.spelling);
        for name in document.inputs.iter().filter(never) {
            self.add(Code::Misfed, name.position);
        }
        for name in document.outputs.iter().filter(never) {
            self.add(Code::Unmade, name.position);
        }
        let inputs: HashSet<&str> = document.inputs.iter().map(|name| name.spelling).collect();
        for call in &document.calls {
            for name in call.assigned() {
                if inputs.contains(name.spelling) != (call.operation.spelling == "external") {
                    self.add(Code::Misfed, name.position);
                }
            }
        }
    }
}

fn places<'a>(names: impl Iterator<Item = Name<'a>> + 'a) -> impl Iterator<Item = usize> + 'a {
    names.map(|name| name.position)
}
