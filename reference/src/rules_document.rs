//! The rules of a document under an operation list: the header, then one walk
//! over the calls, with a function for each code or two.

use crate::binding::{Binder, Binding};
use crate::codes;
use crate::fault::{Fault, First};
use crate::fitting::Fitting;
use crate::graph::Graph;
use crate::limits;
use crate::names::Names;
use crate::token::{Span, Token};
use crate::tree::{Argument, Call, Document, List, Operation};

/// The operation that inputs come from.
const EXTERNAL: &[u8] = b"external";

/// What is known of an identifier.
#[derive(Clone, Copy, Default)]
struct Identifier {
    /// The index of the call that assigns it first.
    assigned_by: Option<u16>,
    is_input: bool,
    is_listed: bool,
}

/// Refuses with the first fault of the document, or gives its graph.
pub fn keep(list: &List, document: &Document) -> Result<Graph, Fault> {
    let mut walk = Walk::new(list, document);
    walk.wrong_version();
    walk.too_many_listed();
    walk.list(document.inputs, true);
    walk.list(document.outputs, false);
    for (index, call) in document.calls.iter().enumerate() {
        walk.call(index, call);
    }
    walk.never_assigned(document.inputs, codes::EXTERNAL);
    walk.never_assigned(document.outputs, codes::NO_OUTPUT);
    walk.first.none()?;
    Ok(walk.graph)
}

struct Walk<'w> {
    list: &'w List<'w>,
    document: &'w Document<'w>,
    fitting: Fitting<'w>,
    first: First,
    identifiers: Names<'w, Identifier>,
    /// Identifiers assigned so far, places that assign one again too.
    assigned: usize,
    graph: Graph,
}

impl<'w> Walk<'w> {
    fn new(list: &'w List<'w>, document: &'w Document<'w>) -> Walk<'w> {
        let listed = document.inputs.len() + document.outputs.len();
        let lefts: usize = document.calls.iter().map(|call| call.left.len()).sum();
        Walk {
            list,
            document,
            fitting: Fitting {
                types: &list.types,
                text: document.text,
            },
            first: First::default(),
            identifiers: Names::with_capacity(document.text, listed + lefts),
            assigned: 0,
            graph: Graph {
                calls: Vec::with_capacity(document.calls.len()),
                wires: Vec::with_capacity(document.arguments.len()),
                bindings: Vec::with_capacity(document.arguments.len()),
            },
        }
    }

    /// 11: the version is not spelt `1.0`; at the literal.
    fn wrong_version(&mut self) {
        let version = self.document.version;
        if version.bytes(self.document.text) != b"1.0" {
            self.first.note(codes::VERSION, version.position());
        }
    }

    /// 12: inputs or outputs above their size; at the first beyond.
    fn too_many_listed(&mut self) {
        let document = self.document;
        let beyond = [
            document.names(document.inputs).nth(limits::INPUTS),
            document.names(document.outputs).nth(limits::OUTPUTS),
        ];
        for name in beyond.into_iter().flatten() {
            self.first.note(codes::TOO_MANY, name.position());
        }
    }

    /// 13: a name repeated among the inputs and outputs; at the second one.
    fn list(&mut self, names: Span, is_input: bool) {
        for name in self.document.names(names) {
            let (_, identifier) = self.identifiers.enter(name);
            if identifier.is_listed {
                self.first.note(codes::REPEATED, name.position());
            }
            identifier.is_listed = true;
            identifier.is_input |= is_input;
        }
    }

    fn call(&mut self, index: usize, call: &Call) {
        if index == limits::CALLS {
            let left = self.document.position(call.left);
            self.first.note(codes::TOO_MANY, left);
        }
        let operation = self.operation(call);
        let wires = self.graph.wires.len();
        for argument in call.arguments.of(&self.document.arguments) {
            self.uses(argument);
        }
        let used = self.graph.wires.len() - wires;
        let assigned = self.assigns(index, call);
        self.graph.calls.push([
            operation as u32,
            call.operation.position(),
            assigned as u32,
            used as u32,
        ]);
    }

    /// The index of the call's operation, whose rules are looked at. 15: it is
    /// not declared; at its name.
    fn operation(&mut self, call: &Call) -> usize {
        let list = self.list;
        let found = list.names.find(call.operation.bytes(self.document.text));
        let Some(index) = found.and_then(|(_, meaning)| meaning.operation) else {
            self.first
                .note(codes::UNDECLARED, call.operation.position());
            return 0;
        };
        let operation = &list.operations[usize::from(index)];
        self.arguments(call, operation);
        self.unmatched(call, operation);
        usize::from(index)
    }

    /// 19: a parameter without default unbound, the first by its index; at the
    /// operation's name. For each argument 16 to 18.
    fn arguments(&mut self, call: &Call, operation: &Operation) {
        let mut binder = Binder::new(self.list, operation);
        for argument in call.arguments.of(&self.document.arguments) {
            let binding = binder.bind(argument.label, self.document.text);
            self.bound(argument, binding, operation);
            self.graph.bindings.push(binding);
        }
        if let Some(index) = binder.first_unbound(operation) {
            self.first.note_fault(Fault {
                detail: index,
                ..Fault::new(codes::UNBOUND, call.operation.position())
            });
        }
    }

    /// 16: a positional argument after a named one, beyond the parameters, or for
    /// one not all tensor; 17: a named argument that is unknown or bound already,
    /// at its name; 18: one that is bound and does not fit, at its value.
    fn bound(&mut self, argument: &Argument, binding: Binding, operation: &Operation) {
        let document = self.document;
        let start = document.position(argument.value);
        match binding {
            Binding::Binds(index) => {
                let parameter = &operation.parameters(self.list)[usize::from(index)];
                let value = argument.value.of(&document.tokens);
                if !self.fitting.fits(value, parameter.ty) {
                    self.first.note(codes::UNFIT_ARGUMENT, start);
                }
            }
            Binding::Misplaced => self.first.note(codes::MISPLACED, start),
            Binding::BadLabel => {
                let label = argument.label.map_or(start, Token::position);
                self.first.note(codes::BAD_LABEL, label);
            }
        }
    }

    /// 20: a left side that does not match the results; at its start.
    fn unmatched(&mut self, call: &Call, operation: &Operation) {
        let left = call.left.of(&self.document.tokens);
        let matches = if call.bare {
            self.fitting.bare_fits(left, operation.result_type)
        } else {
            self.fitting.fits(left, operation.result_type)
        };
        if !matches {
            self.first.note(codes::UNMATCHED, left[0].position());
        }
    }

    /// Wires the identifiers of an argument. 22: one that no earlier call
    /// assigns; at the use. 12: one beyond the size.
    fn uses(&mut self, argument: &Argument) {
        for name in self.document.names(argument.value) {
            if self.graph.wires.len() == limits::USED {
                self.first.note(codes::TOO_MANY, name.position());
            }
            let found = self.identifiers.find(name.bytes(self.document.text));
            let by = found.and_then(|(_, identifier)| identifier.assigned_by);
            if by.is_none() {
                self.first.note(codes::NOT_ASSIGNED, name.position());
            }
            let by = by.map_or(0, u32::from);
            self.graph.wires.push([name.position(), by]);
        }
    }

    /// Enters the identifiers of a left side, and counts them. 21: one assigned
    /// again; 23: an input not by `external`, or another by it. 12: one beyond
    /// the size.
    fn assigns(&mut self, index: usize, call: &Call) -> usize {
        let before = self.assigned;
        let external = call.operation.bytes(self.document.text) == EXTERNAL;
        for name in self.document.names(call.left) {
            if self.assigned == limits::ASSIGNED {
                self.first.note(codes::TOO_MANY, name.position());
            }
            self.assigned += 1;
            let (_, identifier) = self.identifiers.enter(name);
            if identifier.assigned_by.is_some() {
                self.first.note(codes::ASSIGNED_AGAIN, name.position());
            } else {
                identifier.assigned_by = Some(index as u16);
            }
            if identifier.is_input != external {
                self.first.note(codes::EXTERNAL, name.position());
            }
        }
        self.assigned - before
    }

    /// 23, 24: an input, an output that is never assigned; at its place in the header.
    fn never_assigned(&mut self, listed: Span, code: u32) {
        for name in self.document.names(listed) {
            let found = self.identifiers.find(name.bytes(self.document.text));
            if found.is_none_or(|(_, identifier)| identifier.assigned_by.is_none()) {
                self.first.note(code, name.position());
            }
        }
    }
}
