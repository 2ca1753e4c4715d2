//! Which parameter each argument of a call binds.

use crate::token::Token;
use crate::tree::{List, Operation, Parameter};

/// What becomes of an argument.
#[derive(Clone, Copy, Debug, PartialEq, Eq)]
pub enum Binding {
    /// It binds the parameter at this place.
    Binds(u8),
    /// It is positional and may not be: it binds nothing.
    Misplaced,
    /// It is named, and its name is unknown or bound already: it binds nothing.
    BadLabel,
}

/// The arguments of one call, bound one after the other.
pub struct Binder<'l> {
    list: &'l List<'l>,
    parameters: &'l [Parameter],
    /// The parameters that are bound, a bit for each; the list has no fault, so
    /// there are at most 32.
    bound: u32,
    /// The place of the next argument.
    place: usize,
    after_named: bool,
    /// The parameter behind the one bound last: often the next one.
    guess: usize,
}

impl<'l> Binder<'l> {
    pub fn new(list: &'l List<'l>, operation: &Operation) -> Binder<'l> {
        Binder {
            list,
            parameters: operation.parameters(list),
            bound: 0,
            place: 0,
            after_named: false,
            guess: 0,
        }
    }

    /// What becomes of the next argument; its label's bytes are in `text`.
    pub fn bind(&mut self, label: Option<Token>, text: &[u8]) -> Binding {
        let binding = match label {
            None => self.positional(),
            Some(label) => self.named(label.bytes(text)),
        };
        self.place += 1;
        self.after_named |= label.is_some();
        if let Binding::Binds(index) = binding {
            self.bound |= 1 << index;
            self.guess = usize::from(index) + 1;
        }
        binding
    }

    /// The first parameter without default that nothing is bound to.
    pub fn first_unbound(&self, operation: &Operation) -> Option<u32> {
        let missing = operation.required & !self.bound;
        (missing != 0).then(|| missing.trailing_zeros())
    }

    fn positional(&self) -> Binding {
        match self.parameters.get(self.place) {
            Some(parameter)
                if !self.after_named && parameter.ty.is_all_tensor(&self.list.types) =>
            {
                Binding::Binds(self.place as u8)
            }
            _ => Binding::Misplaced,
        }
    }

    fn named(&self, label: &[u8]) -> Binding {
        match self.parameter_named(label) {
            Some(index) if self.bound & (1 << index) == 0 => Binding::Binds(index as u8),
            _ => Binding::BadLabel,
        }
    }

    fn parameter_named(&self, label: &[u8]) -> Option<usize> {
        let guess = self.parameters.get(self.guess);
        if guess.is_some_and(|guess| guess.name.bytes(self.list.text) == label) {
            return Some(self.guess);
        }
        let (number, _) = self.list.names.find(label)?;
        self.parameters.iter().position(|p| p.number == number)
    }
}
