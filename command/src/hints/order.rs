//! Faults of an order: codes 41 to 44. Places and calls count from 0.

use super::Hint;
use crate::model::left_side;
use crate::number::counted;
use crate::order::{uses, Order};
use crate::place::line;
use crate::texts::{name_at, Texts};
use crate::tree::Document;
use sluicegnome::{Checked, Code, Refusal};
use std::collections::BTreeSet;

/// More calls than these are only counted.
const MOST_NAMED: usize = 3;

pub fn hint(plain: Hint, texts: &Texts, order: &Order, fault: &Refusal) -> Hint {
    let (start, end) = order.bounds(fault.position);
    let plain = plain.long(end - start);
    let hint = Parts::new(texts, order).and_then(|parts| parts.hint(plain.clone(), fault));
    hint.unwrap_or(plain)
}

/// An order, and the graph whose calls it has to order.
struct Parts<'a> {
    calls: Vec<u32>,
    text: &'a [u8],
    checked: Checked,
    tree: Document<'a>,
}

impl<'a> Parts<'a> {
    fn new(texts: &Texts<'a>, order: &Order) -> Option<Parts<'a>> {
        let text = &texts.document?.bytes;
        let checked = sluicegnome::check(&texts.list.bytes, text).ok()?;
        Some(Parts { calls: order.calls(), text, checked, tree: texts.tree()? })
    }

    fn hint(&self, plain: Hint, fault: &Refusal) -> Option<Hint> {
        let place = fault.position;
        let hint = match fault.code {
            Code::OrderLength => self.length(plain),
            Code::NoCall => self.no_call(plain, place)?,
            Code::CallRepeated => self.repeated(plain, place)?,
            _ => self.too_early(plain, place)?,
        };
        Some(self.counted_from_one(hint))
    }

    fn length(&self, plain: Hint) -> Hint {
        let (given, calls) = (self.calls.len(), self.count());
        let said = plain.says(format!("the order has {}, and the graph has {}", counted(given, "number"), counted(calls, "call")));
        let helps = [self.missing(), self.first_repeat(), self.first_beyond()];
        helps.into_iter().flatten().fold(said, Hint::helped_by)
    }

    fn no_call(&self, plain: Hint, place: usize) -> Option<Hint> {
        let said = plain.says(format!("{} at place {place} is no call; {}", self.calls.get(place)?, self.range()));
        Some(self.missing().into_iter().fold(said, Hint::helped_by))
    }

    fn repeated(&self, plain: Hint, place: usize) -> Option<Hint> {
        let call = *self.calls.get(place)? as usize;
        let first = self.place_of(call)?;
        let said = plain.says(format!("{} stands at place {first}, and again at place {place}", self.named(call)?));
        Some(self.missing().into_iter().fold(said, Hint::helped_by))
    }

    fn too_early(&self, plain: Hint, place: usize) -> Option<Hint> {
        let call = *self.calls.get(place)? as usize;
        let uses = uses(&self.checked);
        let early = |from: usize| self.place_of(from).is_none_or(|by| by >= place);
        let wire = uses.get(call)?.iter().find(|wire| early(wire.from))?;
        let (user, assigner) = (self.named(call)?, self.named(wire.from)?);
        let use_of = format!("{user} at place {place} uses `{}`", name_at(self.text, wire.position));
        let number = wire.from;
        Some(match self.place_of(number) {
            Some(by) => plain
                .says(format!("{use_of}, and {assigner}, which assigns it, stands at place {by}"))
                .caused_by("the order does not follow the wires: the assigning call stands later")
                .helped_by(format!("put call {number} before call {call}")),
            None => plain
                .says(format!("{use_of}, and {assigner}, which assigns it, is not in the order"))
                .caused_by("the assigning call was left out, perhaps for another one that stands twice")
                .helped_by(format!("put call {number} into the order, before call {call}")),
        })
    }

    /// The help that is left if the order has the numbers from 1 instead of those from 0.
    fn counted_from_one(&self, hint: Hint) -> Hint {
        let numbers: BTreeSet<usize> = self.calls.iter().map(|number| *number as usize).collect();
        match numbers.into_iter().eq(1..=self.count()) {
            true => Hint { help: vec!["this order seems to count calls from 1; they count from 0".to_string()], ..hint },
            false => hint,
        }
    }

    fn count(&self) -> usize {
        self.checked.calls.len()
    }

    /// The first place where a call stands.
    fn place_of(&self, call: usize) -> Option<usize> {
        self.calls.iter().position(|number| *number as usize == call)
    }

    /// A call by its number, its left side and operation, and its line.
    fn named(&self, call: usize) -> Option<String> {
        let written = self.tree.calls.get(call)?;
        let operation = written.operation;
        let line = line(self.text, operation.position);
        Some(format!("call {call} (`{}={}`, line {line})", left_side(&written.left), operation.spelling))
    }

    fn range(&self) -> String {
        format!("the calls are 0 to {}", self.count().saturating_sub(1))
    }

    /// Which calls stand nowhere, if there are any.
    fn missing(&self) -> Option<String> {
        let missing: Vec<usize> = (0..self.count()).filter(|call| self.place_of(*call).is_none()).collect();
        let mut names: Vec<String> = missing.iter().take(MOST_NAMED).filter_map(|call| self.named(*call)).collect();
        if missing.len() > MOST_NAMED {
            names.push(format!("{} more", missing.len() - MOST_NAMED));
        }
        (!names.is_empty()).then(|| format!("not in the order: {}", names.join(", ")))
    }

    /// The first call that stands at a second place, if there is one.
    fn first_repeat(&self) -> Option<String> {
        let mut numbers = self.calls.iter().enumerate().map(|(place, number)| (place, *number as usize));
        let (place, call) = numbers.find(|(place, call)| *call < self.count() && self.place_of(*call) != Some(*place))?;
        Some(format!("{} stands at place {}, and again at place {place}", self.named(call)?, self.place_of(call)?))
    }

    /// The first number that is no call, if there is one.
    fn first_beyond(&self) -> Option<String> {
        let (place, number) = self.calls.iter().enumerate().find(|(_, number)| **number as usize >= self.count())?;
        Some(format!("{number} at place {place} is no call; {}", self.range()))
    }
}
