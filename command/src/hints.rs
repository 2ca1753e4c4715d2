//! What a refusal means for a person: a sentence, the likely cause, and what would mend it.

mod bytes;
mod document;
mod habits;
mod list;
mod order;
mod syntax;

use crate::explain::explanation;
use crate::texts::Texts;
use sluicegnome::{Refusal, Text};

/// The words for a fault.
#[derive(Clone)]
pub struct Hint {
    pub sentence: String,
    pub cause: String,
    pub help: Vec<String>,
    /// How many bytes are at fault.
    pub length: usize,
}

impl Hint {
    /// What can be said of a code alone.
    fn plain(fault: &Refusal) -> Hint {
        Hint { sentence: fault.code.text().to_string(), cause: explanation(fault.code).cause, help: Vec::new(), length: 1 }
    }

    fn says(mut self, sentence: String) -> Hint {
        self.sentence = sentence;
        self
    }

    fn caused_by(mut self, cause: impl Into<String>) -> Hint {
        self.cause = cause.into();
        self
    }

    fn helped_by(mut self, help: impl Into<String>) -> Hint {
        self.help.push(help.into());
        self
    }

    /// Asks whether this name was meant, if there is one that is near.
    fn did_you_mean(self, name: Option<&str>) -> Hint {
        match name {
            Some(name) => self.helped_by(format!("did you mean `{name}`?")),
            None => self,
        }
    }

    fn long(mut self, length: usize) -> Hint {
        self.length = length;
        self
    }
}

/// The words for a fault of these texts; where nothing better is known, the help is the code's mend.
pub fn hint(texts: &Texts, fault: &Refusal) -> Hint {
    let hint = particular(texts, fault);
    match hint.help.is_empty() {
        true => hint.helped_by(explanation(fault.code).mend),
        false => hint,
    }
}

fn particular(texts: &Texts, fault: &Refusal) -> Hint {
    let plain = Hint::plain(fault);
    if let Some(order) = texts.order.filter(|_| fault.code.is_of_order()) {
        return order::hint(plain, texts, order, fault);
    }
    let Some(source) = texts.source(fault.text) else {
        return plain;
    };
    match (fault.code.number(), fault.text) {
        (2..=8, _) => bytes::hint(plain, &source.bytes, fault),
        (9 | 10, _) => syntax::hint(plain, &source.bytes, fault),
        (_, Text::List) => match texts.operations() {
            Some(list) => list::hint(plain, &source.bytes, &list, fault),
            None => plain,
        },
        _ => match (texts.operations(), texts.tree()) {
            (Some(list), Some(tree)) => document::hint(plain, &document::Parts { text: &source.bytes, list: &list, tree: &tree }, fault),
            _ => plain,
        },
    }
}
