//! The texts that are judged together, and what a reading of them gives.

use crate::files::Source;
use crate::order::Order;
use crate::reader;
use crate::tree::{Document, Operation};
use sluicegnome::{Refusal, Text, Token};

/// An operation list and a document under it, perhaps with an order of its calls; or a sole text, which stands in the place of the list.
#[derive(Clone, Copy)]
pub struct Texts<'a> {
    pub list: &'a Source,
    pub document: Option<&'a Source>,
    pub order: Option<&'a Order<'a>>,
}

impl<'a> Texts<'a> {
    pub fn sole(text: &'a Source) -> Texts<'a> {
        Texts { list: text, document: None, order: None }
    }

    pub fn pair(list: &'a Source, document: &'a Source) -> Texts<'a> {
        Texts { list, document: Some(document), order: None }
    }

    pub fn with_order(self, order: &'a Order<'a>) -> Texts<'a> {
        Texts { order: Some(order), ..self }
    }

    /// The file that a fault points into, and where, in bytes: the text of its answer, or the file of the order.
    pub fn pointed(&self, fault: &Refusal) -> Option<(&'a Source, usize)> {
        match self.order {
            Some(order) if fault.code.is_of_order() => Some((order.source, order.bounds(fault.position).0)),
            _ => self.source(fault.text).map(|source| (source, fault.position)),
        }
    }

    /// The text that an answer names.
    pub fn source(&self, text: Text) -> Option<&'a Source> {
        match text {
            Text::None => None,
            Text::List => Some(self.list),
            Text::Document => self.document,
        }
    }

    /// The text that the user asked about.
    pub fn subject(&self) -> &'a Source {
        self.document.unwrap_or(self.list)
    }

    /// The operations, if the list can be read.
    pub fn operations(&self) -> Option<Vec<Operation<'a>>> {
        reader::operation_list(&self.list.bytes, &tokens(&self.list.bytes)).tree
    }

    /// The document's tree, if it can be read.
    pub fn tree(&self) -> Option<Document<'a>> {
        let source = self.document?;
        reader::document(&source.bytes, &tokens(&source.bytes)).tree
    }
}

/// The tokens of a text; none, if it has a fault in its bytes.
pub fn tokens(text: &[u8]) -> Vec<Token> {
    sluicegnome::tokens(text).unwrap_or_default()
}

/// The name that stands at a position.
pub fn name_at(text: &[u8], position: usize) -> String {
    let rest = text.get(position..).unwrap_or_default();
    let name = rest.iter().take_while(|byte| byte.is_ascii_alphanumeric() || **byte == b'_');
    name.map(|byte| *byte as char).collect()
}
