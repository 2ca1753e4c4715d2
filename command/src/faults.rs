//! Every fault of the stage of the first one: the command's own reading, which is not proved. The first fault is the library's.

use crate::reader;
use crate::rules::{document_faults, list_faults, order_faults};
use crate::texts::{tokens, Texts};
use sluicegnome::{Code, Refusal, Text};

/// The faults of the first one's stage that stand behind it.
pub fn further(texts: &Texts, first: &Refusal) -> Vec<Refusal> {
    let found = match (first.code.number(), texts.source(first.text)) {
        (42.., _) => of_order(texts),
        (3..=7, Some(source)) => of_bytes(&source.bytes, first),
        (9 | 10, Some(source)) => of_syntax(&source.bytes, first.text),
        (11.., Some(_)) => of_rules(texts, first.text),
        _ => Vec::new(),
    };
    let place = |fault: &Refusal| (fault.position, fault.code);
    found.into_iter().filter(|fault| place(fault) > place(first)).collect()
}

/// The library's tokens of what stands behind each fault.
fn of_bytes(text: &[u8], first: &Refusal) -> Vec<Refusal> {
    let mut found = Vec::new();
    let mut fault = *first;
    loop {
        let behind = fault.position + skipped(&text[fault.position..], fault.code);
        match sluicegnome::tokens(&text[behind..]) {
            Err(next) if next.code != Code::TooManyTokens => {
                fault = Refusal { position: behind + next.position, text: first.text, ..next };
                found.push(fault);
            }
            _ => return found,
        }
    }
}

/// How many bytes belong to a fault, at least one.
fn skipped(rest: &[u8], code: Code) -> usize {
    let run = |such: &dyn Fn(u8) -> bool| rest.iter().skip(1).take_while(|byte| such(**byte)).count();
    let quote = rest.first().copied().unwrap_or_default();
    let word = |byte: u8| byte.is_ascii_alphanumeric() || byte == b'_';
    let more = match code {
        Code::NoToken => run(&|byte| quote >= 0x80 && byte >= 0x80),
        Code::BadString => run(&|byte| byte != b'\n'),
        Code::TokenTooLong if quote == b'\'' || quote == b'"' => run(&|byte| byte != quote) + 1,
        _ => run(&|byte| word(byte) || byte == b'.'),
    };
    (1 + more).min(rest.len())
}

fn of_syntax(text: &[u8], which: Text) -> Vec<Refusal> {
    let tokens = tokens(text);
    let stops = match which {
        Text::List => reader::operation_list(text, &tokens).stops,
        _ => reader::document(text, &tokens).stops,
    };
    let fault = |stop: reader::Stop| Refusal { code: stop.code, text: which, position: stop.position, detail: 0 };
    stops.into_iter().map(fault).collect()
}

fn of_rules(texts: &Texts, which: Text) -> Vec<Refusal> {
    match (which, texts.operations(), texts.tree()) {
        (Text::List, Some(list), _) => list_faults(&list),
        (Text::Document, Some(list), Some(tree)) => document_faults(&list, &tree),
        _ => Vec::new(),
    }
}

fn of_order(texts: &Texts) -> Vec<Refusal> {
    let checked = sluicegnome::check(&texts.list.bytes, &texts.subject().bytes);
    match (checked, texts.order) {
        (Ok(checked), Some(order)) => order_faults(&checked, &order.calls()),
        _ => Vec::new(),
    }
}
