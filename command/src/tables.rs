//! The tables of a text: its tokens, and a graph's calls and wires.

use crate::escape::escaped;
use crate::json::Json;
use crate::place::place;
use crate::report::Report;
use crate::texts::{name_at, Texts};
use crate::tree::Value;
use sluicegnome::{Call, Kind, Token};

/// Each token: its line and column, kind and spelling.
pub fn tokens(report: &mut Report, texts: &Texts) {
    let text = &texts.subject().bytes;
    let tokens = match sluicegnome::tokens(text) {
        Err(refusal) => return report.refused(texts, &refusal),
        Ok(tokens) => tokens,
    };
    let spelling = |token: &Token| escaped(&text[token.start..token.end]);
    let line = |token: &Token| {
        let column = place(text, token.start).column;
        format!("{}:{column} {} {}\n", token.line, kind_name(token.kind), spelling(token))
    };
    let object = |token: &Token| {
        Json::Object(vec![
            ("kind", Json::text(kind_name(token.kind))),
            ("start", Json::Number(token.start)),
            ("end", Json::Number(token.end)),
            ("line", Json::Number(token.line)),
            ("spelling", Json::text(spelling(token))),
        ])
    };
    let words: String = tokens.iter().map(line).collect();
    report.accepted(texts, tokens.len(), vec![("tokens", Json::list(tokens.iter().map(object)))], &words);
}

fn kind_name(kind: Kind) -> String {
    format!("{kind:?}").to_lowercase()
}

/// A call with the names that stand in the text.
struct Named {
    index: usize,
    call: Call,
    left: String,
    operation: String,
    /// Each use, and the index of the call that it comes from.
    uses: Vec<(String, usize)>,
}

/// Each call: its index, its place, its left side and operation, and where its identifiers come from.
pub fn calls(report: &mut Report, texts: &Texts) {
    let text = &texts.subject().bytes;
    let checked = match sluicegnome::check(&texts.list.bytes, text) {
        Err(refusal) => return report.refused(texts, &refusal),
        Ok(checked) => checked,
    };
    let tree = texts.tree();
    let shown = |value: &Value| escaped(&text[value.position..value.end]);
    let left = |index: usize| tree.as_ref().and_then(|tree| tree.calls.get(index)).map_or(String::new(), |call| shown(&call.left));
    let mut wires = checked.wires.iter().map(|wire| (name_at(text, wire.position), wire.from));
    let mut named = Vec::new();
    for (index, &call) in checked.calls.iter().enumerate() {
        let uses = wires.by_ref().take(call.used).collect();
        named.push(Named { index, call, left: left(index), operation: name_at(text, call.position), uses });
    }
    let words: String = named.iter().map(|call| call.line(text)).collect();
    report.accepted(texts, named.len(), vec![("calls", Json::list(named.iter().map(Named::object)))], &words);
}

impl Named {
    fn line(&self, text: &[u8]) -> String {
        let at = place(text, self.call.position);
        let uses: String = self.uses.iter().map(|(name, from)| format!(" {name}<-{from}")).collect();
        format!("{} {}:{} {} = {}{uses}\n", self.index, at.line, at.column, self.left, self.operation)
    }

    fn object(&self) -> Json {
        let wire = |(name, from): &(String, usize)| Json::Object(vec![("name", Json::text(name)), ("from", Json::Number(*from))]);
        Json::Object(vec![
            ("index", Json::Number(self.index)),
            ("operation", Json::text(&self.operation)),
            ("operation_index", Json::Number(self.call.operation)),
            ("position", Json::Number(self.call.position)),
            ("left", Json::text(&self.left)),
            ("uses", Json::list(self.uses.iter().map(wire))),
        ])
    }
}
