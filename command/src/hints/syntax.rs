//! Faults of syntax: codes 9 and 10.

use super::{habits, Hint};
use crate::escape::escaped;
use crate::reader::{self, Stop};
use crate::texts::tokens;
use sluicegnome::{limits, Code, Refusal, Text};

pub fn hint(plain: Hint, text: &[u8], fault: &Refusal) -> Hint {
    let tokens = tokens(text);
    let place = tokens.iter().position(|token| token.start >= fault.position).unwrap_or(tokens.len());
    let spelling = |token: &sluicegnome::Token| escaped(text.get(token.start..token.end).unwrap_or_default());
    let found = tokens.get(place).map(spelling);
    let length = found.as_ref().map_or(1, String::len);
    let plain = plain.long(length);
    if fault.code == Code::TooDeep {
        return plain.says(format!("more than {} brackets are open", limits::BRACKETS));
    }
    let stops = match fault.text {
        Text::List => reader::operation_list(text, &tokens).stops,
        _ => reader::document(text, &tokens).stops,
    };
    let expected = stops.iter().find(|stop| stop.position == fault.position).map(expected);
    let before: Vec<String> = tokens[..place].iter().rev().take(3).map(spelling).collect();
    let after = tokens.get(place + 1).map(spelling);
    let setting = habits::Setting {
        list: fault.text == Text::List,
        before: before.iter().map(String::as_str).collect(),
        found: found.as_deref(),
        kind: tokens.get(place).map(|token| token.kind),
        after: after.as_deref(),
        expected: expected.as_deref().unwrap_or_default(),
        comments_run_on: !text.contains(&b'\n') && text.contains(&b'\r') && text.contains(&b'#'),
    };
    let said = plain.says(sentence(expected.as_deref(), found.as_deref()));
    habits::hint(said, &setting)
}

fn sentence(expected: Option<&str>, found: Option<&str>) -> String {
    match (expected, found) {
        (Some(expected), Some(found)) => format!("expected {expected}; found `{found}`"),
        (Some(expected), None) => format!("expected {expected}; the text ends here"),
        (None, Some(found)) => format!("`{found}` cannot stand here"),
        (None, None) => "the text cannot end here".to_string(),
    }
}

/// What may stand at a stop: `a`, `b` or `c`.
fn expected(stop: &Stop) -> String {
    match &stop.expected[..] {
        [] => "nothing".to_string(),
        [one] => one.to_string(),
        [first @ .., last] => format!("{} or {last}", first.join(", ")),
    }
}
