//! The canonical text, and beside each call the values that the list gives.

use crate::json::Json;
use crate::model::{Call, Graph};
use crate::report::Report;
use crate::texts::Texts;

/// Comments stand in one column, but for longer lines.
const WIDEST: usize = 72;

pub fn show(report: &mut Report, texts: &Texts, graph: &Graph) {
    let mut lines: Vec<String> = graph.canonical.lines().map(str::to_string).collect();
    let width = graph.calls.iter().map(|call| call.line.len()).filter(|width| *width <= WIDEST).max().unwrap_or(0);
    let first = lines.len().saturating_sub(graph.calls.len() + 1);
    for (line, call) in lines.iter_mut().skip(first).zip(&graph.calls) {
        let defaults = defaults(call);
        if !defaults.is_empty() {
            *line = format!("{line:<width$}  # {}", defaults.join(", "));
        }
    }
    let words: String = lines.iter().map(|line| format!("{line}\n")).collect();
    report.accepted(texts, graph.canonical.len(), vec![("calls", Json::list(graph.calls.iter().map(call_json)))], words);
}

fn defaults(call: &Call) -> Vec<String> {
    let defaults = call.values.iter().filter(|value| value.default);
    defaults.map(|value| format!("{}={} (default)", value.parameter, value.decimal)).collect()
}

fn call_json(call: &Call) -> Json {
    let value = |value: &crate::model::Bound| {
        Json::Object(vec![
            ("parameter", Json::text(&value.parameter)),
            ("canonical", Json::text(&value.spelling)),
            ("decimal", Json::text(&value.decimal)),
            ("default", Json::Flag(value.default)),
        ])
    };
    Json::Object(vec![
        ("left", Json::text(&call.left)),
        ("operation", Json::text(&call.operation)),
        ("values", Json::list(call.values.iter().map(value))),
    ])
}
