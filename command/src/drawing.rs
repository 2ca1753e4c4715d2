//! A graph as a drawing.

mod dot;
mod layout;
mod svg;

pub use dot::dot;
pub use svg::svg;

use crate::json::Json;
use crate::model::{Call, Graph};
use crate::report::Report;
use crate::texts::Texts;

pub fn draw(report: &mut Report, texts: &Texts, graph: &Graph) {
    let drawing = match report.arguments.svg {
        true => svg(graph),
        false => dot(graph),
    };
    report.made(texts, graph.calls.len(), vec![("drawing", Json::text(&drawing))], drawing.as_bytes());
}

/// A wire, or several between the same two calls: from, to, and the identifiers.
struct Edge {
    from: usize,
    to: usize,
    names: Vec<String>,
}

fn edges(graph: &Graph) -> Vec<Edge> {
    let mut edges: Vec<Edge> = Vec::new();
    for (to, call) in graph.calls.iter().enumerate() {
        for name in call.values.iter().flat_map(|value| &value.uses) {
            let Some(from) = graph.calls[..to].iter().position(|call| call.assigned.contains(name)) else {
                continue;
            };
            match edges.iter_mut().find(|edge| (edge.from, edge.to) == (from, to)) {
                Some(edge) if edge.names.contains(name) => {}
                Some(edge) => edge.names.push(name.clone()),
                None => edges.push(Edge { from, to, names: vec![name.clone()] }),
            }
        }
    }
    edges
}

/// The first line of a call's box.
fn title(call: &Call) -> String {
    format!("{} = {}", call.left, call.operation)
}

/// The other lines: each value, and whether it is a default.
fn value_lines(call: &Call) -> Vec<(String, bool)> {
    let line = |value: &crate::model::Bound| {
        let mark = if value.default { " (default)" } else { "" };
        (format!("{} = {}{mark}", value.parameter, value.decimal), value.default)
    };
    call.values.iter().map(line).collect()
}

/// The outputs that a call assigns.
fn outputs_of<'a>(graph: &'a Graph, call: &'a Call) -> Vec<&'a str> {
    let outputs = graph.outputs.iter().filter(|output| call.assigned.contains(output));
    outputs.map(String::as_str).collect()
}

fn is_input(graph: &Graph, call: &Call) -> bool {
    graph.inputs.iter().any(|input| call.assigned.contains(input))
}
