//! The language of Graphviz.

use super::{edges, is_input, outputs_of, title, value_lines};
use crate::model::Graph;

pub fn dot(graph: &Graph) -> String {
    let mut text = format!("digraph {} {{\n  node [shape=box, fontname=\"monospace\"];\n", quoted(&graph.name));
    for (index, call) in graph.calls.iter().enumerate() {
        let lines = value_lines(call).into_iter().map(|(line, _)| line);
        let label: Vec<String> = std::iter::once(title(call)).chain(lines).collect();
        let style = if is_input(graph, call) { ", style=rounded" } else { "" };
        text += &format!("  c{index} [label={}{style}];\n", quoted(&label.join("\n")));
    }
    for edge in edges(graph) {
        text += &format!("  c{} -> c{} [label={}];\n", edge.from, edge.to, quoted(&edge.names.join(", ")));
    }
    for (index, call) in graph.calls.iter().enumerate() {
        for output in outputs_of(graph, call) {
            let name = quoted(&format!("output {output}"));
            text += &format!("  {name} [shape=ellipse];\n  c{index} -> {name};\n");
        }
    }
    text + "}\n"
}

fn quoted(text: &str) -> String {
    format!("\"{}\"", text.replace('\\', "\\\\").replace('"', "\\\"").replace('\n', "\\n"))
}
