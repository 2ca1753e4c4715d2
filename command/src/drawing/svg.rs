//! A drawing that any browser shows.

use super::layout::{layout, Box, Layout};
use super::{edges, is_input, outputs_of, title, value_lines, Edge};
use crate::model::{Call, Graph};

const LETTER_WIDTH: usize = 8;
const LINE_HEIGHT: usize = 17;
const MARGIN: usize = 10;

const STYLE: &str = "text{font:13px monospace;fill:#222} .d{fill:#b45309;font-style:italic} .t{font-weight:bold} \
rect{fill:#fff;stroke:#444} .i{fill:#e0f2fe} .o{stroke-width:3} .w{fill:none;stroke:#888}";

const ARROW: &str = "<marker id=\"arrow\" viewBox=\"0 0 8 8\" refX=\"8\" refY=\"4\" markerWidth=\"7\" markerHeight=\"7\" orient=\"auto\">\
<path d=\"M0 0L8 4L0 8z\" fill=\"#888\"/></marker>";

/// A call's box: its lines, each with its class, and the class of the box.
struct Node {
    lines: Vec<(String, &'static str)>,
    class: &'static str,
}

pub fn svg(graph: &Graph) -> String {
    let nodes: Vec<Node> = graph.calls.iter().map(|call| node(graph, call)).collect();
    let edges = edges(graph);
    let sizes: Vec<(usize, usize)> = nodes.iter().map(size).collect();
    let places = layout(&sizes, &edges);
    let all = || places.boxes.iter().chain(places.lanes.iter().flatten());
    let width = all().map(|place| place.x + place.width).max().unwrap_or(0) + 2 * MARGIN;
    let height = all().map(Box::bottom).max().unwrap_or(0) + 2 * MARGIN;
    let mut text = format!(
        "<svg xmlns=\"http://www.w3.org/2000/svg\" width=\"{width}\" height=\"{height}\" viewBox=\"0 0 {width} {height}\">\n\
         <title>{}</title>\n<style>{STYLE}</style>\n{ARROW}\n",
        plain(&graph.name)
    );
    for index in 0..edges.len() {
        text += &wire(&edges, index, &places);
    }
    text += &nodes.iter().zip(&places.boxes).map(|(node, place)| drawn(node, place)).collect::<String>();
    text + "</svg>\n"
}

fn node(graph: &Graph, call: &Call) -> Node {
    let mut lines = vec![(title(call), "t")];
    lines.extend(value_lines(call).into_iter().map(|(line, default)| (line, if default { "d" } else { "v" })));
    let outputs = outputs_of(graph, call);
    if !outputs.is_empty() {
        lines.push((format!("output {}", outputs.join(", ")), "t"));
    }
    let class = match (is_input(graph, call), outputs.is_empty()) {
        (true, _) => "i",
        (_, false) => "o",
        _ => "c",
    };
    Node { lines, class }
}

fn size(node: &Node) -> (usize, usize) {
    let letters = node.lines.iter().map(|(line, _)| line.len()).max().unwrap_or(0);
    (letters * LETTER_WIDTH + 2 * MARGIN, node.lines.len() * LINE_HEIGHT + 2 * MARGIN)
}

fn drawn(node: &Node, place: &Box) -> String {
    let Box { x, y, width, height } = *place;
    let mut text = format!("<rect class=\"{}\" x=\"{x}\" y=\"{y}\" width=\"{width}\" height=\"{height}\" rx=\"4\"/>\n", node.class);
    for (index, (line, class)) in node.lines.iter().enumerate() {
        let (x, y) = (x + MARGIN, y + MARGIN + LINE_HEIGHT * index + 12);
        text += &format!("<text class=\"{class}\" x=\"{x}\" y=\"{y}\">{}</text>\n", plain(line));
    }
    text
}

/// The curve of an edge, from the foot of its box through its lanes to the head of the other, and its identifiers where a pointer rests.
fn wire(edges: &[Edge], index: usize, places: &Layout) -> String {
    let from = places.boxes[edges[index].from];
    let (mut x, mut y) = (from.middle(), from.bottom());
    let mut path = format!("M{x} {y}");
    for lane in &places.lanes[index] {
        path += &curve((x, y), (lane.middle(), lane.y));
        (x, y) = (lane.middle(), lane.bottom());
        path += &format!(" L{x} {y}");
    }
    path += &curve((x, y), (entry(edges, index, places), places.boxes[edges[index].to].y));
    let names = plain(&edges[index].names.join(", "));
    format!("<path class=\"w\" d=\"{path}\" marker-end=\"url(#arrow)\"><title>{names}</title></path>\n")
}

fn curve((x1, y1): (usize, usize), (x2, y2): (usize, usize)) -> String {
    let middle = (y1 + y2) / 2;
    format!(" C{x1} {middle} {x2} {middle} {x2} {y2}")
}

/// Where an edge meets the head of its box: the edges of a box stand side by side, in the order from which they come.
fn entry(edges: &[Edge], index: usize, places: &Layout) -> usize {
    let last = |index: usize| places.lanes[index].last().map_or(places.boxes[edges[index].from].middle(), Box::middle);
    let fellows: Vec<usize> = (0..edges.len()).filter(|&fellow| edges[fellow].to == edges[index].to).collect();
    let before = fellows.iter().filter(|&&fellow| (last(fellow), fellow) < (last(index), index)).count();
    let place = places.boxes[edges[index].to];
    place.x + place.width * (before + 1) / (fellows.len() + 1)
}

fn plain(text: &str) -> String {
    text.replace('&', "&amp;").replace('<', "&lt;").replace('>', "&gt;").replace('"', "&quot;")
}
