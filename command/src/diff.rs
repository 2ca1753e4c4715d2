//! What two graphs say differently: in one line, by call and parameter, and as canonical lines.

use crate::alignment::{align, Pair};
use crate::files::Source;
use crate::json::Json;
use crate::model::{self, Bound, Call, Graph};
use crate::number::counted;
use crate::place::line;
use crate::report::{Report, EITHER_REFUSED, REFUSED};
use crate::texts::Texts;

/// More differences than these are only counted in the first line.
const MOST_IN_SUMMARY: usize = 4;

/// Compares two files under a list; a file that is refused is not compared.
pub fn compare(report: &mut Report, list: &Source, one: &Source, other: &Source) {
    let pairs = [Texts::pair(list, one), Texts::pair(list, other)];
    let mut graphs = Vec::new();
    for texts in &pairs {
        match report.graph(texts, model::graph) {
            Some(graph) => {
                report.accepted(texts, graph.canonical.len(), Vec::new(), "");
                graphs.push(graph);
            }
            None => report.raise(EITHER_REFUSED),
        }
    }
    match &graphs[..] {
        [a, b] => tell(report, &pairs, a, b),
        _ if report.wordless() => {}
        rest => report.messages += &format!("nnef: not compared: {} refused\n", if rest.is_empty() { "both were" } else { "one was" }),
    }
}

fn tell(report: &mut Report, texts: &[Texts; 2], a: &Graph, b: &Graph) {
    let equal = a.canonical == b.canonical;
    if !equal {
        report.raise(REFUSED);
    }
    if report.arguments.numbers {
        return;
    }
    let difference = Difference::new(texts, a, b);
    if report.arguments.json {
        let object = Json::Object(vec![
            ("a", Json::text(&texts[0].subject().name)),
            ("b", Json::text(&texts[1].subject().name)),
            ("equal", Json::Flag(equal)),
            ("summary", Json::text(difference.summary())),
            ("differences", Json::texts(difference.pieces())),
            ("lines", Json::texts(difference.lines())),
        ]);
        report.print(&format!("{object}\n"));
    } else if !report.arguments.quiet {
        report.print(&difference.words());
    }
}

struct Difference<'a> {
    texts: &'a [Texts<'a>; 2],
    a: &'a Graph,
    b: &'a Graph,
    pairs: Vec<Pair>,
}

impl<'a> Difference<'a> {
    fn new(texts: &'a [Texts<'a>; 2], a: &'a Graph, b: &'a Graph) -> Difference<'a> {
        Difference { texts, a, b, pairs: align(&a.calls, &b.calls) }
    }

    fn words(&self) -> String {
        let [one, other] = self.texts.map(|texts| &texts.subject().name);
        let mut words = format!("{}\nA is {one}\nB is {other}\n", self.summary());
        words += &self.headers().iter().map(|piece| format!("{piece}\n")).collect::<String>();
        words += &self.pairs.iter().map(|pair| self.pair_words(*pair)).collect::<String>();
        let lines = self.lines();
        if !lines.is_empty() {
            words += "canonical lines, - of A and + of B:\n";
            words += &lines.iter().map(|line| format!("{line}\n")).collect::<String>();
        }
        words
    }

    /// The one line that says it all in short.
    fn summary(&self) -> String {
        if self.a.canonical == self.b.canonical {
            return format!("equal: both say the same, in {}", counted(self.a.calls.len(), "call"));
        }
        let pieces = self.short_pieces();
        let more = match pieces.len().saturating_sub(MOST_IN_SUMMARY) {
            0 => String::new(),
            more => format!("; and {}", counted(more, "more difference")),
        };
        let shown: Vec<&str> = pieces.iter().take(MOST_IN_SUMMARY).map(String::as_str).collect();
        format!("different: {}{more}", shown.join("; "))
    }

    /// Each difference in a few words: of the header, of how often operations are called, of values.
    fn pieces(&self) -> Vec<String> {
        let mut pieces = self.headers();
        pieces.extend(self.call_counts());
        pieces.extend(self.changes().into_iter().map(|change| change.words));
        pieces.extend(self.order());
        pieces
    }

    /// The same, but that calls which only take other identifiers are counted.
    fn short_pieces(&self) -> Vec<String> {
        let mut pieces = self.headers();
        pieces.extend(self.call_counts());
        let (wires, values): (Vec<Change>, Vec<Change>) = self.changes().into_iter().partition(|change| change.wire);
        pieces.extend(values.into_iter().map(|change| change.words));
        match wires.len() {
            0 => {}
            1 => pieces.extend(wires.into_iter().map(|change| change.words)),
            count => pieces.push(format!("{count} arguments are other identifiers")),
        }
        pieces.extend(self.order());
        pieces
    }

    /// Whether an operation has calls without a fellow in both graphs: the order of the calls differs.
    fn order(&self) -> Option<String> {
        let alone = |pair: &Pair| match *pair {
            Pair::First(i) => Some(&self.a.calls[i].operation),
            _ => None,
        };
        let fellow = |operation: &&String| {
            self.pairs.iter().any(|pair| matches!(*pair, Pair::Second(j) if self.b.calls[j].operation == **operation))
        };
        let moved = self.pairs.iter().filter_map(alone).find(fellow);
        moved.map(|operation| format!("calls of {operation} stand in another order"))
    }

    fn changes(&self) -> Vec<Change> {
        let both = self.pairs.iter().filter_map(|pair| match *pair {
            Pair::Both(i, j) => Some((&self.a.calls[i], &self.b.calls[j])),
            _ => None,
        });
        both.flat_map(|(one, other)| changes(one, other)).collect()
    }

    fn headers(&self) -> Vec<String> {
        let mut pieces = Vec::new();
        let mut piece = |what: &str, one: &str, other: &str| {
            if one != other {
                pieces.push(format!("{what}: {one} in A, {other} in B"));
            }
        };
        piece("graph", &self.a.name, &self.b.name);
        piece("inputs", &self.a.inputs.join(","), &self.b.inputs.join(","));
        piece("outputs", &self.a.outputs.join(","), &self.b.outputs.join(","));
        pieces
    }

    /// The operations that are called more often in one than in the other.
    fn call_counts(&self) -> Vec<String> {
        let mut operations: Vec<&str> = Vec::new();
        for call in self.a.calls.iter().chain(&self.b.calls) {
            if !operations.contains(&call.operation.as_str()) {
                operations.push(&call.operation);
            }
        }
        let count = |graph: &Graph, operation: &str| graph.calls.iter().filter(|call| call.operation == operation).count();
        let counts = operations.iter().map(|operation| (operation, count(self.a, operation), count(self.b, operation)));
        let unequal = counts.filter(|(_, a, b)| a != b);
        unequal.map(|(operation, a, b)| format!("{operation}: {} in A, {} in B", counted(a, "call"), counted(b, "call"))).collect()
    }

    /// A pair of calls that differ, or a call of one graph alone; of equal calls only values that one file writes and the other does not.
    fn pair_words(&self, pair: Pair) -> String {
        let place = |side: usize, call: &Call| line(&self.texts[side].subject().bytes, call.position);
        match pair {
            Pair::First(i) => {
                let call = &self.a.calls[i];
                format!("only in A, line {}: {}\n{}", place(0, call), head(call), values(call))
            }
            Pair::Second(j) => {
                let call = &self.b.calls[j];
                format!("only in B, line {}: {}\n{}", place(1, call), head(call), values(call))
            }
            Pair::Both(i, j) => {
                let (one, other) = (&self.a.calls[i], &self.b.calls[j]);
                let rows = rows(one, other);
                match rows.is_empty() {
                    true => String::new(),
                    false => format!("{} (line {} in A, {} in B)\n{rows}", head(one), place(0, one), place(1, other)),
                }
            }
        }
    }

    /// The canonical lines that are not in both.
    fn lines(&self) -> Vec<String> {
        let mut lines = Vec::new();
        let header = |graph: &Graph| graph.canonical.lines().nth(1).unwrap_or_default().to_string();
        let mut change = |one: Option<&str>, other: Option<&str>| {
            if one != other {
                lines.extend(one.map(|line| format!("-{line}")));
                lines.extend(other.map(|line| format!("+{line}")));
            }
        };
        change(Some(&header(self.a)), Some(&header(self.b)));
        for pair in &self.pairs {
            match *pair {
                Pair::Both(i, j) => change(Some(&self.a.calls[i].line), Some(&self.b.calls[j].line)),
                Pair::First(i) => change(Some(&self.a.calls[i].line), None),
                Pair::Second(j) => change(None, Some(&self.b.calls[j].line)),
            }
        }
        lines
    }
}

fn head(call: &Call) -> String {
    format!("{}={}", call.left, call.operation)
}

fn values(call: &Call) -> String {
    call.values.iter().map(|value| format!("  {}: {}\n", value.parameter, value.marked())).collect()
}

/// The values of each parameter of two calls.
fn parameters<'a>(one: &'a Call, other: &'a Call) -> Vec<(&'a str, &'a Bound, &'a Bound)> {
    let same = one.operation == other.operation;
    let pairs = one.values.iter().zip(&other.values).filter(|_| same);
    pairs.map(|(a, b)| (a.parameter.as_str(), a, b)).collect()
}

/// A difference of two calls that go together.
struct Change {
    words: String,
    /// Whether both values are made of identifiers.
    wire: bool,
}

fn changes(one: &Call, other: &Call) -> Vec<Change> {
    let mut changes = Vec::new();
    let mut change = |words: String, wire: bool| changes.push(Change { words, wire });
    if one.operation != other.operation {
        change(format!("{}: by {} in A, by {} in B", one.left, one.operation, other.operation), false);
    } else if one.left != other.left {
        change(format!("{} in A is {} in B", head(one), head(other)), false);
    }
    for (parameter, a, b) in parameters(one, other) {
        if a.spelling != b.spelling {
            let wire = !a.uses.is_empty() && !b.uses.is_empty();
            change(format!("{}: {parameter} is {} in A, {} in B", head(one), a.marked(), b.marked()), wire);
        }
    }
    changes
}

/// The same in rows: each parameter whose value, or the mark of it, differs.
fn rows(one: &Call, other: &Call) -> String {
    let mut rows = String::new();
    if head(one) != head(other) {
        rows += &format!("  {} in A, {} in B\n", head(one), head(other));
    }
    if one.operation != other.operation {
        rows += &one.values.iter().map(|value| format!("  {}: {} in A\n", value.parameter, value.marked())).collect::<String>();
        rows += &other.values.iter().map(|value| format!("  {}: {} in B\n", value.parameter, value.marked())).collect::<String>();
    }
    for (parameter, a, b) in parameters(one, other) {
        if a.spelling != b.spelling {
            rows += &format!("  {parameter}: {} in A, {} in B\n", a.marked(), b.marked());
        } else if a.default != b.default {
            rows += &format!(
                "  {parameter}: {} in both, {}\n",
                a.decimal,
                if a.default { "(default) in A, (written) in B" } else { "(written) in A, (default) in B" }
            );
        }
    }
    rows
}
