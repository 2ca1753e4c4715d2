//! How many times an operation stands on a path from an input to an output: the fewest and the most over all paths, along the wires.

use crate::json::Json;
use crate::model::{Bound, Call, Graph};
use crate::near::nearest;
use crate::number::{counted, times};
use crate::place::place;
use crate::report::{Report, USAGE};
use crate::texts::Texts;

/// More values that are named alike are only counted in the first line.
const MOST_IN_SUMMARY: usize = 4;

/// The fewest and the most times over some paths.
#[derive(Clone, Copy, Debug, PartialEq, Eq)]
struct Count {
    fewest: usize,
    most: usize,
}

pub struct Paths {
    name: String,
    outputs: Vec<Output>,
    /// How many calls of the operation there are, and which of their values the list gives.
    calls: usize,
    defaults: Vec<Bound>,
    /// Values of other operations' parameters that are named alike.
    alike: Vec<Alike>,
}

struct Alike {
    call: String,
    position: usize,
    value: Bound,
}

struct Output {
    name: String,
    /// Over all paths from any input; nothing if no path leads here.
    all: Option<Count>,
    from: Vec<(String, Count)>,
    /// The calls of the operation on these paths.
    calls: Vec<usize>,
}

/// Answers for the operation that --op names, which the list must declare.
pub fn answer(report: &mut Report, texts: &Texts, graph: &Graph) {
    let name = report.arguments.op.clone().unwrap_or_default();
    let operations = texts.operations().unwrap_or_default();
    let names = || operations.iter().map(|operation| operation.name.spelling);
    if !names().any(|declared| declared == name) {
        let near = nearest(&name, names()).map_or(String::new(), |near| format!(" (did you mean {near}?)"));
        report.raise(USAGE);
        report.messages += &format!("nnef: {} declares no operation {name}{near}\n", texts.list.name);
        return;
    }
    let found = paths(graph, &name);
    report.accepted(texts, graph.calls.len(), found.fields(), found.words(&texts.subject().bytes, graph));
}

pub fn paths(graph: &Graph, name: &str) -> Paths {
    let is_named: Vec<bool> = graph.calls.iter().map(|call| call.operation == name).collect();
    let from_inputs: Vec<Vec<Option<Count>>> = graph.inputs.iter().map(|input| counts(graph, &is_named, assigner(graph, input))).collect();
    let outputs = graph.outputs.iter().map(|output| {
        let end = assigner(graph, output);
        let count_at = |counts: &Vec<Option<Count>>| end.and_then(|end| counts[end]);
        let from = graph.inputs.iter().zip(&from_inputs).filter_map(|(input, counts)| Some((input.clone(), count_at(counts)?)));
        let leads_to = leading_to(graph, end);
        let on_path = |call: &usize| is_named[*call] && leads_to[*call] && from_inputs.iter().any(|counts| counts[*call].is_some());
        Output {
            name: output.clone(),
            all: from_inputs.iter().filter_map(count_at).reduce(both),
            from: from.collect(),
            calls: (0..graph.calls.len()).filter(on_path).collect(),
        }
    });
    let calls: Vec<&Call> = graph.calls.iter().filter(|call| call.operation == name).collect();
    Paths {
        name: name.to_string(),
        outputs: outputs.collect(),
        calls: calls.len(),
        defaults: calls.iter().flat_map(|call| &call.values).filter(|value| value.default).cloned().collect(),
        alike: alike(graph, name),
    }
}

fn assigner(graph: &Graph, identifier: &String) -> Option<usize> {
    graph.calls.iter().position(|call| call.assigned.contains(identifier))
}

/// For each call the count over all paths to it from one call. A wire comes from an earlier call, so one pass is enough.
fn counts(graph: &Graph, is_named: &[bool], start: Option<usize>) -> Vec<Option<Count>> {
    let mut counts: Vec<Option<Count>> = Vec::with_capacity(graph.calls.len());
    for (index, call) in graph.calls.iter().enumerate() {
        let before = match start == Some(index) {
            true => Some(Count { fewest: 0, most: 0 }),
            false => call.sources.iter().filter_map(|&source| counts.get(source).copied().flatten()).reduce(both),
        };
        let here = usize::from(is_named[index]);
        counts.push(before.map(|count| Count { fewest: count.fewest + here, most: count.most + here }));
    }
    counts
}

fn both(one: Count, other: Count) -> Count {
    Count { fewest: one.fewest.min(other.fewest), most: one.most.max(other.most) }
}

/// Which calls a path to this one goes through.
fn leading_to(graph: &Graph, end: Option<usize>) -> Vec<bool> {
    let mut leads = vec![false; graph.calls.len()];
    if let Some(end) = end {
        leads[end] = true;
    }
    for index in (0..graph.calls.len()).rev() {
        if leads[index] {
            graph.calls[index].sources.iter().for_each(|&source| leads[source] = true);
        }
    }
    leads
}

/// The values of other operations' parameters that share a word with the name.
fn alike(graph: &Graph, name: &str) -> Vec<Alike> {
    let others = graph.calls.iter().filter(|call| call.operation != name);
    let values = others.flat_map(|call| call.values.iter().map(move |value| (call, value)));
    let shared = values.filter(|(_, value)| value.uses.is_empty() && share_word(name, &value.parameter));
    let alike = |(call, value): (&Call, &Bound)| Alike { call: call_head(call), position: call.position, value: value.clone() };
    shared.map(alike).collect()
}

/// Whether two names have a word of four letters or more in common, perhaps with another ending.
fn share_word(one: &str, other: &str) -> bool {
    let words = |name: &str| name.to_ascii_lowercase().split('_').filter(|word| word.len() >= 4).map(str::to_string).collect::<Vec<_>>();
    let others = words(other);
    words(one).iter().any(|word| others.iter().any(|other| word.starts_with(other.as_str()) || other.starts_with(word.as_str())))
}

impl Count {
    fn words(self) -> String {
        match self.fewest == self.most {
            true => times(self.most),
            false => format!("{} to {} times", self.fewest, self.most),
        }
    }
}

impl Output {
    /// How often, and from which input how often where that differs.
    fn verdict(&self) -> (String, String) {
        match self.all {
            None => ("no path from an input leads to".to_string(), String::new()),
            Some(count) if count.fewest != count.most => {
                (format!("differs by path, at most {}, to", times(count.most)), format!(" ({})", self.by_input()))
            }
            Some(count) => (format!("applied {} to", count.words()), String::new()),
        }
    }

    /// The count from each input, inputs with the same count together.
    fn by_input(&self) -> String {
        let groups = grouped(self.from.iter().map(|(input, count)| (count.words(), input.as_str())));
        let groups: Vec<String> = groups.iter().map(|(count, inputs)| format!("{count} from {}", inputs.join(", "))).collect();
        groups.join("; ")
    }
}

impl Paths {
    /// The one line that answers the question.
    fn summary(&self) -> String {
        let groups = grouped(self.outputs.iter().map(|output| (output.verdict(), output.name.as_str())));
        let groups: Vec<String> = groups.iter().map(|((verdict, from), names)| format!("{verdict} {}{from}", names.join(", "))).collect();
        let mut parts = vec![counted(self.calls, "call")];
        for default in self.defaults.iter().map(assignment) {
            if !parts.contains(&default) {
                parts.push(default);
            }
        }
        let mut alike: Vec<String> =
            self.alike.iter().map(|alike| format!("; also {} of {}", assignment(&alike.value), alike.call)).collect();
        if alike.len() > MOST_IN_SUMMARY {
            let more = alike.len() - MOST_IN_SUMMARY;
            alike.truncate(MOST_IN_SUMMARY);
            alike.push(format!(" and {more} more"));
        }
        format!("{}: {}{}; {}", self.name, parts.join(", "), alike.concat(), groups.join("; "))
    }

    pub fn words(&self, text: &[u8], graph: &Graph) -> String {
        let mut words = format!("{}\n", self.summary());
        for output in &self.outputs {
            let from = if output.from.is_empty() { "no path from an input".to_string() } else { output.by_input() };
            words += &format!("{}: {from}\n", output.name);
            for &index in &output.calls {
                words += &format!("  by {}\n", call_words(text, &graph.calls[index]));
            }
        }
        for alike in &self.alike {
            words += &format!("also {} of {} at {}\n", assignment(&alike.value), alike.call, line_and_column(text, alike.position));
        }
        words
    }

    pub fn fields(&self) -> Vec<(&'static str, Json)> {
        let count = |count: &Count| vec![("fewest", Json::Number(count.fewest)), ("most", Json::Number(count.most))];
        let output = |output: &Output| {
            let mut fields = vec![("output", Json::text(&output.name))];
            fields.extend(output.all.iter().flat_map(count));
            let from = |(input, from): &(String, Count)| {
                let mut fields = vec![("input", Json::text(input))];
                fields.extend(count(from));
                Json::Object(fields)
            };
            fields.push(("from", Json::list(output.from.iter().map(from))));
            fields.push(("calls", Json::list(output.calls.iter().map(|&call| Json::Number(call)))));
            Json::Object(fields)
        };
        vec![
            ("operation", Json::text(&self.name)),
            ("summary", Json::text(self.summary())),
            ("outputs", Json::list(self.outputs.iter().map(output))),
        ]
    }
}

/// Names under the words that they share, in the order of the first ones.
fn grouped<'a, W: PartialEq>(items: impl Iterator<Item = (W, &'a str)>) -> Vec<(W, Vec<&'a str>)> {
    let mut groups: Vec<(W, Vec<&str>)> = Vec::new();
    for (words, name) in items {
        match groups.iter_mut().find(|(known, _)| *known == words) {
            Some((_, names)) => names.push(name),
            None => groups.push((words, vec![name])),
        }
    }
    groups
}

fn assignment(value: &Bound) -> String {
    format!("{}={}", value.parameter, value.marked())
}

fn call_head(call: &Call) -> String {
    format!("{}={}", call.left, call.operation)
}

fn line_and_column(text: &[u8], position: usize) -> String {
    let at = place(text, position);
    format!("{}:{}", at.line, at.column)
}

fn call_words(text: &[u8], call: &Call) -> String {
    let values: Vec<String> = call.values.iter().map(assignment).collect();
    format!("{} at {}: {}", call_head(call), line_and_column(text, call.position), values.join(", "))
}

#[cfg(test)]
mod tests {
    use super::{paths, share_word, Count};
    use crate::model::{Call, Graph};

    /// A graph in which call i takes from the calls below it whose bits are set, call 0 is the input and the last one the output.
    fn small_graph(sources: &[u32], named: u32) -> Graph {
        let last = sources.len() - 1;
        let call = |(index, bits): (usize, &u32)| Call {
            left: format!("v{index}"),
            assigned: vec![format!("v{index}")],
            operation: if named >> index & 1 == 1 { "named" } else { "other" }.to_string(),
            position: 0,
            values: Vec::new(),
            sources: (0..index).filter(|source| bits >> source & 1 == 1).collect(),
            line: String::new(),
        };
        let calls = sources.iter().enumerate().map(call).collect();
        let names = |index: usize| vec![format!("v{index}")];
        Graph { name: "g".to_string(), inputs: names(0), outputs: names(last), calls, canonical: String::new() }
    }

    /// The counts of all paths from call 0, each walked by itself.
    fn walked(graph: &Graph, to: usize) -> Vec<usize> {
        let here = usize::from(graph.calls[to].operation == "named");
        if to == 0 {
            return vec![here];
        }
        graph.calls[to].sources.iter().flat_map(|&source| walked(graph, source)).map(|count| count + here).collect()
    }

    #[test]
    fn counts_are_those_of_all_paths() {
        for seed in 0..20_000u32 {
            let bits = |index: u32| seed.wrapping_mul(2_654_435_761).rotate_left(7 * index) >> 3;
            let sources: Vec<u32> = (0..7).map(bits).collect();
            let graph = small_graph(&sources, bits(8));
            let counts = walked(&graph, 6);
            let all = counts.iter().min().zip(counts.iter().max()).map(|(&fewest, &most)| Count { fewest, most });
            assert_eq!(paths(&graph, "named").outputs[0].all, all);
        }
    }

    #[test]
    fn words_in_common() {
        assert!(share_word("epoch_correction", "correct_epoch"));
        assert!(share_word("correct", "correction"));
        assert!(!share_word("scale", "by"));
    }
}
