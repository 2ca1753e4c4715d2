//! Which module does what a command asks, on which texts.

use crate::arguments::Arguments;
use crate::files::{self, Source, Trouble};
use crate::model::{self, Graph};
use crate::report::Report;
use crate::texts::Texts;
use crate::verbs::Verb;
use crate::{canon, check, diff, drawing, explain, order, paths, show, tables};
use std::ffi::{OsStr, OsString};

/// The operation list where none is named.
const DEFAULT_LIST: &str = "declarations.nnef";

/// Runs a command; nothing is written to standard output yet.
pub fn run(arguments: &Arguments) -> Report<'_> {
    let mut report = Report::new(arguments);
    let done = match (arguments.verb, &arguments.operands[..]) {
        (Verb::Explain, [code, ..]) => {
            explain::explain(&mut report, &code.to_string_lossy());
            Ok(())
        }
        (Verb::Tokens, [file, ..]) => files::read(file).map(|text| tables::tokens(&mut report, &Texts::sole(&text))),
        (_, operands) => read_list(arguments).and_then(|list| under_list(&mut report, &list, operands)),
    };
    if let Err(trouble) = done {
        report.trouble(&trouble);
    }
    report
}

fn read_list(arguments: &Arguments) -> Result<Source, Trouble> {
    let default = |trouble: Trouble| Trouble(format!("{}; name the operation list with -l LIST", trouble.0));
    match &arguments.list {
        Some(list) => files::read(list),
        None => files::read(OsStr::new(DEFAULT_LIST)).map_err(default),
    }
}

fn under_list(report: &mut Report, list: &Source, operands: &[OsString]) -> Result<(), Trouble> {
    match (report.arguments.verb, operands) {
        (Verb::Check, []) => check::list_alone(report, list),
        (Verb::Diff, [one, other]) => diff::compare(report, list, &files::read(one)?, &files::read(other)?),
        (Verb::Order, [graph, numbers]) => order::judge(report, list, &files::read(graph)?, &files::read_order(numbers)?),
        (_, []) => graph_file(report, &Texts::pair(list, &files::read(OsStr::new("-"))?)),
        (_, files) => {
            for file in files {
                match files::read(file) {
                    Ok(document) => graph_file(report, &Texts::pair(list, &document)),
                    Err(trouble) => report.trouble(&trouble),
                }
            }
        }
    }
    Ok(())
}

/// A command on one graph.
fn graph_file(report: &mut Report, texts: &Texts) {
    match report.arguments.verb {
        Verb::Check => check::check(report, texts),
        Verb::Canon => canon::canon(report, texts),
        Verb::Fmt => canon::fmt(report, texts),
        Verb::Calls => tables::calls(report, texts),
        Verb::Graph => if_read(report.graph(texts, model::graph_of_any_length), |graph| drawing::draw(report, texts, graph)),
        Verb::Paths => if_read(report.graph(texts, model::graph_of_any_length), |graph| paths::answer(report, texts, graph)),
        _ => if_read(report.graph(texts, model::graph), |graph| show::show(report, texts, graph)),
    }
}

fn if_read(graph: Option<Graph>, act: impl FnOnce(&Graph)) {
    if let Some(graph) = graph {
        act(&graph);
    }
}
