//! nnef: checks, compares, writes and draws flat NNEF graphs. Verdicts and canonical bytes come from the proved library alone; the words,
//! the places in lines and columns, and the drawings are this program's.

#[cfg(test)]
mod agreement;
mod alignment;
mod arguments;
mod canon;
mod check;
mod closed;
mod commands;
mod diff;
mod drawing;
mod escape;
mod explain;
mod faults;
mod files;
mod fitting;
mod hints;
mod json;
mod message;
mod model;
mod near;
mod number;
mod order;
mod paths;
mod place;
mod reader;
mod report;
mod rules;
mod show;
mod tables;
mod texts;
mod tree;
mod verbs;

use arguments::{Line, Usage};
use std::process::ExitCode;

fn main() -> ExitCode {
    let status = match arguments::parse(std::env::args_os().skip(1)) {
        Ok(Line::Run(arguments)) => report::finish(commands::run(&arguments)),
        Ok(Line::Version) => say(&format!("nnef {}\n", env!("CARGO_PKG_VERSION"))),
        Ok(Line::Help(None)) => say(&verbs::overview()),
        Ok(Line::Help(Some(entry))) => say(&verbs::help(entry)),
        Err(Usage(sentence)) => {
            eprintln!("nnef: {sentence}; see `nnef help`");
            report::USAGE
        }
    };
    ExitCode::from(status)
}

/// Writes a text to standard output.
fn say(text: &str) -> u8 {
    match files::write_standard_output(text.as_bytes()) {
        Ok(()) => report::ACCEPTED,
        Err(trouble) => {
            eprintln!("nnef: {}", trouble.0);
            report::TROUBLE
        }
    }
}
