//! Writes the canonical text of a document, or says what is wrong and where:
//!
//!     cargo run --example canonical LIST DOCUMENT

use sluicegnome::{canon, place, Refusal, Text};
use std::io::Write;
use std::process::ExitCode;
use std::{env, fs};

fn main() -> ExitCode {
    let paths: Vec<String> = env::args().skip(1).collect();
    let [list, document] = &paths[..] else {
        eprintln!("usage: canonical LIST DOCUMENT");
        return ExitCode::from(2);
    };
    match run(list, document) {
        Ok(()) => ExitCode::SUCCESS,
        Err(words) => {
            eprintln!("{words}");
            ExitCode::FAILURE
        }
    }
}

fn run(list_path: &str, document_path: &str) -> Result<(), String> {
    let read = |path: &str| fs::read(path).map_err(|error| format!("{path}: {error}"));
    let (list, document) = (read(list_path)?, read(document_path)?);
    let words = |refusal: Refusal| {
        let (path, text) = if refusal.text == Text::List { (list_path, &list) } else { (document_path, &document) };
        let at = place(text, refusal.position);
        format!("{path}:{}:{}: {}", at.line, at.column, refusal.code.text())
    };
    let text = canon(&list, &document).map_err(words)?;
    std::io::stdout().write_all(&text).map_err(|error| error.to_string())
}
