//! Compares the library with the reference and with written answers, and
//! measures its stack.
//!
//! Arguments: the number of random texts, of random pairs of texts and of random
//! pairs of names (100000; of families of pairs a tenth), and the seed (1).
//! `--only OPERATION` runs one part alone, `--case N` of the random cases one
//! alone, `--seed S` is the seed.

#[path = "../include/nnef.rs"]
mod library;

mod canon;
mod check;
mod compare;
mod lent;
mod options;
mod order;
mod processors;
mod program;
mod progress;
mod stack;
mod tokens;
mod walled;
mod written;

use options::Options;
use std::process::ExitCode;

/// What one part of the tests has run.
pub struct Total {
    written: usize,
    random: usize,
    wrong: usize,
}

fn main() -> ExitCode {
    let options = match Options::read(std::env::args().skip(1)) {
        Ok(options) => options,
        Err(message) => {
            eprintln!("{message}");
            return ExitCode::from(2);
        }
    };
    let totals: Vec<Total> = options::OPERATIONS
        .iter()
        .filter(|operation| options.takes(operation))
        .map(|operation| run(operation, &options))
        .collect();
    let sum = |part: fn(&Total) -> usize| totals.iter().map(part).sum::<usize>();
    let wrong = sum(|total| total.wrong);
    println!(
        "total: {} written and {} random cases, seed {}: {wrong} wrong",
        sum(|total| total.written),
        sum(|total| total.random),
        options.seed
    );
    if wrong == 0 {
        ExitCode::SUCCESS
    } else {
        ExitCode::FAILURE
    }
}

fn run(operation: &str, options: &Options) -> Total {
    match operation {
        "tokens" => tokens::run(options),
        "check" => check::run(options),
        "canon" => canon::run(options),
        "order" => order::run(options),
        "compare" => compare::run(options),
        _ => stack::run(options.seed),
    }
}
