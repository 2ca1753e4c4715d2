//! The operation `tokens`: written cases, then the library against the reference.

pub mod cases;
mod inputs;

use crate::lent::{lent, pattern, LentText, GUARD};
use crate::library;
use crate::options::Options;
use crate::program::{codes_met, shown};
use crate::progress::Progress;
use crate::Total;
use cases::Case;
use nnef_random::Rng;

/// Differences that are printed; all are counted.
const PRINTED: usize = 10;

type Operation = fn(&[u8], &mut [u32]) -> [u32; 4];

fn library_tokens(text: &[u8], table: &mut [u32]) -> [u32; 4] {
    library::tokens(text, table).numbers()
}

fn reference_tokens(text: &[u8], table: &mut [u32]) -> [u32; 4] {
    nnef_reference::tokens(text, table).numbers()
}

/// What an operation answered, and the table with its guards afterwards.
#[derive(PartialEq, Eq)]
struct Outcome {
    answer: [u32; 4],
    words: Vec<u32>,
}

/// Runs every case and says how many are wrong.
pub fn run(options: &Options) -> Total {
    let written = cases::CASES.len();
    let random = options.cases().count();
    let wrong = run_written();
    let different = run_random(options);
    println!("tokens: {written} written cases, {wrong} wrong");
    println!("tokens: {random} cases, {different} differences");
    Total {
        written,
        random,
        wrong: wrong + different,
    }
}

/// Runs both sides on every written case and gives the number of wrong outcomes.
fn run_written() -> usize {
    let sides: [(&str, Operation); 2] =
        [("library", library_tokens), ("reference", reference_tokens)];
    let mut wrong = 0;
    for case in cases::CASES {
        let text = case.text();
        for (side, operation) in sides {
            let outcome = outcome(operation, &text, case.table_words);
            if !is_as_written(&outcome, case) {
                wrong += 1;
                println!("{side} is wrong on {}", shown(&text));
                println!("  answer {:?}, to be {:?}", outcome.answer, case.answer);
                println!("  table starts {:?}", &outcome.words[GUARD..][..12]);
            }
        }
    }
    wrong
}

/// Whether the answer and the records are those of the case, and every other
/// word is as it was.
fn is_as_written(outcome: &Outcome, case: &Case) -> bool {
    let records = case.records.concat();
    let written = if case.answer[0] == 0 {
        4 * case.answer[3] as usize
    } else {
        0
    };
    let before = pattern(case.table_words);
    outcome.answer == case.answer
        && outcome.words[GUARD..].starts_with(&records)
        && outcome.words[..GUARD] == before[..GUARD]
        && outcome.words[GUARD + written..] == before[GUARD + written..]
}

/// Whether the line of each record is one more than the number of bytes 10 before
/// its start.
fn is_lined(outcome: &Outcome, text: &[u8]) -> bool {
    let mut line = 1;
    let lines = text.iter().map(|&byte| {
        let here = line;
        line += u32::from(byte == b'\n');
        here
    });
    let lines: Vec<u32> = lines.collect();
    let [code, _, _, count] = outcome.answer;
    let mut records = outcome.words[GUARD..].chunks_exact(4).take(count as usize);
    code != 0 || records.all(|record| record[3] == lines[record[1] as usize])
}

/// Compares both sides on random cases and gives the number of differences, a line
/// that is not the number of line feeds before its token among them.
fn run_random(options: &Options) -> usize {
    let mut by_code = [0usize; 9];
    let mut different = 0;
    let progress = Progress::new("tokens", options.cases().count() as u64);
    for case in options.cases() {
        progress.step();
        let mut rng = Rng::for_case(options.seed, case);
        let (sort, make) = rng.pick(inputs::SORTS);
        let text = make(&mut rng);
        let table_words = table_words(&mut rng);
        let library = outcome(library_tokens, &text, table_words);
        let reference = outcome(reference_tokens, &text, table_words);
        by_code[reference.answer[0] as usize] += 1;
        if library != reference || !is_lined(&library, &text) {
            different += 1;
            if different <= PRINTED {
                println!(
                    "difference in case {case} ({sort}), table of {table_words}: {}",
                    shown(&text)
                );
                print_difference(&library, &reference);
            }
        }
    }
    println!("tokens by code: {}", codes_met(&by_code));
    different
}

fn table_words(rng: &mut Rng) -> usize {
    match rng.below(100) {
        0 => 0,
        1 => 16_383,
        2 => rng.below(16_384),
        3 => 12_288,
        4..=19 => 16_400,
        20..=29 => rng.between(16_385, 18_000),
        _ => 16_384,
    }
}

/// Runs an operation on a text with other bytes behind it and a table between guards.
fn outcome(operation: Operation, text: &[u8], table_words: usize) -> Outcome {
    let text = LentText::new(text);
    let mut words = pattern(table_words);
    let answer = operation(text.lent(), lent(&mut words));
    Outcome { answer, words }
}

fn print_difference(library: &Outcome, reference: &Outcome) {
    println!(
        "  library {:?}, reference {:?}",
        library.answer, reference.answer
    );
    let mut pairs = library.words.iter().zip(&reference.words).enumerate();
    if let Some((place, (a, b))) = pairs.find(|(_, (a, b))| a != b) {
        println!(
            "  {} words from the table's start: library {a}, reference {b}",
            place as i64 - GUARD as i64
        );
    }
}
