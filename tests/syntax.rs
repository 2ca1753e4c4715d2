//! Compares the library's parser, as the program `cases` runs it, with the reference.
//!
//! Arguments: the program, the number of cases (20000), and the seed (1).

mod program;
mod progress;

use nnef_random::{Lines, Rng, SORTS};
use program::{codes_met, shown};
use progress::Progress;
use std::io::Write;
use std::process::{Command, ExitCode, Stdio};

/// Bytes that one run of the program is given, at most.
const BATCH: usize = 60_000;

/// Differences that are printed; all are counted.
const PRINTED: usize = 10;

/// A line for the program, and the answer that it is to print after it.
struct Case {
    number: u64,
    line: Vec<u8>,
    answer: [u32; 4],
}

fn main() -> ExitCode {
    let mut arguments = std::env::args().skip(1);
    let program = arguments.next().expect("the program is not given");
    let count = number(arguments.next(), 20_000);
    let seed = number(arguments.next(), 1);
    let different = differences(&program, count, seed);
    println!("syntax: {count} cases, {different} differences");
    if different == 0 {
        ExitCode::SUCCESS
    } else {
        ExitCode::FAILURE
    }
}

/// The number that an argument says.
fn number(argument: Option<String>, default: u64) -> u64 {
    match argument {
        Some(text) => text.parse().expect("an argument is not a number"),
        None => default,
    }
}

/// Runs all cases in batches and gives the number of differences.
fn differences(program: &str, count: u64, seed: u64) -> usize {
    let mut by_code = [0usize; 11];
    let mut different = 0;
    let mut batch = Vec::new();
    let mut bytes = 0;
    let progress = Progress::new("syntax", count);
    for number in 0..count {
        progress.step();
        let case = case(seed, number);
        by_code[case.answer[0] as usize] += 1;
        if bytes + case.line.len() + 1 > BATCH {
            run(program, &batch, &mut different);
            batch.clear();
            bytes = 0;
        }
        bytes += case.line.len() + 1;
        batch.push(case);
    }
    run(program, &batch, &mut different);
    println!("syntax by code: {}", codes_met(&by_code));
    different
}

/// An operation list or a document of a random pair, seldom taken for the other.
fn case(seed: u64, number: u64) -> Case {
    let mut rng = Rng::for_case(seed, number);
    let (_, make) = rng.pick(SORTS);
    let pair = make(&mut rng, Lines::One);
    let is_list = rng.percent(50);
    let as_list = is_list != rng.percent(2);
    let text = if is_list { pair.list } else { pair.document };
    let (mark, answer) = if as_list {
        (b"L ", nnef_reference::list_syntax(&text))
    } else {
        (b"D ", nnef_reference::document_syntax(&text))
    };
    Case {
        number,
        line: [&mark[..], &text].concat(),
        answer: answer.numbers(),
    }
}

/// Runs the program on a batch and counts the differences on.
fn run(program: &str, batch: &[Case], different: &mut usize) {
    let output = output(program, batch);
    let mut lines = output.split(|&byte| byte == b'\n');
    for case in batch {
        let echo = lines.next().unwrap_or_default();
        let answer = lines.next().unwrap_or_default();
        let expected = case.answer.map(|number| number.to_string()).join(" ");
        if echo != case.line || answer != expected.as_bytes() {
            *different += 1;
            if *different <= PRINTED {
                println!("difference in case {}: {}", case.number, shown(&case.line));
                println!("  the program repeats {}", shown(echo));
                println!("  and answers {}, to be {expected}", shown(answer));
            }
        }
    }
}

/// What the program prints for a batch. A batch fits into a pipe, so the
/// program is given all of it before its output is read.
fn output(program: &str, batch: &[Case]) -> Vec<u8> {
    let mut child = Command::new(program)
        .stdin(Stdio::piped())
        .stdout(Stdio::piped())
        .spawn()
        .expect("the program does not start");
    let mut input = child.stdin.take().expect("the program has no input");
    for case in batch {
        let line = [&case.line[..], b"\n"].concat();
        input.write_all(&line).expect("the program does not read");
    }
    drop(input);
    let output = child.wait_with_output().expect("the program does not end");
    output.stdout
}
