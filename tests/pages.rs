//! Runs the examples of pages of documents against the library.
//!
//! Arguments: the pages. On a page a fenced block of the sort `text`, `list` or
//! `document` is that text, without its last line feed, and one of the sort `order`
//! has numbers, with blanks between them. In a text `{piece}*N` stands for the piece
//! N times, with the number of the repetition, from 0, for each `%` in it. What
//! stands before the first section holds for every one. Of the texts before it a
//! line may say
//!
//! - `check` answers `15 2 59 0`, or `canon`, lent 75 bytes, answers `26 0 0 76`;
//! - `canon` writes the same for both, or `canon` writes different texts, of the
//!   two documents before it, each under the list before it.
//!
//! The first answer of a section `## 15 NAME` has that code, and the last one is
//! acceptance; such sections go from 1 to 26, and then from 41 to 44.

#[path = "../include/nnef.rs"]
mod library;

use std::process::ExitCode;

/// The texts that the next line is about.
#[derive(Clone, Default)]
struct Texts {
    text: Vec<u8>,
    list: Vec<u8>,
    document: Vec<u8>,
    order: Vec<u32>,
    /// The list that stood before the document.
    document_list: Vec<u8>,
    /// The list and the document before these.
    before: [Vec<u8>; 2],
}

#[derive(Default)]
struct Page {
    texts: Texts,
    shared: Option<Texts>,
    code: u32,
    answers: Vec<[u32; 4]>,
    runs: usize,
    wrong: usize,
}

fn main() -> ExitCode {
    let wrong: usize = std::env::args().skip(1).map(|path| run(&path)).sum();
    if wrong == 0 {
        ExitCode::SUCCESS
    } else {
        ExitCode::FAILURE
    }
}

/// Runs a page and gives the number of lines that are wrong.
fn run(path: &str) -> usize {
    let text = std::fs::read_to_string(path).expect("a page cannot be read");
    let mut page = Page::default();
    let mut lines = text.lines().enumerate();
    while let Some((number, line)) = lines.next() {
        let place = format!("{path}:{}", number + 1);
        if let Some(sort) = line.strip_prefix("```") {
            let block = lines.by_ref().map(|(_, line)| line);
            let block: Vec<&str> = block.take_while(|line| *line != "```").collect();
            page.texts.take(sort, &block.join("\n"));
        } else if let Some(title) = line.strip_prefix("## ") {
            page.section(&place, title);
        } else if let Some((operation, rest)) = quoted(line) {
            page.line(&place, operation, rest);
        }
    }
    page.close(path);
    let whole = page.code == 0 || page.code == library::USE_TOO_EARLY;
    page.expect(whole, path, "there are not as many sections as codes");
    println!("{path}: {} examples, {} wrong", page.runs, page.wrong);
    page.wrong
}

impl Page {
    fn section(&mut self, place: &str, title: &str) {
        self.close(place);
        let shared = self.shared.get_or_insert_with(|| self.texts.clone());
        self.texts = shared.clone();
        let number: Option<u32> = title.split(' ').next().and_then(|word| word.parse().ok());
        if let Some(code) = number {
            self.code = match self.code {
                library::OUT_TOO_SHORT => library::ORDER_LENGTH,
                before => before + 1,
            };
            self.expect(code == self.code, place, "not the next code");
        }
    }

    /// Ends the section before this place.
    fn close(&mut self, place: &str) {
        let first = self.answers.first().map(|answer| answer[0]);
        let last = self.answers.last().map(|answer| answer[0]);
        if self.code > 0 {
            let both = first == Some(self.code) && last == Some(library::ACCEPTED);
            let message = "the section before has no example, or no mended one";
            self.expect(both, place, message);
        }
        self.answers.clear();
    }

    /// A line that begins with the name of an operation.
    fn line(&mut self, place: &str, operation: &str, rest: &str) {
        if rest.starts_with(" writes ") {
            let same = rest.starts_with(" writes the same for both");
            let right = self.texts.are_same() == Some(same);
            self.runs += 1;
            self.expect(
                right,
                place,
                "the texts compare otherwise, or one is refused",
            );
        } else if let Some((lent, said)) = said(rest) {
            let answer = self.texts.run(operation, lent);
            self.runs += 1;
            self.answers.push(answer);
            self.expect(answer == said, place, &format!("the answer is {answer:?}"));
        }
    }

    fn expect(&mut self, right: bool, place: &str, message: &str) {
        if !right {
            self.wrong += 1;
            println!("{place}: {message}");
        }
    }
}

impl Texts {
    fn take(&mut self, sort: &str, block: &str) {
        let bytes = repeated(block).into_bytes();
        match sort {
            "text" => self.text = bytes,
            "list" => self.list = bytes,
            "order" => self.order = numbers(block),
            "document" => {
                let document = std::mem::replace(&mut self.document, bytes);
                let list = std::mem::replace(&mut self.document_list, self.list.clone());
                self.before = [list, document];
            }
            _ => {}
        }
    }

    fn run(&self, operation: &str, lent: Option<usize>) -> [u32; 4] {
        let length = |least| lent.unwrap_or(least);
        let mut list_work = vec![0; library::WORK_WORDS];
        let mut work = vec![0; library::WORK_WORDS];
        let answer = match operation {
            "tokens" => library::tokens(&self.text, &mut vec![0; length(library::TABLE_WORDS)]),
            "declarations" => library::declarations(&self.list, &mut list_work),
            "check" => library::check(
                &self.list,
                &self.document,
                &mut list_work,
                &mut work,
                &mut [0; library::CALL_WORDS],
                &mut [0; library::WIRE_WORDS],
            ),
            "canon" => canon(&self.list, &self.document, length(library::TEXT_BYTES)).0,
            "order" => library::order(
                &self.list,
                &self.document,
                &mut list_work,
                &mut work,
                &self.order,
            ),
            _ => panic!("no operation is called {operation}"),
        };
        answer.numbers()
    }

    /// Whether the last two documents have one canonical text, if both have one.
    fn are_same(&self) -> Option<bool> {
        let [list, document] = &self.before;
        let (answer, before) = canon(list, document, library::TEXT_BYTES);
        let (last_answer, last) = canon(&self.document_list, &self.document, library::TEXT_BYTES);
        let accepted = [answer, last_answer].iter().all(|answer| answer.code == 0);
        accepted.then_some(before == last)
    }
}

fn canon(list: &[u8], document: &[u8], length: usize) -> (library::Answer, Vec<u8>) {
    let mut work = [vec![0; library::WORK_WORDS], vec![0; library::WORK_WORDS]];
    let [list_work, document_work] = &mut work;
    let mut out = vec![0; length];
    let answer = library::canon(list, document, list_work, document_work, &mut out);
    (answer, out)
}

/// The numbers of an order.
fn numbers(block: &str) -> Vec<u32> {
    let numbers = block.split_whitespace();
    let numbers = numbers.map(|number| number.parse().expect("an order has numbers alone"));
    numbers.collect()
}

/// The first word of a line, if it stands in backquotes, and what follows it.
fn quoted(line: &str) -> Option<(&str, &str)> {
    line.strip_prefix('`')?.split_once('`')
}

/// What a line says behind the name of an operation: what is lent, if it says so, and the answer.
fn said(rest: &str) -> Option<(Option<usize>, [u32; 4])> {
    let (before, behind) = rest.split_once("answers `")?;
    let (numbers, _) = behind.split_once('`')?;
    let numbers: Vec<u32> = numbers.split(' ').flat_map(str::parse).collect();
    let lent = before.strip_prefix(", lent ");
    let lent = lent.and_then(|lent| lent.split(' ').next()?.replace(',', "").parse().ok());
    Some((lent, numbers.try_into().ok()?))
}

/// A text with every `{piece}*N` written out.
fn repeated(text: &str) -> String {
    let Some(end) = text.find("}*") else {
        return text.to_string();
    };
    let start = text[..end].rfind('{').expect("a piece has no beginning");
    let piece = &text[start + 1..end];
    let behind = &text[end + 2..];
    let rest = behind.trim_start_matches(|c: char| c.is_ascii_digit());
    let times = &behind[..behind.len() - rest.len()];
    let times: usize = times.parse().expect("a piece has no number");
    let pieces = (0..times).map(|n| piece.replace('%', &n.to_string()));
    let pieces: String = pieces.collect();
    format!("{}{pieces}{}", &text[..start], repeated(rest))
}
