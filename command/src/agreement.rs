//! The command's own reading held against the library: on damaged texts and orders it finds the library's first fault, and words for it;
//! on accepted ones it finds none, and reads the graph.

use crate::drawing;
use crate::faults::further;
use crate::files::Source;
use crate::hints::hint;
use crate::message::{Origin, Painter};
use crate::model;
use crate::order::Order;
use crate::paths;
use crate::reader;
use crate::rules::{document_faults, list_faults, order_faults};
use crate::texts::Texts;
use sluicegnome::{Code, Refusal, Text};

const LIST: &str = include_str!("../../tests/command/declarations.nnef");
const GRAPH: &str = include_str!("../../tests/command/twice.nnef");
const RUNS: usize = 4000;

/// Tokens that a damaged text gets.
const POOL: [&str; 41] = [
    "version",
    "1.0",
    "graph",
    "fragment",
    "tensor",
    "extent",
    "scalar",
    "string",
    "in",
    "(",
    ")",
    "[",
    "]",
    "{",
    "}",
    ":",
    "=",
    ",",
    ";",
    "->",
    "<",
    "-",
    "+",
    "1",
    "-1",
    "- 0.5",
    "2147483648",
    "-2147483648",
    "-2147483649",
    "0.5",
    "'s'",
    "true",
    "a",
    "x",
    "moved",
    "scale",
    "epoch",
    "external",
    "years",
    "[[[[[[[[[",
    "\u{e4}",
];

/// Numbers that look random, from a seed.
struct Numbers(u64);

impl Numbers {
    fn below(&mut self, bound: usize) -> usize {
        self.0 ^= self.0 << 13;
        self.0 ^= self.0 >> 7;
        self.0 ^= self.0 << 17;
        (self.0 % bound as u64) as usize
    }
}

/// A text with one to three tokens removed, doubled, swapped or replaced, or a byte changed.
fn damaged(numbers: &mut Numbers, text: &str) -> Vec<u8> {
    let spans = sluicegnome::tokens(text.as_bytes()).expect("the text has tokens");
    let mut words: Vec<&str> = spans.iter().map(|token| &text[token.start..token.end]).collect();
    for _ in 0..1 + numbers.below(3) {
        let place = numbers.below(words.len() - 1);
        match numbers.below(4) {
            0 => drop(words.remove(place)),
            1 => words.insert(place, words[place]),
            2 => words.swap(place, place + 1),
            _ => words[place] = POOL[numbers.below(POOL.len())],
        }
    }
    let mut bytes = words.join(if numbers.below(2) == 0 { " " } else { "\n" }).into_bytes();
    if numbers.below(8) == 0 {
        let place = numbers.below(bytes.len());
        bytes[place] = numbers.below(256) as u8;
    }
    bytes
}

/// The first fault by the command's own reading, behind the library's tokens.
fn first_fault(list: &[u8], document: &[u8]) -> Option<Refusal> {
    let of = |text: Text, fault: Refusal| Refusal { text, ..fault };
    let stop = |text: Text, stop: &reader::Stop| Refusal { code: stop.code, text, position: stop.position, detail: 0 };
    let tokens = match sluicegnome::tokens(list) {
        Err(fault) => return Some(of(Text::List, fault)),
        Ok(tokens) => tokens,
    };
    let operations = reader::operation_list(list, &tokens);
    let Some(operations) = operations.tree else {
        return operations.stops.first().map(|first| stop(Text::List, first));
    };
    if let Some(fault) = list_faults(&operations).first() {
        return Some(*fault);
    }
    let tokens = match sluicegnome::tokens(document) {
        Err(fault) => return Some(of(Text::Document, fault)),
        Ok(tokens) => tokens,
    };
    let tree = reader::document(document, &tokens);
    match tree.tree {
        None => tree.stops.first().map(|first| stop(Text::Document, first)),
        Some(tree) => document_faults(&operations, &tree).first().copied(),
    }
}

fn source(bytes: Vec<u8>) -> Source {
    Source { name: "text".to_string(), bytes }
}

#[test]
fn damaged_texts_get_the_library_s_fault_and_words() {
    let mut numbers = Numbers(0x9E37_79B9_7F4A_7C15);
    let painter = Painter { color: false };
    for run in 0..RUNS {
        let damage_list = run % 4 == 0;
        let list = source(if damage_list { damaged(&mut numbers, LIST) } else { LIST.into() });
        let document = source(if damage_list { GRAPH.into() } else { damaged(&mut numbers, GRAPH) });
        let texts = Texts::pair(&list, &document);
        let answer = sluicegnome::check(&list.bytes, &document.bytes);
        let shown = || format!("{}\n{}", String::from_utf8_lossy(&list.bytes), String::from_utf8_lossy(&document.bytes));
        assert_eq!(answer.as_ref().err().copied(), first_fault(&list.bytes, &document.bytes), "{}", shown());
        match answer {
            Err(fault) => {
                for fault in std::iter::once(fault).chain(further(&texts, &fault)) {
                    assert_ne!(fault.code, Code::Accepted);
                    let words = painter.message(&texts, &fault, &hint(&texts, &fault), Origin::Library);
                    assert!(words.contains("help:"), "{words}");
                }
            }
            Ok(_) => {
                let Ok(graph) = model::graph(&texts) else {
                    panic!("no graph: {}", shown());
                };
                assert!(drawing::dot(&graph).ends_with("}\n") && drawing::svg(&graph).ends_with("</svg>\n"));
                assert!(paths::paths(&graph, "epoch").words(&document.bytes, &graph).starts_with("epoch: "));
            }
        }
    }
}

/// Call numbers that are right, but for up to three that are exchanged, replaced or put in.
fn damaged_order(numbers: &mut Numbers, calls: usize) -> Vec<usize> {
    let mut order: Vec<usize> = (0..calls).collect();
    for _ in 0..numbers.below(4) {
        let [place, other] = [0; 2].map(|_| numbers.below(calls));
        match numbers.below(8) {
            0 => order.insert(place, other),
            1 => order[place] = calls + other,
            2 | 3 => order[place] = other,
            _ => order.swap(place, other),
        }
    }
    order
}

#[test]
fn damaged_orders_get_the_library_s_fault_and_words() {
    let mut numbers = Numbers(0x9E37_79B9_7F4A_7C15);
    let painter = Painter { color: false };
    let (list, document) = (source(LIST.into()), source(GRAPH.into()));
    let checked = sluicegnome::check(&list.bytes, &document.bytes).expect("the graph is accepted");
    for _ in 0..RUNS {
        let written: Vec<String> = damaged_order(&mut numbers, checked.calls.len()).iter().map(usize::to_string).collect();
        let file = source(written.join("\n").into_bytes());
        let Ok(order) = Order::read(&file) else {
            panic!("not read: {written:?}");
        };
        let texts = Texts::pair(&list, &document).with_order(&order);
        let answer = sluicegnome::order(&list.bytes, &document.bytes, &order.calls());
        let first = match order.numbers.len() == checked.calls.len() {
            true => order_faults(&checked, &order.calls()).first().copied(),
            false => Some(Refusal { code: Code::OrderLength, text: Text::None, position: 0, detail: 0 }),
        };
        assert_eq!(answer.err(), first, "{written:?}");
        for fault in first.iter().copied().chain(first.iter().flat_map(|first| further(&texts, first))) {
            let words = painter.message(&texts, &fault, &hint(&texts, &fault), Origin::Library);
            assert!(words.contains("help:") && words.contains(&format!("text:{}:1: ", fault.position + 1)), "{words}");
        }
    }
}
