//! Pairs of an operation list and a document, of several sorts.

use crate::changes::changed;
use crate::damage;
use crate::deep::deep;
use crate::good::{self, Names};
use crate::limits::near_limits;
use crate::model::{self, Document, Operation};
use crate::nets::net;
use crate::plan::{canonical_text, respelt, respelt_list, Canonical};
use crate::rng::Rng;
use crate::sizes::near_sizes;
use crate::spelling::{spell, Lines, Role, Word};
use std::collections::HashMap;

/// Bytes of a text, at most.
const TEXT_BYTES: usize = 16_384;

pub struct Pair {
    pub list: Vec<u8>,
    pub document: Vec<u8>,
    /// What the document is to give, where it is known to be good.
    pub good: Option<Good>,
}

pub struct Good {
    pub operations: u32,
    pub calls: Vec<u32>,
    pub wires: Vec<u32>,
    pub canonical: Canonical,
}

/// Good pairs whose lists say the same.
pub struct Family {
    /// Two writings of one plan.
    pub alike: [Pair; 2],
    /// A document with another plan.
    pub other: Pair,
}

pub type Maker = fn(&mut Rng, Lines) -> Pair;

/// The sorts of pair, with their names; some stand more than once to be picked more often.
pub const SORTS: &[(&str, Maker)] = &[
    ("good", good_pair),
    ("damaged models", damaged_models),
    ("damaged models", damaged_models),
    ("damaged models", damaged_models),
    ("damaged models", damaged_models),
    ("exchanged words", exchanged_words),
    ("exchanged words", exchanged_words),
    ("damaged words", damaged_words),
    ("damaged words", damaged_words),
    ("damaged words", damaged_words),
    ("damaged bytes", damaged_bytes),
    ("near sizes", pair_near_sizes),
    ("deep", deep_pair),
    ("long", long_pair),
    ("many words", many_words),
];

/// The sorts of pair that are good, as above.
pub const GOOD_SORTS: &[(&str, Maker)] = &[
    ("good", good_pair),
    ("good", good_pair),
    ("good", good_pair),
    ("good", good_pair),
    ("good", good_pair),
    ("good", good_pair),
    ("good", good_pair),
    ("good", good_pair),
    ("good", good_pair),
    ("near limits", pair_near_limits),
];

fn good_pair(rng: &mut Rng, lines: Lines) -> Pair {
    let (list, document) = good_models(rng);
    known_pair(rng, lines, &list, &document)
}

fn pair_near_limits(rng: &mut Rng, lines: Lines) -> Pair {
    let (list, document) = near_limits(rng);
    known_pair(rng, lines, &list, &document)
}

/// A good pair with many calls and wires. If it is longer than a text may be, it
/// is made anew with half the calls.
pub fn net_pair(rng: &mut Rng, lines: Lines) -> Pair {
    let mut calls = match rng.below(20) {
        0..=9 => rng.between(2, 24),
        10..=15 => rng.between(25, 120),
        _ => rng.between(121, 384),
    };
    loop {
        let (list, document) = net(rng, calls);
        let pair = known_pair(rng, lines, &list, &document);
        if pair.document.len() <= TEXT_BYTES {
            return pair;
        }
        calls /= 2;
    }
}

/// Two pairs that say the same, and one that says something else.
pub fn family(rng: &mut Rng, lines: Lines) -> Family {
    let (mut list, document) = good_models(rng);
    add_twin(rng, &mut list);
    let other_list = respelt_list(rng, &list);
    let other_writing = respelt(rng, &list, &document);
    let other_document = changed(rng, &list, &document);
    Family {
        alike: [
            known_pair(rng, lines, &list, &document),
            known_pair(rng, lines, &other_list, &other_writing),
        ],
        other: known_pair(rng, lines, &list, &other_document),
    }
}

/// Adds an operation that differs from another one in its name alone.
fn add_twin(rng: &mut Rng, list: &mut Vec<Operation>) {
    let mut names = Names::other_than(list.iter().map(|operation| operation.name.clone()));
    let twin = Operation {
        name: names.fresh(rng),
        ..list[rng.below(list.len())].clone()
    };
    list.insert(rng.below(list.len() + 1), twin);
}

fn damaged_models(rng: &mut Rng, lines: Lines) -> Pair {
    let (mut list, mut document) = good_models(rng);
    if rng.percent(20) {
        damage::damage_list(rng, &mut list);
    }
    for _ in 0..rng.between(0, 3) {
        damage::damage_document(rng, &list, &mut document);
    }
    unknown_pair(rng, lines, &list, &document, |_, _| {})
}

fn exchanged_words(rng: &mut Rng, lines: Lines) -> Pair {
    let (list, document) = good_models(rng);
    unknown_pair(rng, lines, &list, &document, |rng, words| {
        for _ in 0..rng.pick(&[0, 0, 1, 1, 2, 5]) {
            damage::exchange_word(rng, words);
        }
    })
}

fn damaged_words(rng: &mut Rng, lines: Lines) -> Pair {
    let (list, document) = good_models(rng);
    unknown_pair(rng, lines, &list, &document, some_damage)
}

fn damaged_bytes(rng: &mut Rng, lines: Lines) -> Pair {
    let mut pair = good_pair(rng, lines);
    pair.good = None;
    for text in [&mut pair.list, &mut pair.document] {
        for _ in 0..rng.pick(&[0, 0, 1, 1, 2, 5]) {
            damage::damage_bytes(rng, text);
        }
        if lines == Lines::One {
            make_one_line(text);
        }
    }
    pair
}

fn pair_near_sizes(rng: &mut Rng, lines: Lines) -> Pair {
    let (list, document) = near_sizes(rng);
    unknown_pair(rng, lines, &list, &document, rare_damage)
}

fn deep_pair(rng: &mut Rng, lines: Lines) -> Pair {
    let (list, document) = deep(rng);
    unknown_pair(rng, lines, &list, &document, rare_damage)
}

/// A list or a document with nearly, just or more than as many bytes as may be.
fn long_pair(rng: &mut Rng, lines: Lines) -> Pair {
    let mut pair = good_pair(rng, lines);
    pair.good = None;
    let text = if rng.percent(50) {
        &mut pair.list
    } else {
        &mut pair.document
    };
    let length = rng.between(16_382, 16_386);
    let place = rng.pick(&[0, text.len()]);
    let blanks = vec![b' '; length.saturating_sub(text.len())];
    text.splice(place..place, blanks);
    pair
}

/// A list and a document that go on in commas, up to about as many tokens as may be.
fn many_words(rng: &mut Rng, lines: Lines) -> Pair {
    let (list, document) = good_models(rng);
    unknown_pair(rng, lines, &list, &document, |rng, words| {
        if rng.percent(50) {
            words.resize(rng.between(4_095, 4_098), Word::plain(","));
        }
    })
}

fn good_models(rng: &mut Rng) -> (Vec<Operation>, Document) {
    let list = good::list(rng);
    let document = good::document(rng, &list);
    (list, document)
}

/// A good pair, with what it is to give.
fn known_pair(rng: &mut Rng, lines: Lines, list: &[Operation], document: &Document) -> Pair {
    let list_words = model::list_words(list);
    let document_words = model::document_words(rng, document);
    let (list_text, _) = spell(rng, lines, &list_words);
    let (document_text, places) = spell(rng, lines, &document_words);
    let (calls, wires) = tables(list, &document_words, &places);
    Pair {
        list: list_text,
        document: document_text,
        good: Some(Good {
            operations: list.len() as u32,
            calls,
            wires,
            canonical: canonical_text(list, document),
        }),
    }
}

/// The pair with its words changed on the way.
fn unknown_pair(
    rng: &mut Rng,
    lines: Lines,
    list: &[Operation],
    document: &Document,
    change: fn(&mut Rng, &mut Vec<Word>),
) -> Pair {
    let mut list_words = model::list_words(list);
    let mut document_words = model::document_words(rng, document);
    change(rng, &mut list_words);
    change(rng, &mut document_words);
    Pair {
        list: spell(rng, lines, &list_words).0,
        document: spell(rng, lines, &document_words).0,
        good: None,
    }
}

fn some_damage(rng: &mut Rng, words: &mut Vec<Word>) {
    for _ in 0..rng.pick(&[0, 0, 1, 1, 2, 5]) {
        damage::damage_words(rng, words);
    }
}

fn rare_damage(rng: &mut Rng, words: &mut Vec<Word>) {
    if rng.percent(10) {
        damage::damage_words(rng, words);
    }
}

fn make_one_line(text: &mut [u8]) {
    for byte in text {
        if matches!(byte, b'\n' | 0) {
            *byte = b' ';
        }
    }
}

/// The call and the wire table of a good document, from its words and their places.
fn tables(list: &[Operation], words: &[Word], places: &[usize]) -> (Vec<u32>, Vec<u32>) {
    let index = |name: &str| list.iter().position(|o| o.name == name).unwrap_or(0);
    let mut calls: Vec<[u32; 4]> = Vec::new();
    let mut wires = Vec::new();
    let mut assigned_by = HashMap::new();
    let mut assigned = 0;
    for (word, place) in words.iter().zip(places) {
        let name = &word.spelling[..];
        match word.role {
            Role::Plain => {}
            Role::Assigned => {
                assigned += 1;
                assigned_by.insert(name, calls.len() as u32);
            }
            Role::Operation => {
                calls.push([index(name) as u32, *place as u32, assigned, 0]);
                assigned = 0;
            }
            Role::Used => {
                if let Some(call) = calls.last_mut() {
                    call[3] += 1;
                }
                wires.push([*place as u32, assigned_by[name]]);
            }
        }
    }
    (calls.concat(), wires.concat())
}
