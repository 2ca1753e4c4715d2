//! Damage to models, to their words and to bytes.

use crate::good;
use crate::model::{Call, Document, Operation, Value};
use crate::rng::Rng;
use crate::spelling::Word;

/// Bytes beside the ends of white space and of what strings hold.
const EDGES: &[u8] = b"\x08\x09\x0d\x0e\x1f\x20\x7e\x7f\x80\xff";
/// Bytes that tokens and gaps are made of.
pub const SYMBOLS: &[u8] = b"0019.eE+-<>=!&|#\"' \n\t_axin()[]{},;:*/^";

#[rustfmt::skip]
const WORDS: &[&str] = &[
    "(", ")", "[", "]", "(", ")", "[", "]", "{", "}", ":", "=", ",", ";", "->", ",", "=", "-", "==", "<",
    "graph", "fragment", "version", "tensor", "extent", "scalar", "logical", "string", "in", "shape_of",
    "a", "x", "external", "1", "1.0", "0.5", "2147483648", "2147483649", "'s'", "true", "false", "-", "+",
];
const VERSIONS: &[&str] = &["1", "1.00", "01.0", "1.0e0", "1e0", "2.0", "0.1", "-1.0"];

/// One edit of a list: what it holds is lost, doubled, moved or changed.
pub fn damage_list(rng: &mut Rng, list: &mut Vec<Operation>) {
    let place = rng.below(list.len());
    let operation = &mut list[place];
    let parameter_place = rng.below(operation.parameters.len());
    let parameter = &mut operation.parameters[parameter_place];
    match rng.below(6) {
        0 => edit(rng, list),
        1 => edit(rng, &mut operation.parameters),
        2 => edit(rng, &mut operation.results),
        3 => parameter.default = None,
        4 => parameter.default = Some(any_value(rng, &[])),
        _ => parameter.ty = good::any_type(rng, good::BASIC, 2),
    }
}

/// One edit of a document: what it holds is lost, doubled, moved or changed.
pub fn damage_document(rng: &mut Rng, list: &[Operation], document: &mut Document) {
    let place = rng.below(document.calls.len());
    match rng.below(14) {
        0 => document.version = rng.pick(VERSIONS).to_string(),
        1 => edit(rng, &mut document.inputs),
        2 => edit(rng, &mut document.outputs),
        3 | 4 => edit(rng, &mut document.calls),
        5 => document.calls[place].operation = list[rng.below(list.len())].name.clone(),
        6 => document.calls[place].operation = "unknown".to_string(),
        7 => damage_left(rng, &mut document.calls[place]),
        _ => {
            let operation = &list[rng.below(list.len())];
            damage_arguments(rng, operation, &mut document.calls[place]);
        }
    }
}

fn damage_left(rng: &mut Rng, call: &mut Call) {
    match &mut call.left {
        Value::Array(items) if rng.percent(50) => edit(rng, items),
        Value::Tuple(items) if items.len() > 2 => edit(rng, items),
        left if rng.percent(20) => *left = Value::literal("-1"),
        left => *left = Value::Array(vec![left.clone()]),
    }
}

fn damage_arguments(rng: &mut Rng, operation: &Operation, call: &mut Call) {
    let identifiers: Vec<String> = ["a", "x"].map(String::from).to_vec();
    let place = rng.below(call.arguments.len());
    let argument = &mut call.arguments[place];
    let parameter = &operation.parameters[rng.below(operation.parameters.len())];
    match rng.below(5) {
        0 | 1 => edit(rng, &mut call.arguments),
        2 => argument.label = None,
        3 => argument.label = Some(parameter.name.clone()),
        _ => argument.value = any_value(rng, &identifiers),
    }
}

fn any_value(rng: &mut Rng, identifiers: &[String]) -> Value {
    let ty = good::any_type(rng, good::BASIC, 2);
    good::value(rng, &ty, identifiers)
}

/// Takes an item out unless it is the last one, doubles it or moves it.
fn edit<T: Clone>(rng: &mut Rng, items: &mut Vec<T>) {
    if items.is_empty() {
        return;
    }
    let place = rng.below(items.len());
    let other = rng.below(items.len());
    match rng.below(3) {
        0 if items.len() > 1 => drop(items.remove(place)),
        1 => items.insert(other, items[place].clone()),
        _ => items.swap(place, other),
    }
}

/// Puts a word in the place of another one of its sort.
pub fn exchange_word(rng: &mut Rng, words: &mut [Word]) {
    if words.is_empty() {
        return;
    }
    let place = rng.below(words.len());
    let same: Vec<&Word> = words
        .iter()
        .filter(|word| sort(word) == sort(&words[place]))
        .collect();
    words[place].spelling = rng.pick(&same).spelling.clone();
}

/// What a word is, mostly by its first byte.
fn sort(word: &Word) -> u8 {
    match word.spelling.as_bytes()[0] {
        b'0'..=b'9' | b'\'' | b'"' => b'0',
        _ if word.spelling == "->" => b'>',
        _ if matches!(&word.spelling[..], "true" | "false") => b'0',
        _ if good::BASIC.contains(&&word.spelling[..]) => b't',
        b'a'..=b'z' | b'A'..=b'Z' | b'_' => b'a',
        mark => mark,
    }
}

/// One edit of words: one is changed, put in, taken out or doubled, or two change places;
/// or it is one of signs.
pub fn damage_words(rng: &mut Rng, words: &mut Vec<Word>) {
    if rng.percent(20) {
        return damage_signs(rng, words);
    }
    let place = rng.below(words.len() + 1);
    let word = Word::plain(rng.pick(WORDS));
    match rng.below(6) {
        0 => words.insert(place, word),
        1 if place < words.len() => words[place] = word,
        2 if place < words.len() => drop(words.remove(place)),
        3 if place < words.len() => words.insert(place, words[place].clone()),
        4 if place + 1 < words.len() => words.swap(place, place + 1),
        _ if rng.percent(20) => words.truncate(place),
        _ => words.push(word),
    }
}

/// One edit of signs: one is put in, mostly before a number, taken out, doubled or moved.
fn damage_signs(rng: &mut Rng, words: &mut Vec<Word>) {
    let places = |words: &[Word], sort_of: u8| -> Vec<usize> {
        let places = 0..words.len();
        places
            .filter(|place| sort(&words[*place]) == sort_of)
            .collect()
    };
    let [signs, numbers] = [b'-', b'0'].map(|sort_of| places(words, sort_of));
    let anywhere = rng.below(words.len() + 1);
    if signs.is_empty() || rng.percent(40) {
        let before_number = !numbers.is_empty() && rng.percent(70);
        let place = if before_number {
            rng.pick(&numbers)
        } else {
            anywhere
        };
        return words.insert(place, Word::plain("-"));
    }
    let place = rng.pick(&signs);
    match rng.below(3) {
        0 => drop(words.remove(place)),
        1 => words.insert(place, words[place].clone()),
        _ => {
            let sign = words.remove(place);
            words.insert(anywhere.min(words.len()), sign);
        }
    }
}

/// One edit: a byte changed, put in or taken out, a piece doubled, or the end cut off.
pub fn damage_bytes(rng: &mut Rng, text: &mut Vec<u8>) {
    let place = rng.below(text.len() + 1);
    let byte = match rng.below(4) {
        0 => rng.byte(),
        1 => rng.pick(EDGES),
        _ => rng.pick(SYMBOLS),
    };
    match rng.below(5) {
        0 => text.insert(place, byte),
        1 if place < text.len() => text[place] = byte,
        2 if place < text.len() => drop(text.remove(place)),
        3 => {
            let end = (place + rng.below(8)).min(text.len());
            text.extend_from_within(place..end);
        }
        _ => text.truncate(place),
    }
}
