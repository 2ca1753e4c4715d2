//! Random pairs of names, from the same one twice to unrelated ones.

use nnef_random::{Rng, WORD_BYTES};

/// No name has more bytes.
pub const LONGEST: usize = 20_000;

type Maker = fn(&mut Rng, &[u8]) -> Vec<u8>;

/// How the second name is made from the first, with names for it.
const SORTS: &[(&str, Maker)] = &[
    ("the same", |_, name| name.to_vec()),
    ("one byte changed", one_changed),
    ("one byte changed", one_changed),
    ("last byte changed", last_changed),
    ("several bytes changed", several_changed),
    ("two bytes exchanged", two_exchanged),
    ("a byte more", a_byte_more),
    ("a byte less", a_byte_less),
    ("another of that length", another),
    ("any other", any_other),
];

/// Two names and their sort.
pub fn names(rng: &mut Rng) -> (&'static str, Vec<u8>, Vec<u8>) {
    let length = length(rng);
    let name = bytes(rng, length);
    let (sort, make) = rng.pick(SORTS);
    let mut other = make(rng, &name);
    other.truncate(LONGEST);
    (sort, name, other)
}

/// Mostly as long as names are, sometimes longer than they may be.
fn length(rng: &mut Rng) -> usize {
    match rng.below(100) {
        0 => rng.below(LONGEST + 1),
        1..=9 => rng.below(300),
        10..=39 => rng.below(71),
        _ => rng.below(20),
    }
}

/// Bytes of names, any bytes, or two letters.
fn bytes(rng: &mut Rng, length: usize) -> Vec<u8> {
    match rng.below(3) {
        0 => rng.picks(WORD_BYTES, length),
        1 => (0..length).map(|_| rng.byte()).collect(),
        _ => rng.picks(b"ab", length),
    }
}

/// The name with another byte at this place, if it has one there.
fn changed(rng: &mut Rng, name: &[u8], place: usize) -> Vec<u8> {
    let mut other = name.to_vec();
    if let Some(byte) = other.get_mut(place) {
        *byte ^= 1 << rng.below(8);
    }
    other
}

fn place(rng: &mut Rng, name: &[u8]) -> usize {
    rng.below(name.len().max(1))
}

fn one_changed(rng: &mut Rng, name: &[u8]) -> Vec<u8> {
    let place = place(rng, name);
    changed(rng, name, place)
}

fn last_changed(rng: &mut Rng, name: &[u8]) -> Vec<u8> {
    changed(rng, name, name.len().saturating_sub(1))
}

fn several_changed(rng: &mut Rng, name: &[u8]) -> Vec<u8> {
    let times = rng.between(2, 5);
    (0..times).fold(name.to_vec(), |name, _| one_changed(rng, &name))
}

fn two_exchanged(rng: &mut Rng, name: &[u8]) -> Vec<u8> {
    let mut other = name.to_vec();
    if !name.is_empty() {
        other.swap(place(rng, name), place(rng, name));
    }
    other
}

fn a_byte_more(rng: &mut Rng, name: &[u8]) -> Vec<u8> {
    let mut other = name.to_vec();
    other.insert(rng.below(name.len() + 1), rng.byte());
    other
}

fn a_byte_less(rng: &mut Rng, name: &[u8]) -> Vec<u8> {
    let mut other = name.to_vec();
    if !name.is_empty() {
        other.remove(place(rng, name));
    }
    other
}

fn another(rng: &mut Rng, name: &[u8]) -> Vec<u8> {
    bytes(rng, name.len())
}

fn any_other(rng: &mut Rng, _: &[u8]) -> Vec<u8> {
    let length = length(rng);
    bytes(rng, length)
}
