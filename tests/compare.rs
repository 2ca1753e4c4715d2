//! The comparison of names: written cases, every pair of short lengths, a
//! difference at every place, names in one buffer, long names, then random ones.

mod cases;
mod sorts;

use crate::options::Options;
use crate::processors::on_all_processors;
use crate::program::shown;
use crate::progress::Progress;
use crate::walled::{Walled, EDGES};
use crate::Total;
use nnef_random::Rng;
use std::collections::BTreeMap;

/// Wrong cases that are printed of each part; all are counted.
const PRINTED: usize = 10;

/// An implementation of the comparison.
struct Side {
    name: &'static str,
    compare: fn(&[u8], &[u8]) -> [u32; 2],
}

const SIDES: &[Side] = &[
    Side {
        name: "reference",
        compare: |a, b| nnef_reference::compare(a, b).numbers(),
    },
    Side {
        name: "library",
        compare: |a, b| crate::library::compare(a, b).numbers(),
    },
    Side {
        name: "pair by pair",
        compare: pair_by_pair,
    },
];

/// The rule read plainly: a pair is counted when it is compared.
fn pair_by_pair(a: &[u8], b: &[u8]) -> [u32; 2] {
    if a.len() != b.len() {
        return [0, 0];
    }
    let before_last = a.len().saturating_sub(1);
    let last = before_last..a.len();
    let mut pairs = 0;
    for place in last.chain(0..before_last) {
        pairs += 1;
        if a[place] != b[place] {
            return [0, pairs];
        }
    }
    [1, pairs]
}

/// The cases of a part, and those of them that are wrong.
#[derive(Default)]
struct Tally {
    cases: usize,
    wrong: usize,
}

impl Tally {
    /// One case more, and what is wrong with it, if anything is.
    fn take(&mut self, fault: Option<String>) {
        self.cases += 1;
        if let Some(fault) = fault {
            self.wrong += 1;
            if self.wrong <= PRINTED {
                println!("{fault}");
            }
        }
    }
}

/// Runs every case and says how many are wrong.
pub fn run(options: &Options) -> Total {
    let parts: [(&str, fn() -> Tally); 6] = [
        ("written cases", written_cases),
        ("pairs of lengths", lengths),
        ("places of a difference", places),
        ("names in one buffer", one_buffer),
        ("long names", long_names),
        ("names near the greatest count", vast_names),
    ];
    let mut total = Total {
        written: 0,
        random: 0,
        wrong: 0,
    };
    for (name, part) in parts {
        let Tally { cases, wrong } = part();
        println!("compare: {cases} {name}, {wrong} wrong");
        total.written += cases;
        total.wrong += wrong;
    }
    let Tally { cases, wrong } = random_cases(options);
    println!("compare: {cases} random cases, {wrong} wrong");
    total.random += cases;
    total.wrong += wrong;
    total
}

/// What is wrong with what sides say of two names, if anything is.
fn fault(sides: &[Side], a: &[u8], b: &[u8], expected: [u32; 2]) -> Option<String> {
    sides.iter().find_map(|side| {
        let said = (side.compare)(a, b);
        (said != expected).then(|| {
            let (name, a, b) = (side.name, shown(a), shown(b));
            format!("{name} is wrong on {a}\n  and {b}\n  says {said:?}, to be {expected:?}")
        })
    })
}

/// The same of all sides, with the names in either order.
fn fault_either_way(a: &[u8], b: &[u8], expected: [u32; 2]) -> Option<String> {
    fault(SIDES, a, b, expected).or_else(|| fault(SIDES, b, a, expected))
}

/// The same with each name at either edge of a room of its own.
fn fault_at_edges(
    rooms: &mut [Walled; 2],
    a: &[u8],
    b: &[u8],
    expected: [u32; 2],
) -> Option<String> {
    let [a_room, b_room] = rooms;
    EDGES.iter().find_map(|a_edge| {
        let a = a_room.hold(a, *a_edge);
        EDGES.iter().find_map(|b_edge| {
            let b = b_room.hold(b, *b_edge);
            let fault = fault_either_way(a, b, expected)?;
            Some(format!("{fault}, at the edges {a_edge:?} and {b_edge:?}"))
        })
    })
}

fn rooms(bytes: usize) -> [Walled; 2] {
    [(); 2].map(|()| Walled::new(bytes))
}

fn written_cases() -> Tally {
    let mut tally = Tally::default();
    let mut rooms = rooms(64);
    for (a, b, expected) in cases::CASES {
        tally.take(fault_at_edges(&mut rooms, a, b, *expected));
    }
    tally
}

/// The longest of the short names.
const SHORT: usize = 70;

/// So many bytes, each other than those next to it.
fn name(length: usize) -> Vec<u8> {
    (0..length).map(|place| (37 * place + 65) as u8).collect()
}

/// Every pair of short lengths, with the same bytes as far as both go.
fn lengths() -> Tally {
    let mut tally = Tally::default();
    let mut rooms = rooms(SHORT);
    let bytes = name(SHORT);
    for a in 0..=SHORT {
        for b in 0..=SHORT {
            let expected = match a == b {
                true => [1, a as u32],
                false => [0, 0],
            };
            tally.take(fault_at_edges(
                &mut rooms,
                &bytes[..a],
                &bytes[..b],
                expected,
            ));
        }
    }
    tally
}

/// Names of every short length that differ first at every place: there alone, at
/// every later place but the last too, and at the last place too.
fn places() -> Tally {
    let mut tally = Tally::default();
    let mut rooms = rooms(SHORT);
    for length in 1..=SHORT {
        let bytes = name(length);
        let last = length - 1;
        for first in 0..length {
            let behind = |place| place > first && place < last;
            let differs: [&dyn Fn(usize) -> bool; 3] = [
                &|place| place == first,
                &|place| place == first || behind(place),
                &|place| place == first || place == last,
            ];
            for differs in differs {
                let mut other = bytes.clone();
                for place in (0..length).filter(|place| differs(*place)) {
                    other[place] ^= 1 << (place % 8);
                }
                let expected = match differs(last) {
                    true => [0, 1],
                    false => [0, first as u32 + 2],
                };
                tally.take(fault_at_edges(&mut rooms, &bytes, &other, expected));
            }
        }
    }
    tally
}

/// Names that are parts of one buffer: the same part, overlapping parts, and parts
/// side by side.
fn one_buffer() -> Tally {
    const BUFFERS: [&[u8]; 3] = [
        b"aaaaaaaaaaaaaaaaaaaabaaaaaaaaaaa",
        b"abcdefghabcdefghabcdefghabcdefgh",
        b"aababaababaabaababaabaababaababa",
    ];
    let mut tally = Tally::default();
    for buffer in BUFFERS {
        let mut room = Walled::new(buffer.len());
        for edge in EDGES {
            let buffer = room.hold(buffer, edge);
            for (a, b) in (0..=8).flat_map(|a| (a..=16).map(move |b| (a, b))) {
                for length in 0..=buffer.len() - b {
                    let (a, b) = (&buffer[a..a + length], &buffer[b..b + length]);
                    tally.take(fault_either_way(a, b, pair_by_pair(a, b)));
                }
            }
        }
    }
    tally
}

/// Names as long as a text may be, and longer ones.
fn long_names() -> Tally {
    const LENGTHS: [usize; 6] = [16_383, 16_384, 65_535, 65_536, 65_537, 100_000];
    let mut tally = Tally::default();
    let mut rooms = rooms(100_000);
    for length in LENGTHS {
        let bytes = name(length);
        let same = [1, length as u32];
        tally.take(fault_at_edges(&mut rooms, &bytes, &bytes, same));
        tally.take(fault_at_edges(&mut rooms, &bytes, &bytes[1..], [0, 0]));
        let ends = [0, 1, 7, 8, 9, 255, 256, 257];
        let from_end = ends.map(|place| length - 1 - place);
        for place in [&ends[..], &[length / 2], &from_end].concat() {
            let mut other = bytes.clone();
            other[place] ^= 0x80;
            let expected = match place == length - 1 {
                true => [0, 1],
                false => [0, place as u32 + 2],
            };
            tally.take(fault_at_edges(&mut rooms, &bytes, &other, expected));
        }
    }
    tally
}

/// Names about as long as the greatest count, in one buffer of zeros with one other
/// byte. Pair by pair they would take too long.
fn vast_names() -> Tally {
    const GREATEST: usize = u32::MAX as usize;
    let mut room = Walled::new(GREATEST + 4);
    room.write(GREATEST, &[1]);
    let part = |start: usize, length: usize| &room.bytes()[start..start + length];
    let cases = [
        // The same, and their lengths are the greatest count and one more.
        (part(0, GREATEST), part(0, GREATEST), [1, u32::MAX]),
        (part(0, GREATEST + 1), part(0, GREATEST + 1), [1, u32::MAX]),
        // Moved by 2 and by 1, so that they differ first where that makes the same counts.
        (part(0, GREATEST + 2), part(2, GREATEST + 2), [0, u32::MAX]),
        (part(0, GREATEST + 2), part(1, GREATEST + 2), [0, u32::MAX]),
        // Another last byte; other lengths, the second time with the same lower 32 bits.
        (part(0, GREATEST + 1), part(1, GREATEST + 1), [0, 1]),
        (part(0, GREATEST), part(0, GREATEST + 1), [0, 0]),
        (part(0, 1), part(0, GREATEST + 2), [0, 0]),
    ];
    let faults = on_all_processors("compare", 0..cases.len() as u64, |case| {
        let (a, b, expected) = cases[case as usize];
        fault(&SIDES[..2], a, b, expected)
    });
    let mut tally = Tally::default();
    faults.into_iter().for_each(|fault| tally.take(fault));
    tally
}

/// Compares the sides on random names and holds them to the laws.
fn random_cases(options: &Options) -> Tally {
    let mut tally = Tally::default();
    let mut rooms = rooms(sorts::LONGEST);
    let mut by_sort: BTreeMap<&str, usize> = BTreeMap::new();
    let mut by_pairs: BTreeMap<&str, usize> = BTreeMap::new();
    let progress = Progress::new("compare", options.cases().count() as u64);
    for case in options.cases() {
        progress.step();
        let mut rng = Rng::for_case(options.seed, case);
        let (sort, a, b) = sorts::names(&mut rng);
        let [a_room, b_room] = &mut rooms;
        let a = a_room.hold(&a, rng.pick(&EDGES));
        let b = b_room.hold(&b, rng.pick(&EDGES));
        let numbers = pair_by_pair(a, b);
        let fault = fault_either_way(a, b, numbers).or_else(|| broken_law(a, b, numbers));
        tally.take(fault.map(|fault| format!("case {case} ({sort}): {fault}")));
        *by_sort.entry(sort).or_default() += 1;
        *by_pairs.entry(sorted(numbers)).or_default() += 1;
    }
    println!("compare by sort: {}", met(&by_sort));
    println!("compare by pairs: {}", met(&by_pairs));
    tally
}

/// The law that what all sides say of two names breaks, if any.
fn broken_law(a: &[u8], b: &[u8], [same, pairs]: [u32; 2]) -> Option<String> {
    let lengths = [a.len() as u32, b.len() as u32];
    let law = if (same == 1) != (a == b) || same > 1 {
        "names are the same exactly when their bytes are"
    } else if pairs > lengths[0] || pairs > lengths[1] {
        "there are no more pairs than bytes"
    } else if same == 1 && pairs != lengths[0] {
        "the same names take a pair for each byte"
    } else if (pairs == 0) != (lengths[0] != lengths[1] || lengths == [0, 0]) {
        "without a pair only lengths are told apart, or no bytes"
    } else {
        return None;
    };
    Some(format!(
        "not so: {law}; on {}\n  and {}",
        shown(a),
        shown(b)
    ))
}

/// What the numbers of a case are counted under.
fn sorted(numbers: [u32; 2]) -> &'static str {
    match numbers {
        [1, _] => "the same",
        [_, 0] => "none",
        [_, 1] => "1",
        [_, 2..=8] => "2 to 8",
        [_, 9..=64] => "9 to 64",
        _ => "65 or more",
    }
}

/// How often each was met.
fn met(times: &BTreeMap<&str, usize>) -> String {
    let times: Vec<String> = times.iter().map(|(key, n)| format!("{key}: {n}")).collect();
    times.join(", ")
}
