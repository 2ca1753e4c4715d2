//! The operation `order`: written cases, every length of an order, then random
//! pairs with orders of their calls.

pub mod cases;
mod sorts;

use crate::lent::{lent, pattern, LentText, GUARD};
use crate::options::Options;
use crate::processors::on_all_processors;
use crate::program::shown;
use crate::Total;
use nnef_random::{net_pair, Lines, Pair, Rng, GOOD_SORTS, SORTS};
use sorts::Needs;
use std::collections::BTreeMap;

/// Words of the two work areas that are asked for.
const ROOM: [usize; 2] = [16_384, 16_384];

/// Wrong random cases that are printed; all are counted.
const PRINTED: usize = 10;

type Order = fn(&[u8], &[u8], [&mut [u32]; 2], &[u32]) -> [u32; 4];

/// An implementation of the operation.
struct Side {
    name: &'static str,
    order: Order,
}

/// All sides are held against the laws, and those behind the first against it.
const SIDES: &[Side] = &[
    Side {
        name: "reference",
        order: |list, document, [list_work, document_work], order| {
            nnef_reference::order(list, document, list_work, document_work, order).numbers()
        },
    },
    Side {
        name: "library",
        order: |list, document, [list_work, document_work], order| {
            crate::library::order(list, document, list_work, document_work, order).numbers()
        },
    },
];

/// What the operation answered, and the work areas and the order, with guards, afterwards.
#[derive(PartialEq, Eq)]
struct Outcome {
    answer: [u32; 4],
    work: [Vec<u32>; 2],
    order: Vec<u32>,
}

impl Outcome {
    /// The outcome with this answer.
    fn with(answer: [u32; 4], room: [usize; 2], order: &[u32]) -> Outcome {
        let mut work = room.map(pattern);
        if !matches!(answer[0], 1 | 2) {
            work.iter_mut().for_each(|area| lent(area).fill(0));
        }
        let order = guarded(order);
        Outcome {
            answer,
            work,
            order,
        }
    }
}

/// An order between numbers that could stand in it.
fn guarded(order: &[u32]) -> Vec<u32> {
    let guard: Vec<u32> = (0..GUARD as u32).collect();
    [&guard, order, &guard].concat()
}

/// Runs `order` on a pair with work areas of these lengths.
fn ordered(side: &Side, [list, document]: [&[u8]; 2], room: [usize; 2], order: &[u32]) -> Outcome {
    let list = LentText::new(list);
    let document = LentText::new(document);
    let mut work = room.map(pattern);
    let mut order = guarded(order);
    let areas = work.each_mut().map(|area| lent(area));
    let answer = (side.order)(list.lent(), document.lent(), areas, lent(&mut order));
    Outcome {
        answer,
        work,
        order,
    }
}

/// Runs every case and says how many are wrong.
pub fn run(options: &Options) -> Total {
    let count = options.cases().count();
    let written = wrong_written();
    let lengths = wrong_lengths();
    let random = wrong_random(options);
    println!(
        "order: {} written cases, {written} wrong",
        cases::CASES.len()
    );
    println!("order: every length up to {LONGEST}, {lengths} wrong");
    println!("order: {count} random cases, {random} wrong");
    Total {
        written: cases::CASES.len() + LONGEST + 1,
        random: count,
        wrong: written + lengths + random,
    }
}

/// The number of wrong outcomes on written cases.
fn wrong_written() -> usize {
    let mut wrong = 0;
    for case in cases::CASES {
        let (list, document) = (case.list.bytes(), case.document.bytes());
        let order = case.order.numbers();
        let expected = Outcome::with(case.answer(), case.room, &order);
        for side in SIDES {
            let outcome = ordered(side, [&list, &document], case.room, &order);
            if outcome != expected {
                wrong += 1;
                println!("{} is wrong on {}", side.name, shown(&document));
                println!("  order {}", shown_order(&order));
                println!("  answer {:?}, to be {:?}", outcome.answer, expected.answer);
            }
        }
    }
    wrong
}

/// The longest order of a graph with as many calls as may be.
const LONGEST: usize = 2 * crate::library::CALLS + 1;

/// The number of wrong outcomes on orders of every length: the calls in a row,
/// and again from the first one.
fn wrong_lengths() -> usize {
    let calls = crate::library::CALLS;
    let (list, document) = (cases::LIST.bytes(), cases::MOST_CALLS.bytes());
    let mut wrong = 0;
    for length in 0..=LONGEST {
        let order: Vec<u32> = (0..length).map(|place| (place % calls) as u32).collect();
        let answer = match length == calls {
            true => [0, 0, 0, calls as u32],
            false => [41, 0, 0, 0],
        };
        let expected = Outcome::with(answer, ROOM, &order);
        for side in SIDES {
            if ordered(side, [&list, &document], ROOM, &order) != expected {
                wrong += 1;
                println!("{} is wrong on an order of length {length}", side.name);
            }
        }
    }
    wrong
}

/// What came of a random case.
struct Result {
    code: u32,
    sort: &'static str,
    calls: usize,
    wires: usize,
    /// What is wrong, if anything is.
    report: Option<String>,
}

/// The number of random cases on which some side is wrong.
fn wrong_random(options: &Options) -> usize {
    let results = on_all_processors("order", options.cases(), |case| {
        random_case(options.seed, case)
    });
    let calls = |result: &Result| match result.calls {
        0 => "none",
        1..=9 => "1 to 9",
        10..=49 => "10 to 49",
        50..=149 => "50 to 149",
        _ => "150 to 384",
    };
    let wires: usize = results.iter().map(|result| result.wires).sum();
    println!("order by code: {}", met(&results, |result| result.code));
    println!("order by sort: {}", met(&results, |result| result.sort));
    println!("order by calls of the graph: {}", met(&results, calls));
    println!("order: {} wires a graph", wires / results.len().max(1));
    let reports = results.iter().filter_map(|result| result.report.as_ref());
    reports
        .clone()
        .take(PRINTED)
        .for_each(|report| println!("{report}"));
    reports.count()
}

/// How often each was met.
fn met<K: Ord + std::fmt::Display>(results: &[Result], key: impl Fn(&Result) -> K) -> String {
    let mut times: BTreeMap<K, usize> = BTreeMap::new();
    for result in results {
        *times.entry(key(result)).or_default() += 1;
    }
    let times: Vec<String> = times.iter().map(|(key, n)| format!("{key}: {n}")).collect();
    times.join(", ")
}

fn random_case(seed: u64, case: u64) -> Result {
    let mut rng = Rng::for_case(seed, case);
    let pair = random_pair(&mut rng);
    let texts = [&pair.list[..], &pair.document];
    let graph = needs(&pair);
    let (sort, make) = rng.pick(sorts::SORTS);
    let order = match &graph {
        Some(needs) => make(&mut rng, needs),
        None => {
            let needs = vec![Vec::new(); rng.below(20)];
            make(&mut rng, &needs)
        }
    };
    let room = room(&mut rng);
    let outcomes: Vec<Outcome> = SIDES
        .iter()
        .map(|side| ordered(side, texts, room, &order))
        .collect();
    let report = broken_law(graph.as_ref(), room, &order, &outcomes).map(|broken| {
        let answers: Vec<_> = outcomes.iter().map(|outcome| outcome.answer).collect();
        let [list, document] = texts.map(shown);
        format!(
            "case {case} ({sort}): {broken}\n  list of {list}\n  document of {document}\n  \
             room {room:?}, order {}\n  answers {answers:?}",
            shown_order(&order)
        )
    });
    Result {
        code: outcomes[0].answer[0],
        sort,
        calls: graph.as_ref().map_or(0, Vec::len),
        wires: graph.iter().flatten().map(Vec::len).sum(),
        report,
    }
}

/// Mostly a graph with many calls, sometimes a small good one, sometimes any pair.
fn random_pair(rng: &mut Rng) -> Pair {
    let make = match rng.below(20) {
        0..=13 => net_pair,
        14..=16 => rng.pick(GOOD_SORTS).1,
        _ => rng.pick(SORTS).1,
    };
    make(rng, Lines::Any)
}

/// For each call of a pair the calls that it needs, if the pair is accepted. The
/// tables of a pair that was not made good are those of the reference.
fn needs(pair: &Pair) -> Option<Needs> {
    if let Some(good) = &pair.good {
        return Some(needs_of(&good.calls, &good.wires));
    }
    let mut work = ROOM.map(|words| vec![0; words]);
    let [list_work, document_work] = &mut work;
    let mut calls = vec![0; crate::library::CALL_WORDS];
    let mut wires = vec![0; crate::library::WIRE_WORDS];
    let (list, document) = (&pair.list, &pair.document);
    let (call_table, wire_table) = (&mut calls, &mut wires);
    let answer = nnef_reference::check(
        list,
        document,
        list_work,
        document_work,
        call_table,
        wire_table,
    );
    let count = answer.detail as usize;
    (answer.code == 0).then(|| needs_of(&calls[..4 * count], &wires))
}

fn needs_of(calls: &[u32], wires: &[u32]) -> Needs {
    let mut wires = wires.chunks(2).map(|wire| wire[1] as usize);
    let calls = calls.chunks(4);
    calls
        .map(|call| wires.by_ref().take(call[3] as usize).collect())
        .collect()
}

/// Mostly the room that is asked for, sometimes more, seldom less.
fn room(rng: &mut Rng) -> [usize; 2] {
    let mut room = ROOM;
    let place = rng.below(2);
    match rng.below(50) {
        0 => room[place] -= 1,
        1 => room[place] = rng.below(room[place]),
        2..=9 => room[place] += rng.between(1, 100),
        _ => {}
    }
    room
}

/// The law that the outcomes of a case break, if any.
fn broken_law(
    graph: Option<&Needs>,
    room: [usize; 2],
    order: &[u32],
    outcomes: &[Outcome],
) -> Option<&'static str> {
    let answer = outcomes[0].answer;
    let short = room.iter().zip(ROOM).any(|(lent, asked)| *lent < asked);
    let as_ruled = match graph {
        _ if short => answer == [1, 0, 0, 0],
        Some(needs) => answer == ruled(needs, order),
        None => matches!(answer, [2..=24, 1 | 2, ..]),
    };
    let as_it_was = Outcome::with(answer, room, order);
    if outcomes.iter().any(|outcome| *outcome != outcomes[0]) {
        Some("the sides differ")
    } else if !as_ruled {
        Some("the answer is another one by the rules")
    } else if outcomes[0] != as_it_was {
        Some("a lent word is not what it should be")
    } else {
        None
    }
}

/// The answer on an order of an accepted graph, as the rules say it.
fn ruled(needs: &Needs, order: &[u32]) -> [u32; 4] {
    if order.len() != needs.len() {
        return [41, 0, 0, 0];
    }
    let fault = |place: usize| {
        let (call, before) = (order[place], &order[..place]);
        let Some(needed) = needs.get(call as usize) else {
            return Some([42, 0, place as u32, 0]);
        };
        if before.contains(&call) {
            return Some([43, 0, place as u32, 0]);
        }
        let early = needed.iter().any(|need| !before.contains(&(*need as u32)));
        early.then_some([44, 0, place as u32, 0])
    };
    let first = (0..order.len()).find_map(fault);
    first.unwrap_or([0, 0, 0, order.len() as u32])
}

/// An order for the eye: its length and its first numbers.
fn shown_order(order: &[u32]) -> String {
    format!(
        "of {} numbers, {:?}",
        order.len(),
        &order[..order.len().min(40)]
    )
}
