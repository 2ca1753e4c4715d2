//! The operations `declarations` and `check`: written cases, then random pairs.

pub mod cases;
mod orders;

use crate::lent::{lent, pattern, LentText, GUARD};
use crate::options::Options;
use crate::program::{codes_met, shown};
use crate::progress::Progress;
use crate::Total;
use nnef_random::{Lines, Pair, Rng, SORTS};

/// Words that are asked for: two work areas, the call table, the wire table.
const ROOM: [usize; 4] = [16_384, 16_384, 1_536, 2_048];

/// Wrong random pairs that are printed; all are counted.
const PRINTED: usize = 10;

type Declarations = fn(&[u8], &mut [u32]) -> [u32; 4];
type Check = fn(&[u8], &[u8], [&mut [u32]; 4]) -> [u32; 4];

/// An implementation of the two operations.
struct Side {
    name: &'static str,
    declarations: Declarations,
    check: Check,
}

/// All sides are held against the laws, and those behind the first against it.
const SIDES: &[Side] = &[
    Side {
        name: "reference",
        declarations: reference_declarations,
        check: reference_check,
    },
    Side {
        name: "library",
        declarations: library_declarations,
        check: library_check,
    },
];

fn library_declarations(list: &[u8], work: &mut [u32]) -> [u32; 4] {
    crate::library::declarations(list, work).numbers()
}

fn library_check(list: &[u8], document: &[u8], lent: [&mut [u32]; 4]) -> [u32; 4] {
    let [list_work, document_work, calls, wires] = lent;
    crate::library::check(list, document, list_work, document_work, calls, wires).numbers()
}

fn reference_declarations(list: &[u8], work: &mut [u32]) -> [u32; 4] {
    nnef_reference::declarations(list, work).numbers()
}

fn reference_check(list: &[u8], document: &[u8], lent: [&mut [u32]; 4]) -> [u32; 4] {
    let [list_work, document_work, calls, wires] = lent;
    nnef_reference::check(list, document, list_work, document_work, calls, wires).numbers()
}

/// What an operation answered, and what it was lent, with guards, afterwards:
/// of `declarations` the work area, of `check` all in the order of `ROOM`.
#[derive(PartialEq, Eq)]
struct Outcome {
    answer: [u32; 4],
    words: Vec<Vec<u32>>,
}

/// Runs every case and says how many are wrong.
pub fn run(options: &Options) -> Total {
    let count = options.cases().count();
    let lists = wrong_lists();
    let pairs = wrong_pairs();
    let orders = wrong_orders();
    let random = wrong_random_pairs(options);
    println!(
        "declarations: {} written cases, {lists} wrong",
        cases::LISTS.len()
    );
    println!("check: {} written cases, {pairs} wrong", cases::PAIRS.len());
    println!(
        "check: {} documents with two faults, {orders} wrong",
        orders::orders().len()
    );
    println!("declarations and check: {count} random pairs, {random} wrong");
    Total {
        written: cases::LISTS.len() + cases::PAIRS.len() + orders::orders().len(),
        random: count,
        wrong: lists + pairs + orders + random,
    }
}

/// The number of wrong outcomes on written lists. A list that is refused for
/// its content is refused by `check` in the same way, whatever the document is.
fn wrong_lists() -> usize {
    let mut wrong = 0;
    for case in cases::LISTS {
        let list = case.list.bytes();
        let answer = case.answer();
        let work = vec![work_after(answer, case.room)];
        for side in SIDES {
            let declared = declared(side, &list, case.room);
            let mut right = declared.answer == answer && declared.words == work;
            if answer[1] == 1 {
                let checked = checked(side, &list, b"$", ROOM);
                right &= checked.answer == answer;
                right &= checked.words == words_after(answer, ROOM, &[], &[]);
            }
            if !right {
                wrong += 1;
                println!("{} is wrong on {}", side.name, shown(&list));
                println!("  answer {:?}, to be {answer:?}", declared.answer);
            }
        }
    }
    wrong
}

/// The number of wrong outcomes on written pairs.
fn wrong_pairs() -> usize {
    let mut wrong = 0;
    for case in cases::PAIRS {
        let list = case.list.bytes();
        let document = case.document.bytes();
        let answer = case.answer();
        for side in SIDES {
            let checked = checked(side, &list, &document, case.room);
            let words_are_right = || match case.tables {
                Some((calls, wires)) => {
                    checked.words
                        == words_after(answer, case.room, &calls.concat(), &wires.concat())
                }
                None => words_are_lawful(&checked, case.room),
            };
            if checked.answer != answer || !words_are_right() {
                wrong += 1;
                println!("{} is wrong on {}", side.name, shown(&document));
                println!("  under {}", shown(&list));
                println!("  answer {:?}, to be {answer:?}", checked.answer);
            }
        }
    }
    wrong
}

/// The number of wrong outcomes on documents with two faults, and of pairs of
/// codes that can be had and are in none.
fn wrong_orders() -> usize {
    let orders = orders::orders();
    let mut wrong = 0;
    for order in &orders {
        let list = order.list.bytes();
        for (document, answer) in [order.with_both(), order.mended()] {
            for side in SIDES {
                let checked = checked(side, &list, &document, ROOM);
                if checked.answer != answer || checked.words != words_after(answer, ROOM, &[], &[])
                {
                    wrong += 1;
                    println!("{} is wrong on {}", side.name, shown(&document));
                    println!("  codes {}, then {}", order.first, order.second);
                    println!("  answer {:?}, to be {answer:?}", checked.answer);
                }
            }
        }
    }
    for first in orders::CODES {
        for second in orders::CODES.into_iter().filter(|code| *code != first) {
            let met = orders
                .iter()
                .any(|order| [order.first, order.second] == [first, second]);
            if met != orders::can_be_had([first, second]) {
                wrong += 1;
                println!("code {first} before {second}: {met}");
            }
        }
    }
    wrong
}

/// The number of random pairs that break a law on some side, or on which the
/// sides differ.
fn wrong_random_pairs(options: &Options) -> usize {
    let mut by_code = [0usize; 25];
    let mut wrong = 0;
    let progress = Progress::new("check", options.cases().count() as u64);
    for case in options.cases() {
        progress.step();
        let mut rng = Rng::for_case(options.seed, case);
        let (sort, make) = rng.pick(SORTS);
        let pair = make(&mut rng, Lines::Any);
        let room = room(&mut rng);
        let outcomes: Vec<[Outcome; 2]> = SIDES
            .iter()
            .map(|side| {
                [
                    declared(side, &pair.list, room[0]),
                    checked(side, &pair.list, &pair.document, room),
                ]
            })
            .collect();
        by_code[outcomes[0][1].answer[0] as usize] += 1;
        for (side, outcome) in SIDES.iter().zip(&outcomes) {
            let [declared, checked] = outcome;
            let broken = if *outcome != outcomes[0] {
                Some("the sides differ")
            } else {
                broken_law(&pair, room, declared, checked)
            };
            if let Some(broken) = broken {
                wrong += 1;
                if wrong <= PRINTED {
                    println!("case {case} ({sort}), {}: {broken}", side.name);
                    println!("  list of {}", shown(&pair.list));
                    println!("  document of {}", shown(&pair.document));
                    println!("  answers {:?}, {:?}", declared.answer, checked.answer);
                }
            }
        }
    }
    println!("check by code: {}", codes_met(&by_code));
    wrong
}

/// Mostly the room that is asked for, sometimes more, seldom less.
fn room(rng: &mut Rng) -> [usize; 4] {
    let mut room = ROOM;
    let place = rng.below(4);
    match rng.below(50) {
        0 => room[place] -= 1,
        1 => room[place] = rng.below(room[place]),
        2..=9 => room[place] += rng.between(1, 100),
        _ => {}
    }
    room
}

/// Runs `declarations` on a list with a work area of this length.
fn declared(side: &Side, list: &[u8], room: usize) -> Outcome {
    let list = LentText::new(list);
    let mut words = pattern(room);
    let answer = (side.declarations)(list.lent(), lent(&mut words));
    Outcome {
        answer,
        words: vec![words],
    }
}

/// Runs `check` on a pair with work areas and tables of these lengths.
fn checked(side: &Side, list: &[u8], document: &[u8], room: [usize; 4]) -> Outcome {
    let list = LentText::new(list);
    let document = LentText::new(document);
    let mut words = room.map(pattern);
    let answer = (side.check)(
        list.lent(),
        document.lent(),
        words.each_mut().map(|words| lent(words)),
    );
    Outcome {
        answer,
        words: words.to_vec(),
    }
}

/// What `check` leaves behind when it writes these tables.
fn words_after(answer: [u32; 4], room: [usize; 4], calls: &[u32], wires: &[u32]) -> Vec<Vec<u32>> {
    vec![
        work_after(answer, room[0]),
        work_after(answer, room[1]),
        table_after(calls, room[2]),
        table_after(wires, room[3]),
    ]
}

/// A work area with its guards: as it was after codes 1 and 2, else zero.
fn work_after(answer: [u32; 4], room: usize) -> Vec<u32> {
    let mut words = pattern(room);
    if !matches!(answer[0], 1 | 2) {
        lent(&mut words).fill(0);
    }
    words
}

/// A table with its guards: these words, and behind them what was there.
fn table_after(written: &[u32], room: usize) -> Vec<u32> {
    let mut words = pattern(room);
    words[GUARD..GUARD + written.len()].copy_from_slice(written);
    words
}

/// The law that the outcomes of a pair break, if any.
fn broken_law(
    pair: &Pair,
    room: [usize; 4],
    declared: &Outcome,
    checked: &Outcome,
) -> Option<&'static str> {
    let laws = [
        (
            answer_is_lawful(pair, declared.answer) && answer_is_lawful(pair, checked.answer),
            "the answer is none that the rules give",
        ),
        (
            declared.words == [work_after(declared.answer, room[0])]
                && words_are_lawful(checked, room),
            "a lent word is not what it should be",
        ),
        (
            lists_agree(declared.answer, checked.answer),
            "the operations disagree on the list",
        ),
        (tables_are_sound(checked), "the tables do not hang together"),
        (
            is_as_made(pair, room, declared, checked),
            "a good pair has another outcome",
        ),
    ];
    let broken = laws.iter().find(|(holds, _)| !holds);
    broken.map(|(_, law)| *law)
}

/// Whether the text, the position and the detail may go with the code.
fn answer_is_lawful(pair: &Pair, [code, text, position, detail]: [u32; 4]) -> bool {
    let (length, has_code) = match text {
        0 => (0, code <= 1),
        1 => (pair.list.len(), matches!(code, 2..=10 | 12..=14)),
        _ => (pair.document.len(), matches!(code, 2..=13 | 15..=24)),
    };
    let position_is_lawful = match code {
        0 | 1 => position == 0,
        2 => position == 16_384,
        9 => position as usize <= length,
        _ => (position as usize) < length,
    };
    has_code && position_is_lawful && (detail == 0 || matches!(code, 0 | 19))
}

/// Whether `check` wrote whole records alone, on acceptance alone, and left the
/// work areas as it must.
fn words_are_lawful(checked: &Outcome, room: [usize; 4]) -> bool {
    let (calls, wires) = tables(checked);
    checked.words == words_after(checked.answer, room, calls, wires)
}

/// The tables that `check` wrote, as its answer and its call table count them.
fn tables(checked: &Outcome) -> (&[u32], &[u32]) {
    let [code, _, _, count] = checked.answer;
    if code != 0 {
        return (&[], &[]);
    }
    let calls = &checked.words[2][GUARD..][..4 * count as usize];
    let used: u32 = calls.chunks(4).map(|call| call[3]).sum();
    let wires = &checked.words[3][GUARD..][..2 * used as usize];
    (calls, wires)
}

/// Whether `check` refuses the list just as `declarations` does. The codes 1 and
/// 2 hang on more than the list.
fn lists_agree(declared: [u32; 4], checked: [u32; 4]) -> bool {
    match checked {
        [1 | 2, ..] => true,
        [_, 1, ..] => declared == checked,
        _ => declared[0] == 0,
    }
}

/// Whether names and uses stand in the order of the text, and every wire comes
/// from a call before the one that uses it.
fn tables_are_sound(checked: &Outcome) -> bool {
    let (calls, wires) = tables(checked);
    let mut wires = wires.chunks(2);
    let mut last = 0;
    for (index, call) in calls.chunks(4).enumerate() {
        let mut places = vec![call[1]];
        for wire in wires.by_ref().take(call[3] as usize) {
            places.push(wire[0]);
            if wire[1] as usize >= index {
                return false;
            }
        }
        for place in places {
            if place <= last {
                return false;
            }
            last = place;
        }
    }
    true
}

/// Whether a pair that was made good, lent enough, has the tables that it was made with.
fn is_as_made(pair: &Pair, room: [usize; 4], declared: &Outcome, checked: &Outcome) -> bool {
    let enough = room.iter().zip(ROOM).all(|(lent, asked)| *lent >= asked);
    match &pair.good {
        Some(made) if enough => {
            declared.answer == [0, 0, 0, made.operations]
                && checked.answer == [0, 0, 0, made.calls.len() as u32 / 4]
                && tables(checked) == (&made.calls, &made.wires)
        }
        _ => true,
    }
}
