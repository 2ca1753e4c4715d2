//! The operation `canon`: written cases, then random pairs with their canonical
//! texts read again, then documents that say the same or something else.

pub mod cases;

use crate::lent::{byte_pattern, lent, pattern, LentText, GUARD};
use crate::options::Options;
use crate::processors::on_all_processors;
use crate::program::{codes_met, shown};
use crate::Total;
use nnef_random::{family, Lines, Pair, Rng, GOOD_SORTS, SORTS};

/// The room that is enough: words of two work areas, bytes of the output.
const ROOM: [usize; 3] = [16_384, 16_384, 16_384];

/// The most bytes and tokens that a canonical text may have.
const TEXT_BYTES: usize = 16_384;
const TOKENS: usize = 4_096;

/// Wrong random pairs that are printed; all are counted.
const PRINTED: usize = 10;

type Canon = fn(&[u8], &[u8], [&mut [u32]; 2], &mut [u8]) -> [u32; 4];

/// An implementation of the operation.
struct Side {
    name: &'static str,
    canon: Canon,
}

/// All sides are held against the laws, and those behind the first against it.
const SIDES: &[Side] = &[
    Side {
        name: "reference",
        canon: reference_canon,
    },
    Side {
        name: "library",
        canon: library_canon,
    },
];

fn library_canon(list: &[u8], document: &[u8], work: [&mut [u32]; 2], out: &mut [u8]) -> [u32; 4] {
    let [list_work, document_work] = work;
    crate::library::canon(list, document, list_work, document_work, out).numbers()
}

fn reference_canon(
    list: &[u8],
    document: &[u8],
    work: [&mut [u32]; 2],
    out: &mut [u8],
) -> [u32; 4] {
    let [list_work, document_work] = work;
    nnef_reference::canon(list, document, list_work, document_work, out).numbers()
}

/// What the operation answered, and what it was lent, with guards, afterwards.
#[derive(PartialEq, Eq)]
struct Outcome {
    answer: [u32; 4],
    work: [Vec<u32>; 2],
    out: Vec<u8>,
}

impl Outcome {
    /// The outcome with this answer when this text is written.
    fn with(answer: [u32; 4], room: [usize; 3], text: &[u8]) -> Outcome {
        let mut work = [pattern(room[0]), pattern(room[1])];
        if !matches!(answer[0], 1 | 2) {
            work.iter_mut().for_each(|area| lent(area).fill(0));
        }
        let mut out = byte_pattern(room[2]);
        out[GUARD..GUARD + text.len()].copy_from_slice(text);
        Outcome { answer, work, out }
    }

    /// The bytes that were written, as the answer counts them.
    fn text(&self) -> &[u8] {
        let [code, _, _, count] = self.answer;
        let count = if code == 0 { count as usize } else { 0 };
        self.out[GUARD..].get(..count).unwrap_or_default()
    }
}

/// Runs every case and says how many are wrong.
pub fn run(options: &Options) -> Total {
    let [pairs, groups] = [options.cases().count(), options.families().count()];
    let written = wrong_written();
    let random = wrong_random_pairs(options);
    let families = wrong_families(options);
    println!(
        "canon: {} written cases, {written} wrong",
        cases::CASES.len()
    );
    println!("canon: {pairs} random pairs, {random} wrong");
    println!("canon: {groups} random families, {families} wrong");
    Total {
        written: cases::CASES.len(),
        random: pairs + groups,
        wrong: written + random + families,
    }
}

/// The number of wrong outcomes on written pairs.
fn wrong_written() -> usize {
    let mut wrong = 0;
    for case in cases::CASES {
        let list = case.list.bytes();
        let document = case.document.bytes();
        let text = case.canonical();
        let expected = Outcome::with(case.answer(), case.room, &text);
        if case.tokens.is_some() && case.tokens != token_count(&text) {
            wrong += 1;
            println!("not as many tokens as said: {}", shown(&text));
        }
        for side in SIDES {
            let outcome = canon(side, &list, &document, case.room);
            if outcome != expected {
                wrong += 1;
                println!("{} is wrong on {}", side.name, shown(&document));
                println!("  under {}", shown(&list));
                println!("  answer {:?}, to be {:?}", outcome.answer, expected.answer);
                println!("  writes {}", shown(outcome.text()));
                println!("  to be {}", shown(&text));
            }
        }
    }
    wrong
}

/// The number of random pairs on which some side is wrong.
fn wrong_random_pairs(options: &Options) -> usize {
    let mut by_code = [0usize; 27];
    let pair = |case| random_pair(options.seed, case);
    let results = on_all_processors("canon", options.cases(), pair);
    for (code, _) in &results {
        by_code[*code as usize] += 1;
    }
    println!("canon by code: {}", codes_met(&by_code));
    printed(results.into_iter().filter_map(|(_, report)| report))
}

/// The code that a random pair gets, and what is wrong with it, if anything is.
fn random_pair(seed: u64, case: u64) -> (u32, Option<String>) {
    let mut rng = Rng::for_case(seed, case);
    let sorts = if rng.percent(50) { SORTS } else { GOOD_SORTS };
    let (sort, make) = rng.pick(sorts);
    let pair = make(&mut rng, Lines::Any);
    let room = room(&mut rng, &pair);
    let outcomes = outcomes(&pair.list, &pair.document, room);
    let report = broken_law(&pair, room, &outcomes).map(|broken| {
        let pair = pair_report(&pair, room, &outcomes);
        format!("case {case} ({sort}): {broken}{pair}")
    });
    (outcomes[0].answer[0], report)
}

/// The number of random families on which some side is wrong.
fn wrong_families(options: &Options) -> usize {
    let family = |case| random_family(options.seed, case);
    let results = on_all_processors("canon, families", options.families(), family);
    printed(results.into_iter().flatten())
}

/// What is wrong with a random family, if anything is.
fn random_family(seed: u64, case: u64) -> Option<String> {
    let mut rng = Rng::for_case(seed, case);
    let family = family(&mut rng, Lines::Any);
    let pairs = [&family.alike[0], &family.alike[1], &family.other];
    let outcomes = pairs.map(|pair| outcomes(&pair.list, &pair.document, ROOM));
    let broken = broken_family_law(pairs, &outcomes)?;
    let reports = pairs.iter().zip(&outcomes);
    let reports = reports.map(|(pair, outcomes)| pair_report(pair, ROOM, outcomes));
    Some(format!(
        "family {case}: {broken}{}",
        reports.collect::<String>()
    ))
}

/// Prints the first reports and counts them all.
fn printed(reports: impl Iterator<Item = String>) -> usize {
    let reports: Vec<String> = reports.collect();
    for report in reports.iter().take(PRINTED) {
        println!("{report}");
    }
    reports.len()
}

fn pair_report(pair: &Pair, room: [usize; 3], outcomes: &[Outcome]) -> String {
    let list = shown(&pair.list);
    let document = shown(&pair.document);
    let mut report = format!("\n  list of {list}\n  document of {document}\n  room {room:?}");
    for (side, outcome) in SIDES.iter().zip(outcomes) {
        let text = shown(outcome.text());
        let answer = outcome.answer;
        report += &format!("\n  {} answers {answer:?}, writes {text}", side.name);
    }
    report
}

/// Work areas mostly of the length that is asked for, sometimes longer, seldom
/// shorter, and an output of any length, mostly about that of the canonical
/// text where it is known.
fn room(rng: &mut Rng, pair: &Pair) -> [usize; 3] {
    let mut room = ROOM;
    let place = rng.below(2);
    match rng.below(50) {
        0 => room[place] -= 1,
        1 => room[place] = rng.below(room[place]),
        2..=9 => room[place] += rng.between(1, 100),
        _ => {}
    }
    let length = match &pair.good {
        Some(good) => good.canonical.text.len(),
        None => rng.below(2_000),
    };
    room[2] = match rng.below(10) {
        0 => 0,
        1 => length.saturating_sub(1),
        2 => rng.below(length + 1),
        3 | 4 => length,
        5 => length + 1,
        6 => length + rng.below(100),
        7 => rng.below(20_000),
        _ => ROOM[2],
    };
    room
}

/// What every side makes of a pair.
fn outcomes(list: &[u8], document: &[u8], room: [usize; 3]) -> Vec<Outcome> {
    let sides = SIDES.iter();
    sides
        .map(|side| canon(side, list, document, room))
        .collect()
}

/// Runs `canon` on a pair with work areas and an output of these lengths.
fn canon(side: &Side, list: &[u8], document: &[u8], room: [usize; 3]) -> Outcome {
    let list = LentText::new(list);
    let document = LentText::new(document);
    let mut work = [pattern(room[0]), pattern(room[1])];
    let mut out = byte_pattern(room[2]);
    let answer = (side.canon)(
        list.lent(),
        document.lent(),
        work.each_mut().map(|area| lent(area)),
        lent(&mut out),
    );
    Outcome { answer, work, out }
}

/// The law that the outcomes of a pair break, if any.
fn broken_law(pair: &Pair, room: [usize; 3], outcomes: &[Outcome]) -> Option<&'static str> {
    let outcome = &outcomes[0];
    let laws: [(&dyn Fn() -> bool, &str); 4] = [
        (
            &|| outcomes.iter().all(|other| other == outcome),
            "the sides differ",
        ),
        (
            &|| answer_is_lawful(pair, room, outcome.answer),
            "the answer is none that the rules give",
        ),
        (
            &|| *outcome == expected(pair, room, outcome),
            "the answer, or a lent word or byte, is not what it should be",
        ),
        (
            &|| returns(pair, room, outcome),
            "the canonical text, read again, does not return",
        ),
    ];
    let broken = laws.iter().find(|(holds, _)| !holds());
    broken.map(|(_, law)| *law)
}

/// Whether the text, the position and the detail may go with the code.
fn answer_is_lawful(pair: &Pair, room: [usize; 3], answer: [u32; 4]) -> bool {
    let [code, text, position, detail] = answer;
    let count = detail as usize;
    match code {
        0 => [text, position] == [0, 0] && count <= room[2] && count <= TEXT_BYTES,
        1 | 25 => [text, position, detail] == [0, 0, 0],
        26 => [text, position] == [0, 0] && count > room[2] && count <= TEXT_BYTES,
        _ => {
            let (length, has_code) = match text {
                1 => (pair.list.len(), matches!(code, 2..=10 | 12..=14)),
                2 => (pair.document.len(), matches!(code, 2..=13 | 15..=24)),
                _ => return false,
            };
            let position_is_lawful = match code {
                2 => position as usize == TEXT_BYTES,
                9 => position as usize <= length,
                _ => (position as usize) < length,
            };
            has_code && position_is_lawful && (detail == 0 || code == 19)
        }
    }
}

/// What is to come of a pair. Of a pair that was made good all of it is known;
/// of another the answer and the text say the rest.
fn expected(pair: &Pair, room: [usize; 3], outcome: &Outcome) -> Outcome {
    let Some(made) = &pair.good else {
        return Outcome::with(outcome.answer, room, outcome.text());
    };
    let length = made.canonical.text.len();
    if room[0] < ROOM[0] || room[1] < ROOM[1] {
        Outcome::with([1, 0, 0, 0], room, &[])
    } else if length > TEXT_BYTES || made.canonical.tokens > TOKENS {
        Outcome::with([25, 0, 0, 0], room, &[])
    } else if length > room[2] {
        Outcome::with([26, 0, 0, length as u32], room, &[])
    } else {
        Outcome::with([0, 0, 0, length as u32], room, &made.canonical.text)
    }
}

/// Whether the canonical text, if there is one, is a document with the same plan,
/// and is on every side its own canonical text.
fn returns(pair: &Pair, room: [usize; 3], outcome: &Outcome) -> bool {
    let [0 | 26, _, _, length] = outcome.answer else {
        return true;
    };
    let room = [room[0], room[1], room[2].max(length as usize)];
    let lent_more;
    let text = match &pair.good {
        Some(good) => &good.canonical.text,
        None if outcome.answer[0] == 0 => outcome.text(),
        None => {
            lent_more = canon(&SIDES[0], &pair.list, &pair.document, room);
            lent_more.text()
        }
    };
    let same = Outcome::with([0, 0, 0, length], room, text);
    text.len() == length as usize
        && outcomes(&pair.list, text, room)
            .iter()
            .all(|again| *again == same)
        && nnef_reference::same_plan(&pair.list, &pair.document, text)
}

/// How many tokens a text has, if it has tokens alone and not too many.
fn token_count(text: &[u8]) -> Option<usize> {
    match nnef_reference::tokens(text, &mut [0; 16_384]).numbers() {
        [0, _, _, count] => Some(count as usize),
        _ => None,
    }
}

/// The law that the outcomes of a family break, if any: two pairs that say the
/// same, and one that says something else.
fn broken_family_law(pairs: [&Pair; 3], outcomes: &[Vec<Outcome>; 3]) -> Option<&'static str> {
    let [one, another, other] = pairs;
    let [same, same_again, different] = outcomes;
    let are_as_made = |(pair, outcomes): (&&Pair, &Vec<Outcome>)| {
        let made = expected(pair, ROOM, &outcomes[0]);
        outcomes.iter().all(|outcome| *outcome == made)
    };
    let have_same_plan =
        |other: &Pair| nnef_reference::same_plan(&one.list, &one.document, &other.document);
    let laws: [(&dyn Fn() -> bool, &str); 3] = [
        (
            &|| pairs.iter().zip(outcomes).all(are_as_made),
            "the answer, or a lent word or byte, is not what it should be",
        ),
        (
            &|| same == same_again && have_same_plan(another),
            "two writings of one plan have different canonical texts",
        ),
        (
            &|| same[0].text() != different[0].text() && !have_same_plan(other),
            "another plan has the same canonical text",
        ),
    ];
    let broken = laws.iter().find(|(holds, _)| !holds());
    broken.map(|(_, law)| *law)
}
