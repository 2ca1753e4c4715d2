//! Measures the library beside the reference, and prints the tables of
//! `docs/PERFORMANCE.md`. Arguments, as `bench/run` gives them:
//!
//! - `time` and a file: times every operation on its inputs, the two sides taking
//!   turns, and writes a line for each;
//! - `count`: runs every operation for callgrind to count its instructions;
//! - `tables`, two units and files: prints the tables of what is in the files. The
//!   second unit is a thousandth of the first.
//!
//! Both sides do the same work on the same lent buffers; for `check`, `canon` and
//! `order` each clears both work areas, 16,384 words each, in every call.

#[path = "../include/nnef.rs"]
mod library;

mod counting;
mod inputs;
mod orders;
mod sides;
mod tables;
mod timing;

use counting::Counter;
use orders::Ordered;
use sides::{Lent, Sides, CANON, CHECK, COMPARE, ORDER, TOKENS};
use std::fs;
use tables::Figures;
use timing::Timer;

// Moves the code behind it by so many bytes, since times depend on where code lies.
std::arch::global_asm!(concat!(
    ".section .text.shift, \"axR\", @progbits\n.skip ",
    env!("NNEF_BENCH_SHIFT"),
    "\n.text"
));

/// What looks at both sides on an input, once they agree on it.
trait Measure {
    fn measure<I: ?Sized, L: ?Sized, const N: usize>(
        &mut self,
        sides: &Sides<I, L, N>,
        input: &I,
        lent: &mut L,
    );
}

fn main() {
    let arguments: Vec<String> = std::env::args().skip(1).collect();
    let arguments: Vec<&str> = arguments.iter().map(String::as_str).collect();
    match arguments[..] {
        ["time", file] => {
            let mut timer = Timer::default();
            measure_all(&mut timer);
            fs::write(file, timer.lines).expect("the times are written");
        }
        ["count"] => measure_all(&mut Counter),
        ["tables", unit, thousandth, ref files @ ..] => {
            tables::print(unit, thousandth, &mut Figures::of(files))
        }
        _ => panic!("the arguments are not those of bench/run"),
    }
}

/// Measures everything, in the order of the tables.
fn measure_all(measure: &mut impl Measure) {
    for (name, text) in inputs::texts() {
        let mut table = vec![7; library::TABLE_WORDS];
        let mut other = table.clone();
        TOKENS.agreed(name, &text, &mut table, &mut other);
        measure.measure(&TOKENS, &text[..], &mut table[..]);
    }
    let growth = inputs::growth().into_iter().flat_map(|(_, inputs)| inputs);
    for input in inputs::inputs()
        .into_iter()
        .chain(growth)
        .chain([inputs::colliding()])
    {
        for (sides, code) in [(&CHECK, library::ACCEPTED), (&CANON, input.code)] {
            let mut lent = Lent::new();
            let answer = sides.agreed(input.name, &input.pair, &mut lent, &mut Lent::new());
            assert_eq!(answer[0], code, "{}: another code", input.name);
            measure.measure(sides, &input.pair, &mut lent);
        }
        let ordered = Ordered::new(input.pair);
        let mut lent = Lent::new();
        let answer = ORDER.agreed(input.name, &ordered, &mut lent, &mut Lent::new());
        assert_eq!(answer[0], library::ACCEPTED, "{}: refused", input.name);
        measure.measure(&ORDER, &ordered, &mut lent);
    }
    for (name, names) in inputs::names() {
        COMPARE.agreed(name, &names, &mut (), &mut ());
        measure.measure(&COMPARE, &names, &mut ());
    }
}
