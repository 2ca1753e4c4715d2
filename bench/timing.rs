//! Times of a call, the two sides taking turns.

use crate::sides::{Operation, Sides};
use crate::Measure;
use std::hint::black_box;
use std::time::{Duration, Instant};

/// How long one side runs in a turn, at least. Short turns put both sides
/// under the same weather.
const TURN: Duration = Duration::from_micros(250);

/// How long the turns on one input take together, about.
const INPUT: Duration = Duration::from_millis(150);

/// The turns of each side, at least and at most.
const FEWEST: f64 = 51.0;
const MOST: f64 = 301.0;

/// A line for each input: the least time of a call in nanoseconds, of the
/// library and of the reference.
#[derive(Default)]
pub struct Timer {
    pub lines: String,
}

impl Measure for Timer {
    fn measure<I: ?Sized, L: ?Sized, const N: usize>(
        &mut self,
        sides: &Sides<I, L, N>,
        input: &I,
        lent: &mut L,
    ) {
        let operations = [sides.library, sides.reference];
        let calls = operations.map(|operation| calls_in_turn(operation, input, lent));
        let mut turn = || [0, 1].map(|side| time_of(operations[side], input, lent, calls[side]));
        let mut least = turn();
        let both: f64 = least
            .iter()
            .zip(calls)
            .map(|(time, n)| time * f64::from(n))
            .sum();
        let turns = (INPUT.as_nanos() as f64 / both).clamp(FEWEST, MOST) as usize;
        for _ in 1..turns {
            let next = turn();
            least = [0, 1].map(|side| least[side].min(next[side]));
        }
        let [library, reference] = least;
        self.lines += &format!("{library} {reference}\n");
    }
}

/// How many calls fill a turn.
fn calls_in_turn<I: ?Sized, L: ?Sized, const N: usize>(
    operation: Operation<I, L, N>,
    input: &I,
    lent: &mut L,
) -> u32 {
    let mut calls = 1;
    loop {
        let took = time_of(operation, input, lent, calls) * f64::from(calls);
        if took >= TURN.as_nanos() as f64 {
            return calls;
        }
        calls *= 2;
    }
}

/// The time of a call in nanoseconds, over so many calls.
fn time_of<I: ?Sized, L: ?Sized, const N: usize>(
    operation: Operation<I, L, N>,
    input: &I,
    lent: &mut L,
    calls: u32,
) -> f64 {
    let start = Instant::now();
    for _ in 0..calls {
        black_box(operation(black_box(input), black_box(&mut *lent)));
    }
    start.elapsed().as_nanos() as f64 / f64::from(calls)
}
