//! Instructions of a call, counted by callgrind, a tool of valgrind: it looks at
//! `counted` alone, and writes a file whenever that ends.

use crate::sides::{Operation, Sides};
use crate::Measure;
use std::hint::black_box;

pub struct Counter;

impl Measure for Counter {
    fn measure<I: ?Sized, L: ?Sized, const N: usize>(
        &mut self,
        sides: &Sides<I, L, N>,
        input: &I,
        lent: &mut L,
    ) {
        counted(sides.library, input, lent);
        counted(sides.reference, input, lent);
    }
}

#[inline(never)]
fn counted<I: ?Sized, L: ?Sized, const N: usize>(
    operation: Operation<I, L, N>,
    input: &I,
    lent: &mut L,
) {
    black_box(operation(black_box(input), black_box(lent)));
}
