//! Which calls of two graphs go together.

use crate::model::Call;

/// A call of both graphs, or of one alone, by index.
#[derive(Clone, Copy, Debug, PartialEq, Eq)]
pub enum Pair {
    Both(usize, usize),
    First(usize),
    Second(usize),
}

/// The calls of both graphs in order, those that are most alike together.
pub fn align(first: &[Call], second: &[Call]) -> Vec<Pair> {
    let (rows, columns) = (first.len(), second.len());
    // best[i][j]: the greatest likeness of what stands from i and from j on.
    let mut best = vec![vec![0; columns + 1]; rows + 1];
    for i in (0..rows).rev() {
        for j in (0..columns).rev() {
            let together = match likeness(&first[i], &second[j]) {
                0 => 0,
                alike => alike + best[i + 1][j + 1],
            };
            best[i][j] = together.max(best[i + 1][j]).max(best[i][j + 1]);
        }
    }
    let (mut i, mut j) = (0, 0);
    let mut pairs = Vec::new();
    while i < rows || j < columns {
        let alike = if i < rows && j < columns { likeness(&first[i], &second[j]) } else { 0 };
        if alike > 0 && best[i][j] == alike + best[i + 1][j + 1] {
            pairs.push(Pair::Both(i, j));
            (i, j) = (i + 1, j + 1);
        } else if j == columns || i < rows && best[i][j] == best[i + 1][j] {
            pairs.push(Pair::First(i));
            i += 1;
        } else {
            pairs.push(Pair::Second(j));
            j += 1;
        }
    }
    pairs
}

/// How much two calls are alike; 0 if they have nothing to do with each other.
fn likeness(one: &Call, other: &Call) -> usize {
    match (one.line == other.line, one.left == other.left, one.operation == other.operation) {
        (true, ..) => 8,
        (_, true, true) => 6,
        (_, true, false) => 3,
        (_, false, true) => 2,
        _ => 0,
    }
}
