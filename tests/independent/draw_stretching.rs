//! Admitted digit systems whose digits do much at once: they stretch and shrink by up to 100, or stand for a hundred digits.

use crate::chance::Chance;
use crate::draw_systems::{admitted, built_in, cover, is_expanding, point, row};
use crate::expanding::growth;
use crate::plane::{image, product, Interval, Matrix, Point};
use crate::systems::{f, Row, R};

/// In front of another system, digits that stretch and shrink by up to 100, so that a state's entries grow fast, and now and then have much to
/// cancel. Each has an interval where it expands, and the other system covers the rest.
pub fn stretching(chance: &mut Chance) -> Vec<Row> {
    admitted(chance, |chance| {
        let others = if chance.once_in(2) { built_in(chance) } else { cover(chance) };
        let mut rows: Vec<Row> = (0..1 + chance.below(16 - others.len().min(15))).map(|_| stretching_row(chance)).collect();
        rows.extend(others);
        rows
    })
}

fn stretching_row(chance: &mut Chance) -> Row {
    let f = stretching_matrix(chance);
    if f[1] == 0 && f[2] == 0 && chance.once_in(2) {
        let least = (1..).find(|c| c * c >= f[0] * f[3]).unwrap();
        return scaling_row(f, chance.between(least, 20));
    }
    loop {
        let row = row(f, Interval { left: end_for(chance, f), right: end_for(chance, f) });
        if is_expanding(&row) {
            return row;
        }
    }
}

pub fn stretching_matrix(chance: &mut Chance) -> Matrix {
    let factor = chance.pick(&[2, 4, 5, 10, 10, 25, 50, 64, 100, 100]);
    let shift = chance.pick(&[0, 0, 0, 1, -1, factor]);
    chance.pick(&[[factor, shift, 0, 1], [1, shift, 0, factor], [factor, 0, shift, 1], [1, 0, shift, factor]])
}

/// A point where the digit does not shrink: only such ones are ends of an interval on which it expands.
fn end_for(chance: &mut Chance, f: Matrix) -> Point {
    loop {
        let z = point(chance, 100);
        if growth(f, z) >= 0 {
            return z;
        }
    }
}

/// The digit k·x on (c, −c), or x/k on (−1/c, 1/c), which expands exactly if c² ≥ k. X·W_held then has infinity or 0 inside for each X of the kind
/// [a 0 0 d], so that R has no digit for it.
pub fn scaling_row(f: Matrix, c: i128) -> Row {
    let around_infinity = f[0] > f[3];
    let w = if around_infinity { [c, 1, c, -1] } else { [-1, c, 1, c] };
    [f[0], 0, 0, f[3], w[0], w[1], w[2], w[3]]
}

/// How many digits of a decimal system scale; R follows them.
pub const SCALING: usize = 6;

/// In front of R, digits that multiply or divide by 10 or by 100, so that entries come to 1,000,000,000 exactly: first those that multiply.
pub fn decimal(chance: &mut Chance) -> Vec<Row> {
    let mut rows = Vec::new();
    for place in 0..SCALING {
        let (factor, least) = chance.pick(&[(10, 4), (10, 4), (100, 10)]);
        let f = if place < SCALING / 2 { [factor, 0, 0, 1] } else { [1, 0, 0, factor] };
        rows.push(scaling_row(f, chance.pick(&[least, 10, 20, 100])));
    }
    rows.extend(R);
    rows
}

/// R, and as its digit 4 one that stands for a hundred digits b of R, one after the other: it gives them out before it is absorbed.
pub fn hundred_of(b: usize) -> Vec<Row> {
    let hundred = (0..100).fold([1, 0, 0, 1], |m, _| product(m, f(&R[b])));
    // Digits 0 and 1 are for numbers above 0, 2 and 3 for those below.
    let half = if b < 2 { Interval { left: [0, 1], right: [1, 0] } } else { Interval { left: [1, 0], right: [0, -1] } };
    [&R[..], &[row(hundred, image(hundred, half))]].concat()
}
