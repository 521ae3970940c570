//! "A digit system" of document 01: rows of eight numbers, and the three systems that are built in.

use crate::plane::{Interval, Matrix};

/// "Digit a has a transformation F and an interval W, written as one row of eight numbers: F as a b c d, then W as x0 x1 y0 y1."
pub type Row = [i128; 8];

pub fn f(row: &Row) -> Matrix {
    [row[0], row[1], row[2], row[3]]
}

pub fn w(row: &Row) -> Interval {
    Interval { left: [row[4], row[5]], right: [row[6], row[7]] }
}

pub const R: [Row; 4] = [
    [1, 0, 1, 1, 0, 1, 1, 1],
    [1, 1, 0, 1, 1, 1, 1, 0],
    [1, -1, 0, 1, 1, 0, 1, -1],
    [1, 0, -1, 1, -1, 1, 0, 1],
];

pub const B: [Row; 8] = [
    [1, 0, 1, 2, -1, 3, 1, 1],
    [1, 1, 0, 2, 0, 1, 2, 1],
    [2, 0, 1, 1, 1, 2, 1, 0],
    [2, 1, 0, 1, 1, 1, 3, -1],
    [2, -1, 0, 1, 3, 1, 1, -1],
    [2, 0, -1, 1, 1, 0, 1, -2],
    [1, -1, 0, 2, -2, 1, 0, 1],
    [1, 0, -1, 2, -1, 1, 1, 3],
];

pub const D: [Row; 4] = [
    [1, -1, 0, 2, -2, 1, 0, 1],
    [1, 0, 0, 2, -1, 2, 1, 2],
    [1, 1, 0, 2, 0, 1, 2, 1],
    [2, 0, 0, 1, 3, 2, 3, -2],
];
