//! Document 001's eight digits, and document 02's T-05: "with R(x) = (x+1)/(1−x), F of a+2 is R F_a R inverse, counting modulo 8, and F of 7−a at x is
//! −F_a(−x); the intervals follow the same laws." Row 0 makes all eight.

use crate::chance::Chance;
use crate::draw_systems::{built_in, judged, row};
use crate::plane::{cancel, det, pseudoinverse, send, Interval, Matrix, Point};
use crate::systems::{f, w, Row, B};

/// R(x), a quarter of the circle on.
pub fn quarter(z: Point) -> Point {
    send([1, 1, -1, 1], z)
}

/// Where R came from, or a multiple of it.
fn quarter_back(z: Point) -> Point {
    send(pseudoinverse([1, 1, -1, 1]), z)
}

/// −x.
pub fn negative([z0, z1]: Point) -> Point {
    [-z0, z1]
}

/// The matrix of a map that is known by where it sends infinity, 0 and 1: its columns are multiples of the first two images, and their sum is one of the
/// third. Of the two in lowest terms it is the one with a trace above 0, as document 001 has its eight.
fn matrix_of(map: impl Fn(Point) -> Point) -> Matrix {
    let [p, q, r] = [[1, 0], [0, 1], [1, 1]].map(map);
    let (k, l) = (det(r, q), det(p, r));
    let m = cancel([k * p[0], l * q[0], k * p[1], l * q[1]]);
    if m[0] + m[3] < 0 { m.map(|n| -n) } else { m }
}

pub fn turned(digit: &Row) -> Row {
    let Interval { left, right } = w(digit);
    row(matrix_of(|z| quarter(send(f(digit), quarter_back(z)))), Interval { left: quarter(left), right: quarter(right) })
}

/// −x turns the direction round, so that the right end becomes the left one.
pub fn reflected(digit: &Row) -> Row {
    let Interval { left, right } = w(digit);
    row(matrix_of(|z| negative(send(f(digit), negative(z)))), Interval { left: negative(right), right: negative(left) })
}

/// All eight, by document 001's own way: the even ones by turning, each odd one by reflecting an even one.
pub fn from_row_0(first: Row) -> Vec<Row> {
    let mut rows = vec![first; 8];
    for a in [0, 2, 4] {
        rows[a + 2] = turned(&rows[a]);
    }
    for a in [0, 2, 4, 6] {
        rows[7 - a] = reflected(&rows[a]);
    }
    rows
}

/// The same transformation, number for number, and the same ends, as points.
pub fn same_digit(r: &Row, s: &Row) -> bool {
    f(r) == f(s) && det(w(r).left, w(s).left) == 0 && det(w(r).right, w(s).right) == 0
}

/// B's transformations with other intervals: W_0 from −p to q. Document 001: with 0 ≤ p ≤ 1/3 and √2 − 1 < q ≤ 1 they cover and expand.
pub fn with_interval_0(p: Point, q: Point) -> Vec<Row> {
    from_row_0(row(f(&B[0]), Interval { left: negative(p), right: q }))
}

/// Such a system, whether it is admitted or not: p and q at the bounds, a little over them, or anywhere. By turning, numbers get at most twice as large.
fn any_symmetric(chance: &mut Chance) -> Vec<Row> {
    let size = chance.pick(&[3, 12, 50]);
    let [m, n] = [0; 2].map(|_| chance.between(1, size));
    let [any_p, any_q] = [[chance.between(0, m) / 2, m], [chance.between(1, n), n]];
    let p = chance.pick(&[[0, 1], [1, 3], any_p, any_p, [-1, m]]);
    let q = chance.pick(&[[1, 1], [1, 2], any_q, any_q, [n, n - 1]]);
    with_interval_0(p, q)
}

pub fn symmetric(chance: &mut Chance) -> Vec<Row> {
    judged(chance, Ok(()), any_symmetric)
}

pub fn symmetric_or_built_in(chance: &mut Chance) -> Vec<Row> {
    if chance.once_in(2) { symmetric(chance) } else { built_in(chance) }
}

/// Intervals that are too short to cover, or too long to expand.
pub fn too_short_or_long(chance: &mut Chance) -> Vec<Row> {
    let number = chance.pick(&[10, 18]);
    judged(chance, Err(number), any_symmetric)
}
