//! Admitted digit systems by chance, of several sorts. Each sort is made so that it is often admitted; what is not is drawn again.

use crate::chance::Chance;
use crate::expanding::expands;
use crate::plane::{cancel, det, determinant, gcd, image, in_closed, points_at_and_between, product, pseudoinverse, send, Interval, Matrix, Point};
use crate::reading::{judge_row, judge_system};
use crate::systems::{f, w, Row, B, D, R};

/// Draws until the system is admitted.
pub fn admitted(chance: &mut Chance, sort: fn(&mut Chance) -> Vec<Row>) -> Vec<Row> {
    judged(chance, Ok(()), sort)
}

/// Draws until the system is judged so.
pub fn judged(chance: &mut Chance, verdict: Result<(), u8>, sort: fn(&mut Chance) -> Vec<Row>) -> Vec<Row> {
    loop {
        let rows = sort(chance);
        if (1..=16).contains(&rows.len()) && judge_system(&rows) == verdict {
            return rows;
        }
    }
}

pub fn built_in(chance: &mut Chance) -> Vec<Row> {
    chance.pick(&[R.to_vec(), B.to_vec(), D.to_vec()])
}

/// A built-in system seen in other coordinates.
pub fn changed(chance: &mut Chance) -> Vec<Row> {
    admitted(chance, |chance| {
        // Turning the circle keeps every rate, and R expands in every scale; of other coordinates few keep what the rows had.
        let [a, b] = point(chance, 4);
        let turn = [a, -b, b, a];
        let scale = [chance.between(1, 9), 0, 0, chance.between(1, 9)];
        match chance.below(6) {
            0 => in_coordinates(turn, &built_in(chance)),
            1 => in_coordinates(product(turn, scale), &R),
            _ => in_any_coordinates(chance),
        }
    })
}

/// The same, whether it expands or not.
pub fn in_any_coordinates(chance: &mut Chance) -> Vec<Row> {
    let p = if chance.once_in(3) { positive_matrix(chance, 3) } else { unimodular(chance, 3) };
    in_coordinates(p, &built_in(chance))
}

fn in_coordinates(p: Matrix, rows: &[Row]) -> Vec<Row> {
    rows.iter().map(|r| row(cancel(product(product(p, f(r)), pseudoinverse(p))), image(p, w(r)))).collect()
}

/// Intervals between points by chance that together go round the circle, each with a digit that expands there.
pub fn cover(chance: &mut Chance) -> Vec<Row> {
    admitted(chance, |chance| intervals_round(chance, expanding_between))
}

/// The same, whether it expands or not: a digit's F mostly sends (0, infinity) to its interval.
pub fn any_cover(chance: &mut Chance) -> Vec<Row> {
    intervals_round(chance, |chance, w| {
        let f = if chance.once_in(4) { cancel(positive_matrix(chance, 4)) } else { onto(w, 1, 1) };
        Some(row(f, w))
    })
}

/// Rows that go round, or no row where the points do not allow it.
fn intervals_round(chance: &mut Chance, digit: fn(&mut Chance, Interval) -> Option<Row>) -> Vec<Row> {
    let size = chance.pick(&[2, 5, 20, 100]);
    let how_many = chance.between(2, 16) as usize;
    let mut round: Vec<Point> = (0..how_many).map(|_| point(chance, size)).collect();
    if round.iter().all(|&z| det(z, round[0]) == 0) {
        return Vec::new();
    }
    round = points_at_and_between(&round).into_iter().step_by(2).collect();
    // From left to right an interval runs against the order of the angles.
    round.reverse();
    let n = round.len();
    let reach = 1 + chance.below(n.min(4) - 1);
    let mut rows = Vec::new();
    for k in 0..n {
        let (left, furthest) = (round[k], 1 + chance.below(reach));
        // A wide interval may have no digit where a narrower one has.
        let found = (1..=furthest).rev().find_map(|steps| digit(chance, from_to(left, round[(k + steps) % n])));
        let Some(row) = found else { return Vec::new() };
        rows.push(row);
    }
    rows
}

fn from_to(left: Point, right: Point) -> Interval {
    Interval { left, right: if det(left, right) < 0 { right } else { [-right[0], -right[1]] } }
}

/// The matrix that sends infinity and 0 to the interval's ends, and the points between to those inside: its columns are p times and q times the ends.
fn onto(Interval { left, right }: Interval, p: i128, q: i128) -> Matrix {
    cancel([p * right[0], q * left[0], p * right[1], q * left[1]])
}

/// A digit that expands on that interval. If the interval is below a right angle, `onto` has one for some p and q.
fn expanding_between(chance: &mut Chance, interval: Interval) -> Option<Row> {
    let Interval { left, right } = interval;
    if left[0] * right[0] + left[1] * right[1] <= 0 {
        return None;
    }
    let most = |z: Point| 100 / z[0].abs().max(z[1].abs());
    for _ in 0..20 {
        let (p, q) = if chance.once_in(3) { (1, 1) } else { (chance.between(1, most(right)), chance.between(1, most(left))) };
        let f = match chance.below(8) {
            0 | 1 => cancel(positive_matrix(chance, 4)),
            2 => f(&chance.pick(&[R.to_vec(), B.to_vec(), D.to_vec()].concat())),
            3 => cancel(product(onto(interval, p, q), unimodular(chance, 2))),
            _ => onto(interval, p, q),
        };
        let row = row(f, interval);
        if is_expanding(&row) {
            return Some(row);
        }
    }
    None
}

/// A system with its digits in another order, some of them twice, some with other signs, and some that no one needs.
pub fn decorated(chance: &mut Chance) -> Vec<Row> {
    admitted(chance, |chance| {
        let mut rows = match chance.below(3) {
            0 => built_in(chance),
            1 => changed(chance),
            _ => cover(chance),
        };
        for _ in 0..chance.below(17usize.saturating_sub(rows.len()).max(1)) {
            let more = if chance.once_in(2) { chance.pick(&rows) } else { expanding_row(chance) };
            rows.push(more);
        }
        for row in rows.iter_mut() {
            turn_signs(chance, row);
        }
        if chance.once_in(2) {
            chance.shuffle(&mut rows);
        }
        rows
    })
}

/// −F sends a point where F does, and the ends −x and −y are the ends x and y.
fn turn_signs(chance: &mut Chance, row: &mut Row) {
    for half in row.chunks_mut(4) {
        if chance.once_in(3) {
            half.iter_mut().for_each(|n| *n = -*n);
        }
    }
}

/// Each digit stands for two or three digits of R that can follow one another: from this to R, a digit gives two or three.
pub fn power_of_r(chance: &mut Chance) -> Vec<Row> {
    let length = 2 + chance.below(2);
    let mut rows = Vec::new();
    // Digits 0 and 1 are for numbers above 0, 2 and 3 for those below.
    for (pair, whole) in [(0, [0, 1, 1, 0]), (2, [1, 0, 0, -1])] {
        for number in 0..1 << length {
            let f = (0..length).fold([1, 0, 0, 1], |m, place| product(m, f(&R[pair + (number >> place & 1)])));
            rows.push(row(f, image(f, Interval { left: [whole[0], whole[1]], right: [whole[2], whole[3]] })));
        }
    }
    rows
}

/// The row of F and W, with W's ends in lowest terms.
pub fn row(f: Matrix, w: Interval) -> Row {
    let [l, r] = [w.left, w.right].map(|z| z.map(|n| n / gcd(&z).max(1)));
    [f[0], f[1], f[2], f[3], l[0], l[1], r[0], r[1]]
}

/// Whether the row keeps every rule for a row and expands.
pub fn is_expanding(row: &Row) -> bool {
    judge_row(row).is_ok() && expands(f(row), w(row))
}

/// A row that keeps every rule for a row and expands.
pub fn expanding_row(chance: &mut Chance) -> Row {
    loop {
        let row = any_row(chance);
        if is_expanding(&row) {
            return row;
        }
    }
}

/// A row that keeps every rule for a row; most of these do not expand.
pub fn any_row(chance: &mut Chance) -> Row {
    let size = chance.pick(&[2, 10, 100]);
    loop {
        let w = Interval { left: point(chance, size), right: point(chance, size) };
        if det(w.left, w.right) < 0 {
            return row(cancel(positive_matrix(chance, size)), w);
        }
    }
}

/// A point in lowest terms with numbers of at most that size.
pub fn point(chance: &mut Chance, size: i128) -> Point {
    loop {
        let z = [chance.between(-size, size), chance.between(-size, size)];
        if gcd(&z) > 0 {
            return z.map(|n| n / gcd(&z));
        }
    }
}

/// A matrix with determinant above 0 and entries of at most that size.
pub fn positive_matrix(chance: &mut Chance, size: i128) -> Matrix {
    loop {
        let m = [0; 4].map(|_| chance.between(-size, size));
        if determinant(m) > 0 {
            return m;
        }
    }
}

/// A matrix with determinant 1: a product of some of the simplest ones.
pub fn unimodular(chance: &mut Chance, most: usize) -> Matrix {
    let simplest = [[1, 1, 0, 1], [1, -1, 0, 1], [1, 0, 1, 1], [1, 0, -1, 1], [0, 1, -1, 0], [-1, 0, 0, -1]];
    (0..1 + chance.below(most)).fold([1, 0, 0, 1], |m, _| product(m, chance.pick(&simplest)))
}

/// A word that names a fraction: each digit's interval holds the number that is named from it on.
pub fn word_of_fraction(chance: &mut Chance, rows: &[Row], length: usize) -> Vec<u8> {
    let z = point(chance, 30);
    word_of(chance, rows, z, length)
}

/// A word that names that fraction.
pub fn word_of(chance: &mut Chance, rows: &[Row], mut z: Point, length: usize) -> Vec<u8> {
    let mut word = Vec::new();
    while word.len() < length {
        let digits: Vec<usize> = (0..rows.len()).filter(|&a| in_closed(w(&rows[a]), z)).collect();
        let a = chance.pick(&digits);
        word.push(a as u8);
        z = send(pseudoinverse(f(&rows[a])), z);
        z = z.map(|n| n / gcd(&z));
        // A fraction that has grown too long is left for another one.
        if z[0].abs().max(z[1].abs()) > 1 << 60 {
            z = point(chance, 30);
        }
    }
    word
}
