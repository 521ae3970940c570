//! "Points, matrices, intervals" of document 01, in 128-bit whole numbers.
//!
//! Every number met here is below 10^12 (a state's entry times an interval's end, doubled), so a determinant is below 10^25. Two determinants are
//! never multiplied: only their signs are.

use crate::faults::{planted, Fault};

/// "A point is a pair (z0, z1) of whole numbers, not both 0, standing for z0/z1."
pub type Point = [i128; 2];

/// "A matrix [a, b, c, d] sends (z0, z1) to (a·z0 + b·z1, c·z0 + d·z1)."
pub type Matrix = [i128; 4];

/// "An interval has a left end x and a right end y with det(x, y) < 0."
#[derive(Clone, Copy)]
pub struct Interval {
    pub left: Point,
    pub right: Point,
}

/// "det(x, y) = x0·y1 − x1·y0."
pub fn det(x: Point, y: Point) -> i128 {
    x[0] * y[1] - x[1] * y[0]
}

/// "Its determinant is ad − bc."
pub fn determinant([a, b, c, d]: Matrix) -> i128 {
    a * d - b * c
}

/// "Its pseudoinverse is [d, −b, −c, a]."
pub fn pseudoinverse([a, b, c, d]: Matrix) -> Matrix {
    [d, -b, -c, a]
}

pub fn send([a, b, c, d]: Matrix, z: Point) -> Point {
    [a * z[0] + b * z[1], c * z[0] + d * z[1]]
}

/// The matrix that sends z to m(n(z)): its columns are where m sends the columns of n.
pub fn product(m: Matrix, n: Matrix) -> Matrix {
    let first = send(m, [n[0], n[2]]);
    let second = send(m, [n[1], n[3]]);
    [first[0], second[0], first[1], second[1]]
}

pub fn image(m: Matrix, i: Interval) -> Interval {
    Interval { left: send(m, i.left), right: send(m, i.right) }
}

/// The greatest common divisor, never below 0; of no numbers, or of zeros, it is 0. By taking away twos and the smaller from the larger.
pub fn gcd(numbers: &[i128]) -> i128 {
    numbers.iter().fold(0, |g, n| gcd_of_two(g, n.abs()))
}

fn gcd_of_two(mut x: i128, mut y: i128) -> i128 {
    if x == 0 || y == 0 {
        return x + y;
    }
    let twos = (x | y).trailing_zeros();
    x >>= x.trailing_zeros();
    while y != 0 {
        y >>= y.trailing_zeros();
        (x, y) = (x.min(y), (x - y).abs());
    }
    x << twos
}

/// "To cancel a matrix, divide it by the greatest common divisor of the four entries. Signs stay."
pub fn cancel(m: Matrix) -> Matrix {
    let mut g = gcd(&m);
    if planted(Fault::PositiveSign) && m.iter().find(|n| **n != 0) < Some(&0) {
        g = -g;
    }
    m.map(|n| n / g)
}

/// The sign of det(x, z)·det(z, y): "A point z is inside exactly if det(x, z)·det(z, y) > 0, and in the closed interval exactly if that product is ≥ 0."
fn side(i: Interval, z: Point) -> i128 {
    if planted(Fault::ProductIn64Bits) {
        return (det(i.left, z) as i64).wrapping_mul(det(z, i.right) as i64).signum() as i128;
    }
    det(i.left, z).signum() * det(z, i.right).signum()
}

pub fn inside(i: Interval, z: Point) -> bool {
    side(i, z) > 0
}

pub fn in_closed(i: Interval, z: Point) -> bool {
    side(i, z) >= 0
}

/// All the points given, each once, in their order round the circle of directions, and after each a point strictly between it and the next one.
/// At least two different points are given. Whether a point is inside an interval changes at the interval's ends only; so what holds of each of
/// these points, for intervals that have their ends among the points given, holds of every point there is.
pub fn points_at_and_between(ends: &[Point]) -> Vec<Point> {
    // (z0, z1) and (−z0, −z1) are the same point. Of the two, take the one whose angle is at least 0 and below half a turn.
    let mut round: Vec<Point> = ends.iter().map(|&z| if z[1] > 0 || (z[1] == 0 && z[0] > 0) { z } else { [-z[0], -z[1]] }).collect();
    // For such p and q, det(p, q) > 0 exactly if the angle of p is the smaller one.
    round.sort_by(|&p, &q| 0.cmp(&det(p, q)));
    round.dedup_by(|p, q| det(*p, *q) == 0);
    let mut points = Vec::with_capacity(2 * round.len());
    for (n, &p) in round.iter().enumerate() {
        // The neighbour of the last is the first, half a turn on.
        let q = round.get(n + 1).copied().unwrap_or([-round[0][0], -round[0][1]]);
        points.push(p);
        points.push([p[0] + q[0], p[1] + q[1]]);
    }
    points
}

/// "I is included in J exactly if every point inside I is inside J." This sentence itself, not the test that document 01 derives from it.
pub fn included(i: Interval, j: Interval) -> bool {
    if planted(Fault::BothEnds) {
        return in_closed(j, i.left) && in_closed(j, i.right);
    }
    if planted(Fault::EqualShutOut) && det(i.left, j.left) == 0 && det(i.right, j.right) == 0 {
        return false;
    }
    points_at_and_between(&[i.left, i.right, j.left, j.right]).iter().all(|&z| !inside(i, z) || inside(j, z))
}

/// "Every point lies in the closed interval of some digit."
pub fn covered(intervals: &[Interval]) -> bool {
    let ends: Vec<Point> = intervals.iter().flat_map(|i| [i.left, i.right]).collect();
    let points = if planted(Fault::CoverOfEnds) { ends } else { points_at_and_between(&ends) };
    let holds = if planted(Fault::CoverByOpen) { inside } else { in_closed };
    points.iter().all(|&z| intervals.iter().any(|&i| holds(i, z)))
}
