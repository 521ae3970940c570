//! Forms in two points (document 02, T-14): "a state of eight numbers", and which digit may be given out for it.
//!
//! Every number met here is below 10^21: an entry (10^9) times two ends (10^2 each), four times, and then what the two equations of a coefficient
//! multiply it by.

use std::array::from_fn;
use std::ops::{Div, Mul, Sub};

use crate::faults::{planted, Fault};
use crate::plane::{gcd, send, Interval, Matrix, Point};

/// The coefficients of xy, x, y and 1 in the numerator, and then those in the denominator: a matrix of two rows and four columns.
pub type Form = [[i128; 4]; 2];

/// The matrix that changes nothing.
pub const SAME: Matrix = [1, 0, 0, 1];

/// The Kronecker product of two matrices. It sends (x0·y0, x0·y1, x1·y0, x1·y1) to the same products of the points m(x) and n(y).
fn kronecker(m: Matrix, n: Matrix) -> [[i128; 4]; 4] {
    from_fn(|row| from_fn(|column| m[2 * (row / 2) + column / 2] * n[2 * (row % 2) + column % 2]))
}

/// The form X(m(x), n(y)).
pub fn behind(x: Form, m: Matrix, n: Matrix) -> Form {
    let both = kronecker(m, n);
    x.map(|row| from_fn(|column| (0..4).map(|k| row[k] * both[k][column]).sum()))
}

/// The form m(X(x, y)).
pub fn before(m: Matrix, x: Form) -> Form {
    with_columns(columns(x).map(|column| send(m, column)))
}

pub fn columns(x: Form) -> [Point; 4] {
    from_fn(|k| [x[0][k], x[1][k]])
}

pub fn with_columns(columns: [Point; 4]) -> Form {
    from_fn(|row| columns.map(|column| column[row]))
}

/// The matrix with the two ends as its columns.
pub fn ends(i: Interval) -> Matrix {
    [i.left[0], i.right[0], i.left[1], i.right[1]]
}

/// "The four images of the pairs of interval ends": left and left, left and right, right and left, right and right.
pub fn images(x: Form, [i, j]: [Interval; 2]) -> [Point; 4] {
    let [i, j] = if planted(Fault::PairEndsSwapped) { [j, i] } else { [i, j] };
    columns(behind(x, ends(i), ends(j)))
}

/// A fraction, not in lowest terms; below the line is never 0.
#[derive(Clone, Copy)]
pub struct Fraction {
    pub above: i128,
    pub below: i128,
}

impl Fraction {
    pub fn sign(self) -> i128 {
        self.above.signum() * self.below.signum()
    }
}

impl Sub for Fraction {
    type Output = Fraction;
    fn sub(self, other: Fraction) -> Fraction {
        Fraction { above: self.above * other.below - other.above * self.below, below: self.below * other.below }
    }
}

impl Mul for Fraction {
    type Output = Fraction;
    fn mul(self, other: Fraction) -> Fraction {
        Fraction { above: self.above * other.above, below: self.below * other.below }
    }
}

impl Div for Fraction {
    type Output = Fraction;
    fn div(self, other: Fraction) -> Fraction {
        Fraction { above: self.above * other.below, below: self.below * other.above }
    }
}

/// "Written in the two ends of U_c": the α and β with α·left + β·right = v. Of the two equations, one has α in it; it takes α out of the other one,
/// which leaves β.
pub fn coefficients(v: Point, u: Interval) -> [Fraction; 2] {
    let (first, second) = if u.left[0] != 0 { (0, 1) } else { (1, 0) };
    let [l, r, v] = [u.left, u.right, v].map(|z| [z[first], z[second]].map(|above| Fraction { above, below: 1 }));
    let times = l[1] / l[0];
    let beta = (v[1] - times * v[0]) / (r[1] - times * r[0]);
    [(v[0] - beta * r[0]) / l[0], beta]
}

/// "A digit c may be given out exactly if the four images of the pairs of interval ends, written in the two ends of U_c, have coefficients all ≥ 0 or
/// all ≤ 0, and no image is (0, 0)."
pub fn may_be_given(images: &[Point; 4], u: Interval) -> bool {
    let asked = if planted(Fault::PairThreeImages) { &images[..3] } else { &images[..] };
    if asked.contains(&[0, 0]) && !planted(Fault::PairZeroImage) {
        return false;
    }
    let least = planted(Fault::PairOpenInterval) as i128;
    let in_cone = |images: &[Point], sign: i128| images.iter().all(|&v| coefficients(v, u).iter().all(|c| sign * c.sign() >= least));
    let either = |images: &[Point]| in_cone(images, 1) || (in_cone(images, -1) && !planted(Fault::PairAboveZeroOnly));
    if planted(Fault::PairSignsApart) { asked.chunks(1).all(either) } else { either(asked) }
}

/// "To cancel a matrix, divide it by the greatest common divisor of the four entries. Signs stay." Here of the eight.
pub fn cancelled(x: Form) -> Form {
    if planted(Fault::PairRowsCancelled) {
        return x.map(|row| row.map(|n| n / gcd(&row).max(1)));
    }
    let counted = if planted(Fault::PairNumeratorAlone) { &x[0][..] } else { x.as_flattened() };
    // Of zeros it is 0; they stay.
    let divisor = gcd(counted).max(1);
    let turned = planted(Fault::PairPositiveSign) && x.as_flattened().iter().find(|n| **n != 0) < Some(&0);
    x.map(|row| row.map(|n| n / if turned { -divisor } else { divisor }))
}
