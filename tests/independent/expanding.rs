//! "A system must expand" (document 02, T-04): "W_a must be included in the set where the inverse of F_a expands: at every point z inside W_a,
//! det F·(z0² + z1²) is greater than the squared length of pseudoinverse(F)·z."

use crate::faults::{planted, Fault};
use crate::plane::{determinant, pseudoinverse, send, Interval, Matrix, Point};

/// The two numbers that the sentence compares. The first over the second is the rate at which the inverse of F stretches the circle at z.
pub fn rate(f: Matrix, z: Point) -> (i128, i128) {
    let squared_length = |z: Point| z[0] * z[0] + z[1] * z[1];
    (determinant(f) * squared_length(z), squared_length(send(pseudoinverse(f), z)))
}

/// Above 0 exactly if the inverse of F expands at z.
pub fn growth(f: Matrix, z: Point) -> i128 {
    let (stretched, asked) = rate(f, z);
    stretched - asked
}

/// det(x, z)·det(z, y) of z = αx + βy is αβ·det(x, y)²; so the points inside (x, y) are those of the straight way from x to y, its ends apart. On it,
/// at (1 − t)·x + t·y, the growth is a polynomial at² + bt + c. Three values give its coefficients: those at x, at y, and at x + y, which is twice
/// the point half way, so that the value there is four times the polynomial's.
pub fn expands(f: Matrix, Interval { left, right }: Interval) -> bool {
    let [first, middle, last] = [left, [left[0] + right[0], left[1] + right[1]], right].map(|z| growth(f, z));
    if planted(Fault::ClosedGrowth) && (first <= 0 || last <= 0) {
        return false;
    }
    above_zero_between(2 * first + 2 * last - middle, middle - 3 * first - last, first)
}

/// Whether at² + bt + c is above 0 at every t with 0 < t < 1.
fn above_zero_between(a: i128, b: i128, c: i128) -> bool {
    // Its least value is taken between 0 and 1: at t = −b/2a, where it is c − b²/4a.
    if a > 0 && 0 < -b && -b < 2 * a && !planted(Fault::GrowthOfEnds) {
        return 4 * a * c > b * b;
    }
    // Always the same value.
    if a == 0 && b == 0 {
        return c > 0 || (c == 0 && planted(Fault::GrowsNowhere));
    }
    // It rises, or falls, or bends downwards all the way: between 0 and 1 it is above the smaller one of its values there, and comes as near to it
    // as one likes.
    c >= 0 && a + b + c >= 0
}
