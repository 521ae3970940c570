//! This implementation held against what document 02 says of runs with two inputs (T-14): runs worked out by hand, which line of a step comes first, and
//! the refusals. What holds of every run is in pair_laws.rs.

use std::array::from_fn;

use crate::columns::{by_column, Columns};
use crate::pair_cases::{layout, opening, printed, read, PairCase};
use crate::pairs::{answer, Answer, Numbers};
use crate::self_test::Tests;
use crate::systems::{Row, B, D, R};
use crate::unexpanding::IDENTITIES;

pub fn pairs(tests: &mut Tests) {
    five_sixths(tests);
    products(tests);
    other_forms(tests);
    what_comes_first(tests);
    range_and_room(tests);
    states_judged(tests);
    order_of_judging(tests);
    lines(tests);
}

fn stopped(end: u8, taken: [usize; 2], written: &[u8], state: Numbers) -> Answer {
    Answer { end, taken, written: written.to_vec(), state }
}

/// A run from one system to itself.
fn within(rows: &[Row], state: Numbers, words: [&[u8]; 2], room: usize) -> Answer {
    answer(&[by_column(rows), by_column(rows)], &state, words, room)
}

fn start(operation: u8) -> Numbers {
    opening(operation).unwrap()
}

/// 1/2 is 2 1 1 .. on D, for 1/2 = (0 + 1)/2 and 0 = 0/2; and 1/3 is 2 0 2 0 .. Of both, (0, 2) is all that is known at first: x + y is in (0, 4), and
/// no digit has that. Four digits are absorbed, x first: (x + 1 + 2y)/2, (x + y + 2)/2, (x + 2y + 4)/4, (x + y + 3)/4. The last is in (5/8, 11/8) for
/// x in (−1/2, 1/2) and y in (0, 2): digit 2, and (x + y + 1)/2 is left, which is in (1/4, 7/4): digit 2 again, and x + y is left.
fn five_sixths(tests: &mut Tests) {
    let run = |room, x: &[u8], y: &[u8]| within(&D, start(b'+'), [x, y], room);
    let absorbed = |a, b| run(9, &[2, 1, 1][..a], &[2, 0, 2][..b]);
    tests.push(("1/2 + 1/3, nothing", absorbed(0, 0) == stopped(0, [0, 0], &[], [0, 1, 1, 0, 0, 0, 0, 1, -1, -1, 0])));
    tests.push(("1/2 + 1/3, x", absorbed(1, 0) == stopped(0, [1, 0], &[], [0, 1, 1, 0, 0, 0, 0, 1, 2, -1, 0])));
    tests.push(("1/2 + 1/3, 1 and 1", absorbed(1, 1) == stopped(0, [1, 1], &[], [0, 1, 2, 1, 0, 0, 0, 2, -1, 2, 1])));
    tests.push(("1/2 + 1/3, 2 and 1", absorbed(2, 1) == stopped(0, [2, 1], &[], [0, 1, 1, 2, 0, 0, 0, 2, 1, -1, 0])));
    tests.push(("1/2 + 1/3, 2 and 2", absorbed(2, 2) == stopped(0, [2, 2], &[], [0, 1, 2, 4, 0, 0, 0, 4, -1, 0, 1])));
    tests.push(("1/2 + 1/3, 3 and 2", absorbed(3, 2) == stopped(0, [3, 2], &[], [0, 1, 1, 3, 0, 0, 0, 4, 1, -1, 0])));
    tests.push(("1/2 + 1/3, no room", run(0, &[2, 1, 1], &[2, 0, 2]) == stopped(20, [3, 3], &[], [0, 1, 1, 3, 0, 0, 0, 4, 1, 2, 0])));
    tests.push(("1/2 + 1/3, room 1", run(1, &[2, 1, 1], &[2, 0, 2]) == stopped(20, [3, 3], &[2], [0, 1, 1, 1, 0, 0, 0, 2, 1, 2, 0])));
    tests.push(("1/2 + 1/3, 3 and 3", absorbed(3, 3) == stopped(0, [3, 3], &[2, 2], [0, 1, 2, 0, 0, 0, 0, 2, -1, 2, 1])));
}

/// On D, with x and y in (−1/2, 1/2), xy is in (−1/4, 1/4): digit 1; and 2xy in (−1/2, 1/2): digit 1 again, which has the ends too; 4xy is not, and with
/// x/2 for x it is 2xy. On B, 1/1 and 3/−1 are the ends of digit 3: (1, 1), (3, −1) and (9, 1) are 1 and 0, 0 and 1, 3 and 2 times these; (xy − 1)/2 is
/// left, and (2x + 1) for x.
fn products(tests: &mut Tests) {
    let run = |rows: &[Row], x, y, room| within(rows, start(b'*'), [&[x], &[y]], room);
    let twice = stopped(0, [1, 1], &[1, 1], [2, 0, 0, 0, 0, 0, 0, 1, -1, 1, 1]);
    tests.push(("a product on D", run(&D, 1, 1, 9) == twice && run(&D, 1, 1, 2) == twice));
    tests.push(("a product on B", run(&B, 3, 3, 9) == stopped(0, [1, 1], &[3], [2, 0, 1, -1, 0, 0, 0, 2, -1, 3, 1])));
    // 0·infinity; F_0 makes xy/(x + 1) of it.
    tests.push(("an image (0, 0)", run(&R, 0, 1, 9) == stopped(0, [1, 1], &[], [1, 0, 0, 0, 0, 1, 0, 1, -1, 1, 1])));
}

/// Forms that no operation opens with, on D, and no input.
fn other_forms(tests: &mut Tests) {
    let run = |state, room| within(&D, state, [&[], &[]], room);
    let again = stopped(0, [0, 0], &[1], [2, 0, 0, 0, 0, 0, 0, 1, 1, -1, 0]);
    tests.push(("2xy, and y's turn", run([2, 0, 0, 0, 0, 0, 0, 1, 1, 1, 1], 1) == again));
    // The number 1 = (1 + 1)/2, whatever x and y are: (−4, −4) is −2 and −2 times the ends of digit 2.
    let below = [0, 0, 0, -1, 0, 0, 0, -1, 1, 1, 0];
    tests.push(("coefficients all ≤ 0", run(below, 2) == stopped(20, [0, 0], &[2, 2], below)));
    // x alone, in (−1/2, 1/2), and y in (3/2, −3/2): at y = 1/0 the image is (0, 0), and before and behind it the signs are not the same.
    let alone = |den, held_x, turn| [0, 1, 0, 0, 0, 0, 0, den, held_x, 3, turn];
    tests.push(("signs of both kinds", run(alone(1, 1, 0), 9) == stopped(0, [0, 0], &[], alone(2, -1, 1))));
}

/// "A missing digit is loaded before anything else, x before y"; "0 if a missing digit has no input left".
fn what_comes_first(tests: &mut Tests) {
    let ended = |x: &[u8], y: &[u8]| {
        let answer = within(&R, start(b'+'), [x, y], 0);
        (answer.end, answer.taken)
    };
    tests.push(("no x, and no digit in y", ended(&[], &[4]) == (0, [0, 0])));
    tests.push(("no digit in x, and no y", ended(&[4], &[]) == (21, [0, 0])));
    tests.push(("no digit in both", ended(&[4], &[255]) == (21, [0, 0])));
    tests.push(("a digit in x, and none in y", ended(&[0], &[4]) == (21, [1, 0])));
    tests.push(("y is out, x is not", ended(&[1, 1, 1], &[1]) == (0, [2, 1])));
    tests.push(("x is out, y is not", ended(&[1], &[1, 1, 1]) == (0, [1, 1])));
    tests.push(("x is out, and no digit in y", ended(&[1], &[1, 4]) == (0, [1, 1])));
    tests.push(("no digit behind the first in x", ended(&[1, 4], &[1, 4]) == (21, [1, 1])));
    let held = |x, y, turn| [0, 1, 1, 0, 0, 0, 0, 1, x, y, turn];
    let from = |state, x: &[u8], y: &[u8]| within(&R, state, [x, y], 0);
    tests.push(("y is held and x is not", from(held(-1, 1, 0), &[], &[1]) == stopped(0, [0, 0], &[], held(-1, 1, 0))));
    tests.push(("x is held and y is not", from(held(1, -1, 0), &[1], &[]) == stopped(0, [0, 0], &[], held(1, -1, 0))));
    // x + (y + 1).
    tests.push(("y's turn", from(held(1, 1, 1), &[1], &[]) == stopped(0, [0, 0], &[], [0, 1, 1, 1, 0, 0, 0, 1, 1, -1, 0])));
}

/// "Ends 20 to 22 as before", and "the range is tested after cancelling".
fn range_and_room(tests: &mut Tests) {
    // The number p/q, whatever x and y are. A little below 2 it is (z + 1)/2, with 2p − q over q left; that is a little below 3.
    let constant = |p: i128, q: i128| [0, 0, 0, p, 0, 0, 0, q, 1, 1, 0];
    let run = |state, room| within(&D, state, [&[], &[]], room);
    let below_two = constant(999_999_999, 500_000_003);
    tests.push(("giving leaves the range", run(below_two, 1) == stopped(22, [0, 0], &[], below_two)));
    tests.push(("and there is no room", run(below_two, 0) == stopped(20, [0, 0], &[], below_two)));
    let one_more = stopped(20, [0, 0], &[2], constant(749_999_999, 250_000_000));
    tests.push(("it does not when it is cancelled", run(constant(999_999_999, 500_000_000), 1) == one_more));
    // R has no digit for what has 0 or infinity inside. Each digit 1 of x and of y doubles the denominator of x − y, and cancels 2.
    let to_r = |state, x: &[u8], y: &[u8]| answer(&[by_column(&D), by_column(&R)], &state, [x, y], 9);
    let difference = to_r(start(b'-'), &[1; 40], &[1; 40]);
    tests.push(("absorbing leaves the range", difference == stopped(22, [30, 30], &[], [0, 1, -1, 0, 0, 0, 0, 1 << 29, 1, 1, 0])));
    // kx, with 2x for x; of y nothing is left but a 2 to cancel.
    let times_x = |k: i128, held_x, turn| [0, k, 0, 0, 0, 0, 0, 1, held_x, 1, turn];
    let [half, limit] = [500_000_000, 1_000_000_000];
    tests.push(("an entry of 1,000,000,000", to_r(times_x(half, 3, 0), &[], &[]) == stopped(0, [0, 0], &[], times_x(limit, -1, 1))));
    tests.push(("and twice that", to_r(times_x(half, 3, 0), &[3], &[1]) == stopped(22, [1, 1], &[], times_x(limit, 3, 0))));
}

/// "12 for a state that is all 0, not cancelled, out of range or holds a number that is no digit of the system."
fn states_judged(tests: &mut Tests) {
    let refused = |state: Numbers| within(&R, state, [&[], &[]], 0) == stopped(12, [0, 0], &[], state);
    let form = |n: [i128; 8]| refused([n[0], n[1], n[2], n[3], n[4], n[5], n[6], n[7], -1, -1, 0]);
    let limit = 1_000_000_000;
    tests.push(("all 0", form([0; 8])));
    tests.push(("not cancelled", form([2, 0, 0, 0, 0, 0, 0, 2]) && form([0, 0, 0, 0, 0, 0, 0, -3]) && form([6, 9, 0, 0, 15, 0, 0, 3])));
    tests.push(("cancelled together", !form([2, 4, 0, 0, 3, 0, 9, 6]) && !form([0, 0, 0, 0, 0, 0, 0, -1])));
    tests.push(("at the range's ends", !form([limit, 1, 0, 0, 0, 0, 0, -limit])));
    let with = |k: usize, n| form(from_fn(|place| if place == k { n } else { 1 }));
    tests.push(("out of range", (0..8).all(|k| with(k, limit + 1) && with(k, -limit - 1))));
    let held = |x, y, turn| refused([0, 1, 1, 0, 0, 0, 0, 1, x, y, turn]);
    let no_digits = [4, 16, 255, 256, -2, i64::MIN as i128, i64::MAX as i128];
    tests.push(("no digit is held", no_digits.iter().all(|&n| held(n, 0, 0) && held(0, n, 0) && held(n, -1, 1))));
    tests.push(("a digit is held", (-1..4).all(|x| (-1..4).all(|y| !held(x, y, 0) && !held(x, y, 1)))));
    tests.push(("no one's turn", [2, -1, 256, i64::MIN as i128].iter().all(|&turn| held(-1, -1, turn))));
}

/// "A run judges its input system (3, 6 to 10), its output system, then the state (12), before any step."
fn order_of_judging(tests: &mut Tests) {
    let zeros = [0; 11];
    let number = |input: &Columns, output: &Columns, state| answer(&[input.clone(), output.clone()], &state, [&[0], &[0]], 1).end;
    let [good, gap, still] = [by_column(&R), by_column(&R[..3]), by_column(&IDENTITIES)];
    tests.push(("the input system is told first", (number(&gap, &still, zeros), number(&still, &gap, zeros)) == (10, 18)));
    tests.push(("then the output system", (number(&good, &still, zeros), number(&good, &gap, zeros)) == (18, 10)));
    tests.push(("then the state", number(&good, &good, zeros) == 12));
    let counted = |count| Columns { count, ..good.clone() };
    let refused = |n| number(&counted(n), &gap, zeros) == 3 && number(&good, &counted(n), zeros) == 3;
    tests.push(("a count that is none", [0, 17, 256, 260, 1 << 63].into_iter().all(refused)));
    let mut untidy = good.clone();
    untidy.runs.iter_mut().for_each(|run| run[4..].fill(-32768));
    let runs = |system: &Columns| answer(&[system.clone(), system.clone()], &start(b'*'), [&[0, 1, 0], &[1, 0, 0]], 9);
    tests.push(("no answer depends on digits that a system hasn't got", runs(&untidy) == runs(&good)));
}

/// What is printed for a case, and its bytes.
fn lines(tests: &mut Tests) {
    let systems = [by_column(&D), by_column(&D)];
    let words = [vec![2, 1, 1], vec![2, 0, 2]];
    let case = PairCase { operation: b'+', state: start(b'+'), names: [b'D'; 2], systems, words, rooms: [1, 2], cuts: [2, 3] };
    let text = "0 2 2 0 | 0 1 2 4 0 0 0 4 -1 0 1 | 238\n0 1 1 2 | 0 1 2 0 0 0 0 2 -1 2 1 | 2 2 238\n0 3 3 2 | 0 1 2 0 0 0 0 2 -1 2 1 | 2 2 238\n";
    tests.push(("1/2 + 1/3 in two calls, printed", printed(&case) == text));
    let bytes = [43, 68, 68, 3, 0, 2, 1, 1, 3, 0, 2, 0, 2, 1, 0, 2, 0, 2, 0, 3, 0];
    tests.push(("and its bytes", layout(&case) == bytes && read(&bytes) == Some(case.clone())));
    let empty = PairCase { words: [vec![], vec![]], rooms: [0, 0], cuts: [0, 0], ..case.clone() };
    tests.push(("nothing at all, printed", printed(&empty) == "0 0 0 0 | 0 1 1 0 0 0 0 1 -1 -1 0 |\n".repeat(3)));
    let refused = PairCase { operation: b's', state: [-2, 0, 0, 0, 0, 0, 0, 4, 9, -1, 0], names: [b'S', b'R'], systems: [by_column(&D), by_column(&R)], ..case };
    let [first, third] = ["238", "238 238 238"].map(|bytes| format!("12 0 0 0 | -2 0 0 0 0 0 0 4 9 -1 0 | {bytes}\n"));
    tests.push(("a refusal, printed", printed(&refused) == first + &third + &third));
    let bytes = layout(&refused);
    // The operation, the state; the name and the count of D, then its numbers 1 1 1 2, and twelve places without a digit.
    let d = [83, 4, 0, 0, 0, 0, 0, 0, 0, 1, 0, 1, 0, 1, 0, 2, 0, 0, 0];
    let begins = bytes[..9] == [115, 254, 255, 255, 255, 255, 255, 255, 255] && bytes[89..108] == d && bytes[89 + 9 + 32..][..4] == [255, 255, 0, 0];
    tests.push(("and its bytes, by columns", begins && bytes.len() == 1 + 88 + 265 + 1 + 18 && read(&bytes) == Some(refused)));
}
