//! This implementation held against what document 01 says itself: its examples (P1 to P12 and the other runs), and its own test of inclusion; and
//! against what document 02 says of systems that expand (T-04) and of system B (T-05). What it says of writing (T-01) is in writing_test.rs, of divisors
//! (T-02) in list_test.rs, and of runs with two inputs (T-14) in pair_test.rs and pair_laws.rs.

use crate::draw_full::room_and_range;
use crate::draw_jobs::{documents_job, layout};
use crate::draw_stretching::hundred_of;
use crate::expanding::{expands, growth, rate};
use crate::list_test::lists;
use crate::pair_laws::pair_laws;
use crate::pair_test::pairs;
use crate::plane::{cancel, covered, det, determinant, in_closed, inside, included, send, Interval, Matrix, Point};
use crate::reading::{judge_system, read, Job};
use crate::running::{printed, run};
use crate::symmetry::{from_row_0, negative, quarter, reflected, same_digit, turned, with_interval_0};
use crate::systems::{f, w, Row, B, D, R};
use crate::unexpanding::{IDENTITIES, PLAIN_BINARY};
use crate::writing_test::writings;

pub fn all() {
    let mut tests = Vec::new();
    inclusions(&mut tests);
    runs(&mut tests);
    refusals(&mut tests);
    long_runs(&mut tests);
    full_rooms(&mut tests);
    lists(&mut tests);
    pairs(&mut tests);
    pair_laws(&mut tests);
    writings(&mut tests);
    expanding_systems(&mut tests);
    order_of_18(&mut tests);
    symmetry_of_b(&mut tests);
    tests.push(("inclusion by points is document 01's test", inclusion_both_ways()));
    tests.push(("a system with a gap is not covered", gaps_are_seen()));
    tests.push(("small digits expand exactly if no point inside fails", growth_is_seen()));
    let failed: Vec<_> = tests.iter().filter(|test| !test.1).collect();
    failed.iter().for_each(|test| println!("failed: {}", test.0));
    println!("{} passed, {} failed", tests.len() - failed.len(), failed.len());
    std::process::exit(!failed.is_empty() as i32);
}

pub type Tests = Vec<(&'static str, bool)>;

fn interval(left: Point, right: Point) -> Interval {
    Interval { left, right }
}

fn inclusions(tests: &mut Tests) {
    let above_one = interval([1, 1], [1, 0]);
    let zero_to_three = interval([0, 1], [3, 1]);
    tests.push(("P1", included(above_one, above_one)));
    tests.push(("P2", !included(interval([2, 1], [-1, -1]), zero_to_three)));
    tests.push(("P2, the ends", in_closed(zero_to_three, [2, 1]) && in_closed(zero_to_three, [-1, -1])));
    tests.push(("P3", !included(interval([3, 1], [0, -1]), zero_to_three)));
    tests.push(("(1/0, 1/-1) runs from infinity to -1", inside(interval([1, 0], [1, -1]), [-2, 1]) && !inside(interval([1, 0], [1, -1]), [0, 1])));
}

pub fn job(input: &[Row], output: &[Row], matrix: [i128; 4], word: &[u8]) -> Job {
    Job { input: input.to_vec(), output: output.to_vec(), matrix, word: word.to_vec() }
}

fn prints(job: &Job, text: &str) -> bool {
    printed(&layout(job)) == text
}

fn runs(tests: &mut Tests) {
    tests.push(("P4", prints(&documents_job(), "0 3 3\n2 1 1 2 -\n0 1 1\n") && layout(&documents_job()).len() == 147));
    let (end, cut) = run(&documents_job(), 2);
    tests.push(("P5", (end, cut.taken, cut.written, cut.x, cut.held) == (20, 3, vec![0, 1], [3, 0, 1, 1], Some(1))));
    tests.push(("P6", prints(&job(&B, &B, [1, 0, 0, 1], &[1]), "0 1 1\n1 0 0 1 -\n1\n")));
    tests.push(("P7", prints(&job(&R, &R, [1, 0, 0, 1], &[4]), "21 0 0\n1 0 0 1 -\n\n")));
    tests.push(("P8", prints(&job(&R, &R, [2, 0, 0, 2], &[]), "0 0 0\n1 0 0 1 -\n\n")));
    tests.push(("P12", prints(&job(&R, &R, [2, 1, 1, 2], &[]), "0 0 0\n2 1 1 2 -\n\n")));
    tests.push(("signs stay", cancel([-2, 0, 4, -6]) == [-1, 0, 2, -3]));
}

fn refused(job: &Job, number: u8, section: u8) -> bool {
    read(&layout(job)).is_err_and(|refusal| (refusal.number, refusal.section) == (number, section))
}

fn refusals(tests: &mut Tests) {
    let with_matrix = |m| job(&R, &R, m, &[]);
    tests.push(("P9, det -3", refused(&with_matrix([1, 2, 2, 1]), 11, 2)));
    tests.push(("P9, det 0", refused(&with_matrix([1, 1, 1, 1]), 11, 2)));
    tests.push(("P10, 1000", prints(&with_matrix([1000, 0, 0, 1]), "0 0 0\n1000 0 0 1 -\n\n")));
    tests.push(("P10, 1001", refused(&with_matrix([1001, 0, 0, 1]), 6, 2)));
    tests.push(("P11, input", refused(&job(&R[..3], &R, [1, 0, 0, 1], &[]), 10, 0)));
    tests.push(("P11, output", refused(&job(&R, &R[..3], [1, 0, 0, 1], &[]), 10, 1)));
    let file = layout(&documents_job());
    // Before these lengths the job is in sections 0, 1, 2 and 3.
    let section = |length| [66, 132, 142, 147].iter().position(|&end| length < end).unwrap();
    tests.push(("cut at every length", (0..147).all(|length| printed(&file[..length]) == format!("refused 1 {}\n", section(length)))));
    tests.push(("a byte follows", printed(&[&file[..], &[0]].concat()) == "refused 2 3\n"));
    let largest = job(&[R; 4].concat(), &[D; 4].concat(), [1, 0, 0, 1], &[0; 4096]);
    tests.push(("the largest file", layout(&largest).len() == 4624 && read(&layout(&largest)).is_ok()));
}

fn long_runs(tests: &mut Tests) {
    // "It names 1/3": 2 0 2 0 ..
    let third: Vec<u8> = (0..40).map(|n| if n % 2 == 0 { 2 } else { 0 }).collect();
    tests.push(("D to R, 40 digits", prints(&job(&D, &R, [3, -1, 0, 1], &third), "22 30 0\n3 1 0 536870912 0\n\n")));
    tests.push(("D to R, 29 digits", prints(&job(&D, &R, [3, -1, 0, 1], &third[..29]), "0 29 0\n3 1 0 536870912 -\n\n")));
}

fn full_rooms(tests: &mut Tests) {
    let zeros = |word: &[u8], room| run(&job(&hundred_of(0), &R, [1, 0, 0, 1], word), room);
    tests.push(("a hundred zeros", hundred_of(0) == [&R[..], &[[1, 0, 100, 1, 0, 1, 1, 100]]].concat()));
    let fills = |room: usize| {
        let (end, run) = zeros(&[4], room);
        (end, run.taken, run.x, run.held) == (20, 1, [1, 0, -(room as i128), 1], Some(4)) && run.written == vec![0; room]
    };
    tests.push(("one digit fills a room below a hundred", (0..100).all(fills)));
    let (end, exact) = zeros(&[4], 100);
    tests.push(("and just fills a hundred", (end, exact.taken, exact.x, exact.held) == (0, 1, [1, 0, 0, 1], None) && exact.written == vec![0; 100]));
    let (end, large) = zeros(&[4; 100], 8192);
    tests.push(("82 digits fill 8192", (end, large.taken, large.x, large.held) == (20, 82, [1, 0, -92, 1], Some(4)) && large.written == vec![0; 8192]));
    // The end and the digits written, in the program's room and with one place more.
    let ends = |first| [8192, 8193].map(|room| run(&room_and_range(first), room)).map(|(end, run)| (end, run.written.len()));
    tests.push(("room and range end at the same step", ends(939) == [(20, 8192), (22, 8192)]));
    tests.push(("the range ends first", ends(763) == [(22, 8191), (22, 8191)]));
    tests.push(("the room ends first", ends(904) == [(20, 8192), (20, 8193)]));
}

fn expanding_systems(tests: &mut Tests) {
    let judged_with = |row: Row| judge_system(&[&R[..], &[row]].concat());
    tests.push(("R, B and D pass", [&R[..], &B, &D].iter().all(|rows| judge_system(rows) == Ok(()))));
    tests.push(("so do R and a hundred of one of its digits", (0..4).all(|b| judge_system(&hundred_of(b)) == Ok(()))));
    tests.push(("so do all their digits together", judge_system(&[&R[..], &B, &D].concat()) == Ok(())));
    let last_run = job(&IDENTITIES, &IDENTITIES, [1, 0, 0, 1], &[0]);
    tests.push(("document 01's last run, two digits that change nothing", refused(&last_run, 18, 0) && prints(&last_run, "refused 18 0\n")));
    tests.push(("the same as output system", refused(&job(&R, &IDENTITIES, [1, 0, 0, 1], &[0]), 18, 1)));
    tests.push(("document 004's plain binary system", judge_system(&PLAIN_BINARY) == Err(18)));
    tests.push(("at 5/4 the rate is 82/89", inside(w(&PLAIN_BINARY[2]), [5, 4]) && rate(f(&PLAIN_BINARY[2]), [5, 4]) == (82, 89)));
    // 2x expands exactly where x² > 2, and 100x where x² > 100.
    tests.push(("both ends expand, 0 between them does not", judged_with([2, 0, 0, 1, -2, 1, 2, 1]) == Err(18)));
    tests.push(("the left end does not expand", judged_with([2, 0, 0, 1, 1, 1, 3, -2]) == Err(18)));
    tests.push(("the right end does not expand", judged_with([2, 0, 0, 1, 3, 2, 1, -1]) == Err(18)));
    tests.push(("the ends need not expand", judged_with([100, 0, 0, 1, 10, 1, 10, -1]) == Ok(())));
    tests.push(("nothing expands or shrinks", judged_with([3, -4, 4, 3, 0, 1, 1, 1]) == Err(18)));
}

/// "Refusals: 18, a row not expanding, directly after 10."
fn order_of_18(tests: &mut Tests) {
    let [same, other] = IDENTITIES;
    tests.push(("a gap is told before 18", judge_system(&[same]) == Err(10)));
    tests.push(("a row that is no digit too", judge_system(&[same, other, [1, 0, 0, 0, 0, 1, 1, 0]]) == Err(7)));
    tests.push(("18 of the input system before 10 of the other", refused(&job(&IDENTITIES, &R[..3], [1, 0, 0, 1], &[]), 18, 0)));
    tests.push(("10 of the input system before 18 of the other", refused(&job(&R[..3], &IDENTITIES, [1, 0, 0, 1], &[]), 10, 0)));
    tests.push(("18 before the matrix", refused(&job(&R, &IDENTITIES, [1, 1, 1, 1], &[]), 18, 1)));
}

/// "New colleagues must check 64 numbers to believe system B." Beside the two laws, what document 001 says of it: these are all transformations with
/// determinant 2, norm √6 and trace 3, and the maximal cover has each interval end where the digit neither stretches nor shrinks.
fn symmetry_of_b(tests: &mut Tests) {
    let mut all = small_matrices(2);
    all.retain(|&[a, b, c, d]| (determinant([a, b, c, d]), a * a + b * b + c * c + d * d, a + d) == (2, 6, 3));
    tests.push(("B has all transformations of determinant 2, norm √6 and trace 3", all.len() == 8 && B.iter().all(|row| all.contains(&f(row)))));
    let at_its_ends = |row: &Row| [w(row).left, w(row).right].iter().all(|&z| growth(f(row), z) == 0);
    tests.push(("B's intervals are where its digits expand", B.iter().all(|row| at_its_ends(row) && expands(f(row), w(row)))));
    tests.push(("row 0 makes B", from_row_0(B[0]).iter().zip(&B).all(|(r, s)| same_digit(r, s))));
    tests.push(("B turned is B", (0..8).all(|a| same_digit(&turned(&B[a]), &B[(a + 2) % 8]))));
    tests.push(("B reflected is B", (0..8).all(|a| same_digit(&reflected(&B[a]), &B[7 - a]))));
    tests.push(("at each point of a grid too, turned", (0..8).all(|a| carried(quarter, &B[a], &B[(a + 2) % 8]))));
    tests.push(("and reflected", (0..8).all(|a| carried(negative, &B[a], &B[7 - a]))));
    tests.push(("a run through R gives each digit two on", prints(&job(&B, &B, [1, 1, -1, 1], &[0, 1, 2, 3, 4, 5, 6, 7]), "0 8 8\n1 1 -1 1 -\n2 3 4 5 6 7 0 1\n")));
    tests.push(("other intervals by symmetry are admitted in document 001's bounds", bounds_are_seen()));
}

/// What F sends z to, the map carries to where G sends what z is carried to; and z is inside W exactly if it is carried inside V.
fn carried(map: fn(Point) -> Point, from: &Row, to: &Row) -> bool {
    let grid = (-9..=9).flat_map(|z0| (0..=9).map(move |z1| [z0, z1])).filter(|z| *z != [0, 0]);
    grid.into_iter().all(|z| det(map(send(f(from), z)), send(f(to), map(z))) == 0 && inside(w(from), z) == inside(w(to), map(z)))
}

/// With W_0 from −p to q, in 24ths: the digits cover and expand if 0 ≤ p ≤ 1/3 and √2 − 1 < q ≤ 1. If p or q is larger they still cover and do not
/// expand. If p or q is smaller they leave a gap, unless the other is so large that another digit fills it, as with q = 1.
fn bounds_are_seen() -> bool {
    let all = (-8..=16).flat_map(|p| (1..=40).map(move |q| (p, q))).filter(|(p, q)| p + q > 0);
    all.into_iter().all(|(p, q)| {
        let covers = p >= 0 && (q + 24) * (q + 24) > 2 * 24 * 24;
        let verdict = judge_system(&with_interval_0([p, 24], [q, 24]));
        match (covers, p <= 8 && q <= 24) {
            (true, grows) => verdict == if grows { Ok(()) } else { Err(18) },
            (false, true) => verdict == Err(10) || q == 24,
            (false, false) => true,
        }
    })
}

/// All intervals with ends of numbers up to that size.
fn small_intervals(size: i128) -> Vec<Interval> {
    let numbers = || -size..=size;
    let points: Vec<Point> = numbers().flat_map(|z0| numbers().map(move |z1| [z0, z1])).collect();
    let pairs = points.iter().flat_map(|&x| points.iter().map(move |&y| interval(x, y)));
    pairs.filter(|i| det(i.left, i.right) < 0).collect()
}

/// "For whole-number ends this is: both ends of I are in closed J, and either I and J have one and the same left end and one and the same right end,
/// as points, or some end of J is not in closed I."
fn documents_test(i: Interval, j: Interval) -> bool {
    let same = det(i.left, j.left) == 0 && det(i.right, j.right) == 0;
    in_closed(j, i.left) && in_closed(j, i.right) && (same || !in_closed(i, j.left) || !in_closed(i, j.right))
}

fn inclusion_both_ways() -> bool {
    let all = small_intervals(2);
    all.iter().all(|&i| all.iter().all(|&j| included(i, j) == documents_test(i, j)))
}

/// Two small intervals cover the circle exactly if they cover each point of a grid that is finer than their ends.
fn gaps_are_seen() -> bool {
    let all = small_intervals(2);
    let grid: Vec<Point> = (-9..=9).flat_map(|z0| (0..=9).map(move |z1| [z0, z1])).filter(|z| *z != [0, 0]).collect();
    all.iter().all(|&i| all.iter().all(|&j| covered(&[i, j]) == grid.iter().all(|&z| in_closed(i, z) || in_closed(j, z))))
}

/// All matrices with determinant above 0 and entries of at most that size.
fn small_matrices(size: i128) -> Vec<Matrix> {
    let numbers = || -size..=size;
    let rows = || numbers().flat_map(move |a| numbers().map(move |b| [a, b]));
    let all = rows().flat_map(|[a, b]| rows().map(move |[c, d]| [a, b, c, d]));
    all.filter(|&m| determinant(m) > 0).collect()
}

/// A small digit that is said to expand does so at each point of a grid inside its interval, and one that is said not to fails at some point kx + ly
/// with k and l from 1 to 600. With numbers up to 2 that is far enough. In whole numbers, growth(kx + ly) = k²p + klm + l²q, and p and q are within
/// ±128, m within ±384. With p < 0, l = 1 and k > 384 + 128 it is below 0, and so with q. Otherwise its least value is at k = 2q − m, l = 2p − m
/// (or wherever one likes, if it is 0 everywhere).
fn growth_is_seen() -> bool {
    let intervals = small_intervals(2);
    let grid: Vec<Point> = (-20..=20).flat_map(|z0| (0..=20).map(move |z1| [z0, z1])).filter(|z| *z != [0, 0]).collect();
    small_matrices(2).into_iter().all(|f| {
        intervals.iter().all(|&i| match expands(f, i) {
            true => grid.iter().all(|&z| !inside(i, z) || growth(f, z) > 0),
            false => fails_at(f, i).is_some_and(|z| inside(i, z)),
        })
    })
}

/// A point kx + ly inside (x, y) at which the digit does not expand.
fn fails_at(f: Matrix, Interval { left: x, right: y }: Interval) -> Option<Point> {
    let pairs = (1..=600).flat_map(|k| (1..=k).flat_map(move |l| [(k, l), (l, k)]));
    pairs.map(|(k, l)| [k * x[0] + l * y[0], k * x[1] + l * y[1]]).find(|&z| growth(f, z) <= 0)
}
