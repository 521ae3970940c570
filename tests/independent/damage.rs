//! Damage to job files. Most of it breaks a rule of document 01, and some of it only comes close.

use crate::chance::Chance;
use crate::draw_systems::{any_row, expanding_row, positive_matrix};
use crate::expanding::expands;
use crate::plane::gcd;
use crate::reading::{judge_system, Job};
use crate::systems::{f, w, Row};
use crate::unexpanding::stop_growth;

// Damage to a file's bytes.

pub fn cut(chance: &mut Chance, _: &Job, file: &mut Vec<u8>) {
    let length = chance.below(file.len());
    file.truncate(length);
}

pub fn append(chance: &mut Chance, job: &Job, file: &mut Vec<u8>) {
    // Now and then after the largest word there can be.
    if chance.once_in(5) {
        file.truncate(file.len() - job.word.len() - 2);
        file.extend([0, 16]);
        file.extend([0; 4096]);
    }
    for _ in 0..chance.pick(&[1, 1, 2, 3, 16, 5000]) {
        file.push(chance.pick(&[0, 0, 1, 255]));
    }
}

/// One of the four counts is another one; what is counted stays.
pub fn change_count(chance: &mut Chance, job: &Job, file: &mut Vec<u8>) {
    let (input, output, word) = (job.input.len(), job.output.len(), job.word.len());
    let (second, third) = (2 + 16 * input, 4 + 16 * (input + output));
    let (place, count) = match chance.below(4) {
        0 => (0, chance.pick(&[0, 1, input - 1, input + 1, 15, 16, 17, 255, 256, 256 + input, 65535])),
        1 => (second, chance.pick(&[0, 1, output - 1, output + 1, 15, 16, 17, 255, 256, 256 + output, 65535])),
        2 => (third, chance.pick(&[0, 1, 3, 5, 8, 255, 260, 1024, 65535])),
        _ => (third + 10, chance.pick(&[0, word.saturating_sub(1), word + 1, 4095, 4096, 4097, 8192, 65535])),
    };
    file[place..place + 2].copy_from_slice(&(count as u16).to_le_bytes());
}

/// One to three bytes are others; or no byte is kept.
pub fn change_bytes(chance: &mut Chance, _: &Job, file: &mut Vec<u8>) {
    if chance.once_in(4) {
        let length = chance.below(200);
        *file = (0..length).map(|_| chance.pick(&[0, 1, 2, 4, 255, 100])).collect();
        return;
    }
    for _ in 0..1 + chance.below(3) {
        let place = chance.below(file.len());
        file[place] = chance.below(256) as u8;
    }
}

// Damage to a job's contents.

fn some_system<'a>(chance: &mut Chance, job: &'a mut Job) -> &'a mut Vec<Row> {
    if chance.once_in(2) { &mut job.input } else { &mut job.output }
}

/// A system of 15 to 18 digits, or a word of 4095 to 4097, with all that is counted there.
pub fn fill_to_limit(chance: &mut Chance, job: &mut Job) {
    if chance.once_in(4) {
        job.word = vec![chance.below(4) as u8; chance.pick(&[4095, 4096, 4097])];
        return;
    }
    let count = chance.pick(&[15, 16, 16, 17, 17, 18]);
    let rows = some_system(chance, job);
    while rows.len() < count {
        let row = if chance.once_in(2) { chance.pick(rows) } else { expanding_row(chance) };
        rows.push(row);
    }
}

pub fn set_any_to_limit(chance: &mut Chance, job: &mut Job) {
    let which = chance.below(8 * (job.input.len() + job.output.len()) + 4);
    set_to_limit(chance, job, which);
}

/// A number of the two systems or the matrix, counted through in file order, becomes one at a limit, or its negative.
pub fn set_to_limit(chance: &mut Chance, job: &mut Job, which: usize) {
    let rows = job.input.iter_mut().chain(job.output.iter_mut()).flatten();
    let mut numbers: Vec<&mut i128> = rows.chain(job.matrix.iter_mut()).collect();
    let count = numbers.len();
    let number = &mut numbers[which % count];
    let limit = if which % count < count - 4 { 100 } else { 1000 };
    let others = [limit, limit, limit + 1, limit + 1, 0, 1, **number, 256, 32767, 32768];
    **number = chance.pick(&others) * chance.pick(&[1, -1]);
}

pub fn break_row(chance: &mut Chance, job: &mut Job) {
    let rows = some_system(chance, job);
    break_a_row(chance, rows);
}

/// Rows of F and ends of W changed over in one row: both determinants have the wrong sign, and 7 is told.
pub fn break_both_determinants(chance: &mut Chance, job: &mut Job) {
    let rows = some_system(chance, job);
    let place = chance.below(rows.len());
    rows[place][..4].rotate_left(2);
    rows[place][4..].rotate_left(2);
}

/// One row, or two of one system, breaks a rule for rows; perhaps two rules.
pub fn break_a_row(chance: &mut Chance, rows: &mut Vec<Row>) {
    for _ in 0..1 + chance.below(2) {
        let place = chance.below(rows.len());
        for _ in 0..1 + chance.below(2) {
            break_rule(chance, &mut rows[place]);
        }
    }
}

fn break_rule(chance: &mut Chance, row: &mut Row) {
    let factor = chance.pick(&[2, 3, -1, 5]);
    match chance.below(12) {
        // det F is 0, or below 0.
        0 => row.copy_within(0..2, 2),
        1 => row[..4].rotate_left(2),
        2 => row[chance.below(2)] *= -1,
        // det W is 0, or above 0.
        3 => row.copy_within(4..6, 6),
        4 => row[4..].rotate_left(2),
        5 => row[4 + 2 * chance.below(2)..][..2].fill(0),
        // F or an end is not in lowest terms, or turned round.
        6 => row[..4].iter_mut().for_each(|n| *n *= factor),
        7 => row[4..6].iter_mut().for_each(|n| *n *= factor),
        8 | 9 => row[6..].iter_mut().for_each(|n| *n *= factor),
        _ => row[chance.below(8)] = chance.pick(&[101, -101, 200]),
    }
}

pub fn break_cover(chance: &mut Chance, job: &mut Job) {
    let rows = some_system(chance, job);
    open_gap(chance, rows);
}

/// A digit goes, or an interval becomes a little shorter; or the rows are any rows.
pub fn open_gap(chance: &mut Chance, rows: &mut Vec<Row>) {
    let place = chance.below(rows.len());
    match chance.below(6) {
        0 | 1 => drop(rows.remove(place)),
        2 | 3 => move_end(chance, &mut rows[place], 1),
        4 => rows.truncate(1 + chance.below(2)),
        _ => *rows = (0..1 + chance.below(16)).map(|_| any_row(chance)).collect(),
    }
}

/// An end moves towards the other one (1) or away from it (−1): the more steps, the less.
pub fn move_end(chance: &mut Chance, row: &mut Row, towards: i128) {
    let ends = [w(row).left, w(row).right];
    let which = chance.below(2);
    let steps = chance.pick(&[1, 1, 2, 5, 20, 60]);
    let [moved, other] = [ends[which], ends[1 - which]];
    let end = [steps * moved[0] + towards * other[0], steps * moved[1] + towards * other[1]];
    let end = end.map(|n| n / gcd(&end).max(1));
    if end.iter().all(|n| n.abs() <= 100) {
        row[4 + 2 * which..][..2].copy_from_slice(&end);
    }
}

/// A row of one system does not expand. Perhaps something else is broken besides: in the same system a gap (10) or a row that is no digit (6 to 9) is
/// told first; and where both systems are broken, the input system's number is told.
pub fn break_growth(chance: &mut Chance, job: &mut Job) {
    let (rows, others) = if chance.once_in(2) { (&mut job.input, &mut job.output) } else { (&mut job.output, &mut job.input) };
    stop_growth(chance, rows);
    match chance.below(10) {
        0 | 1 => open_gap_besides(chance, rows),
        2 => break_a_row(chance, rows),
        3 => stop_growth(chance, others),
        4 => open_gap(chance, others),
        5 => break_a_row(chance, others),
        _ => (),
    }
}

/// A gap in a system that has a row that does not expand, and keeps one.
fn open_gap_besides(chance: &mut Chance, rows: &mut Vec<Row>) {
    for _ in 0..20 {
        let mut with_gap = rows.clone();
        open_gap(chance, &mut with_gap);
        if judge_system(&with_gap) == Err(10) && with_gap.iter().any(|row| !expands(f(row), w(row))) {
            *rows = with_gap;
            return;
        }
    }
}

/// Determinant 0 or below 0, and perhaps an entry out of range.
pub fn break_matrix(chance: &mut Chance, job: &mut Job) {
    let [a, b, c, d] = positive_matrix(chance, 1000);
    job.matrix = chance.pick(&[[c, d, a, b], [-a, -b, c, d], [a, b, a, b], [a, 0, c, 0], [0, 0, 0, 0], [a, b, -a, -b]]);
    if chance.once_in(3) {
        job.matrix[chance.below(4)] = chance.pick(&[1000, 1001, -1000, -1001, 2000, 32767, -32768]);
    }
}
