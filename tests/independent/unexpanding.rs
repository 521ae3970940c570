//! Systems that are refused by 18 alone: every row is a digit, every point is covered, and some row does not expand.

use crate::chance::Chance;
use crate::damage::move_end;
use crate::draw_stretching::stretching_matrix;
use crate::draw_systems::{any_cover, any_row, in_any_coordinates, judged, point, positive_matrix};
use crate::plane::cancel;
use crate::reading::judge_system;
use crate::systems::{Row, R};

/// The two digits of document 01's last run: "both F = 1 0 0 1, with intervals (0, infinity) and (infinity, 0)".
pub const IDENTITIES: [Row; 2] = [[1, 0, 0, 1, 0, 1, 1, 0], [1, 0, 0, 1, 1, 0, 0, -1]];

/// "Document 004's plain binary system, with 2x on (1, −1)."
pub const PLAIN_BINARY: [Row; 3] = [[1, -1, 0, 2, -1, 1, 0, 1], [1, 1, 0, 2, 0, 1, 1, 1], [2, 0, 0, 1, 1, 1, 1, -1]];

/// Changes an admitted system into one that is refused by 18 alone. One that is refused already may get a row that does not expand besides.
pub fn stop_growth(chance: &mut Chance, rows: &mut Vec<Row>) {
    if chance.once_in(4) {
        *rows = unexpanding_system(chance);
        return;
    }
    let before = rows.clone();
    for _ in 0..50 {
        *rows = before.clone();
        let place = chance.below(rows.len());
        match chance.below(7) {
            // Perhaps over the border of the set where the digit expands.
            0 | 1 => move_end(chance, &mut rows[place], -1),
            2 | 3 => grow_at_ends_only(chance, rows, place),
            4 => grow_nowhere(chance, &mut rows[place]),
            5 => rows[place][..4].copy_from_slice(&cancel(positive_matrix(chance, 10))),
            _ => put_in(chance, rows, any_row),
        }
        if judge_system(rows) == Err(18) {
            return;
        }
    }
}

/// Sorts of systems of which most do not expand.
fn unexpanding_system(chance: &mut Chance) -> Vec<Row> {
    match chance.below(5) {
        0 => IDENTITIES.to_vec(),
        1 => PLAIN_BINARY.to_vec(),
        2 => judged(chance, Err(18), in_any_coordinates),
        3 => judged(chance, Err(18), any_cover),
        _ => judged(chance, Err(18), stretching_everywhere),
    }
}

/// R's intervals or those of IDENTITIES, with digits that stretch and shrink wherever they stand.
fn stretching_everywhere(chance: &mut Chance) -> Vec<Row> {
    let mut rows = chance.pick(&[IDENTITIES.to_vec(), R.to_vec()]);
    for row in rows.iter_mut() {
        row[..4].copy_from_slice(&stretching_matrix(chance));
    }
    rows
}

/// Another row with that digit's F, whose interval goes from the right end on to the left end: at both ends the digit does not shrink, and between
/// them it does.
fn grow_at_ends_only(chance: &mut Chance, rows: &mut Vec<Row>, place: usize) {
    let [a, b, c, d, x0, x1, y0, y1] = rows[place];
    put_in(chance, rows, |_| [a, b, c, d, y0, y1, -x0, -x1]);
}

/// F is a turn of the circle: at every point the two numbers that are compared are the same.
fn grow_nowhere(chance: &mut Chance, row: &mut Row) {
    let [a, b] = if chance.once_in(2) { [1, 0] } else { point(chance, 9) };
    row[..4].copy_from_slice(&cancel([a, -b, b, a]));
}

/// A row more, at any place; in a full system it takes a row's place.
fn put_in(chance: &mut Chance, rows: &mut Vec<Row>, drawn: impl Fn(&mut Chance) -> Row) {
    let row = drawn(chance);
    if rows.len() == 16 {
        let place = chance.below(16);
        rows[place] = row;
    } else {
        rows.insert(chance.below(rows.len() + 1), row);
    }
}
