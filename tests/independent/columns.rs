//! A system "stored by column" (document 02, T-12), as it is handed to the writer (T-01) and to a run with two inputs (T-14): "eight runs of sixteen numbers,
//! first all a, then all b, and so on, unused places 0".

use std::array::from_fn;

use crate::faults::{planted, Fault};
use crate::reading::judge_system;
use crate::systems::Row;

/// A count of digits, which may be any number, and the eight runs: of digit a, what stands at place a of each.
#[derive(Clone, Debug, PartialEq)]
pub struct Columns {
    pub count: u64,
    pub runs: [[i128; 16]; 8],
}

/// At most sixteen rows; what there is no place for is left out.
pub fn by_column(rows: &[Row]) -> Columns {
    let number = |k: usize, a: usize| rows.get(a).map_or(0, |row| row[k]);
    Columns { count: rows.len() as u64, runs: from_fn(|k| from_fn(|a| number(k, a))) }
}

impl Columns {
    /// How many digits there are places for and a count: "no answer depends on" the rest.
    pub fn used(&self) -> usize {
        self.count.min(16) as usize
    }

    pub fn rows(&self) -> Vec<Row> {
        (0..self.used()).map(|a| self.runs.map(|run| run[a])).collect()
    }

    /// "3: a system has 0 or more than 16 digits"; then "row by row 6, 7, 8, 9; then 10", and 18.
    pub fn judge(&self) -> Result<(), u8> {
        let count = if planted(Fault::PairCountsLowByte) { self.count % 256 } else { self.count };
        if count == 0 || count > 16 {
            return Err(3);
        }
        if planted(Fault::PairUnusedJudged) && self.runs.iter().flatten().any(|n| n.abs() > 100) {
            return Err(6);
        }
        judge_system(&self.rows())
    }
}
