//! Cases of writing (T-01) by chance: kinds of case with their shares. A case depends on the seed and its number alone.

use std::array::from_fn;

use crate::case_bytes::name_of;
use crate::chance::Chance;
use crate::columns::{by_column, Columns};
use crate::damage::{break_a_row, open_gap};
use crate::damage_writing::{broken_count, broken_matrix, broken_number, broken_system, broken_together, too_long_word};
use crate::draw_jobs::{any_system, digits_by_chance, matrix};
use crate::draw_pairs::{fill_unused, System};
use crate::draw_systems::{built_in, expanding_row, positive_matrix};
use crate::kinds::{kind_of, Kind};
use crate::plane::{determinant, Matrix};
use crate::reading::Job;
use crate::systems::Row;
use crate::unexpanding::stop_growth;
use crate::writing::{contents_of, length, starts, Contents};
use crate::writing_cases::{WritingCase, MOST};

pub const KINDS: [Kind<WritingCase>; 14] = [
    (6, "built-in systems", |c, turn| plain(c, turn, built_in)),
    (9, "drawn systems", |c, turn| plain(c, turn, any_system)),
    (2, "systems of sixteen digits", |c, turn| plain(c, turn, sixteen)),
    (3, "words of any bytes", word_of_any_bytes),
    (3, "matrices with an entry at a limit", matrix_at_limit),
    (2, "long words", long_word),
    (4, "damaged: a count", broken_count),
    (3, "damaged: each number of a job in turn, at a limit", broken_number),
    (3, "damaged: a row", |c, turn| broken_system(c, turn, break_a_row)),
    (2, "damaged: a cover", |c, turn| broken_system(c, turn, open_gap)),
    (2, "damaged: a row that does not expand", |c, turn| broken_system(c, turn, stop_growth)),
    (4, "damaged: the matrix", broken_matrix),
    (2, "damaged: a word that is too long", too_long_word),
    (5, "damaged: several things at once, of which a buffer that is too short may be one", broken_together),
];

pub fn case(seed: u64, number: u64) -> WritingCase {
    let (kind, turn) = kind_of(&KINDS, number);
    kind.2(&mut Chance::of_case(seed, number), turn)
}

fn plain(chance: &mut Chance, turn: usize, sort: System) -> WritingCase {
    let job = job_of(chance, sort);
    with_buffer(chance, &job, turn)
}

/// Mostly with a short word: each byte of a file is printed.
pub fn job_of(chance: &mut Chance, sort: System) -> Job {
    let (input, output) = (sort(chance), sort(chance));
    let length = match chance.below(10) {
        0 => chance.below(2),
        1 => chance.below(300),
        _ => chance.below(30),
    };
    let word = digits_by_chance(chance, &input, length);
    Job { input, output, matrix: matrix(chance), word }
}

/// The job as it is handed over, and a buffer.
pub fn with_buffer(chance: &mut Chance, job: &Job, turn: usize) -> WritingCase {
    let mut case = handed_over(chance, job);
    case.room = buffer_for(chance, &case.contents, turn);
    case
}

/// The job as it is handed over, and no buffer.
pub fn handed_over(chance: &mut Chance, job: &Job) -> WritingCase {
    let [input, output] = [&job.input, &job.output].map(|rows| system_of(chance, rows));
    WritingCase { names: [input.0, output.0], contents: Contents { systems: [input.1, output.1], ..contents_of(job) }, room: 0 }
}

/// A system by its name, if it has one, or with its numbers, and then mostly with any numbers at the places that it does not use.
pub fn system_of(chance: &mut Chance, rows: &[Row]) -> (u8, Columns) {
    let mut system = by_column(rows);
    if let (Some(name), true) = (name_of(&system), chance.once_in(2)) {
        return (name, system);
    }
    // A system that is handed over has no others than 16-bit numbers.
    system.runs.as_flattened_mut().iter_mut().for_each(|n| *n = *n as i16 as i128);
    if !chance.once_in(6) {
        fill_unused(chance, &mut system);
    }
    (b'S', system)
}

/// How long the buffer is goes by turns, of which there are so many.
pub const BUFFERS: usize = 12;

/// Just long enough for the file, one byte longer or more, one byte too short, about as long as its first sections, nothing or nearly so, or anything
/// shorter. For contents that are refused, the file is what it would be.
pub fn buffer_for(chance: &mut Chance, contents: &Contents, turn: usize) -> usize {
    let (needed, border) = (length(contents), 2 * chance.pick(&starts(contents)[1..]));
    let room = match turn % BUFFERS {
        0 | 4 | 8 => needed,
        1 | 7 => needed + 1,
        3 | 9 => needed + 2 + chance.below(40),
        2 | 10 => needed - 1,
        5 => border + chance.below(3) - 1,
        6 => chance.pick(&[0, 0, 1, 2, 3]),
        _ => chance.below(needed),
    };
    room.min(MOST)
}

/// An admitted system with no place unused.
fn sixteen(chance: &mut Chance) -> Vec<Row> {
    let mut rows = any_system(chance);
    while rows.len() < 16 {
        rows.push(expanding_row(chance));
    }
    rows
}

/// "The word's bytes are not tested."
fn word_of_any_bytes(chance: &mut Chance, turn: usize) -> WritingCase {
    let mut job = job_of(chance, any_system);
    job.word.push(0);
    job.word.iter_mut().for_each(|byte| *byte = chance.below(256) as u8);
    with_buffer(chance, &job, turn)
}

/// Each entry in turn.
fn matrix_at_limit(chance: &mut Chance, turn: usize) -> WritingCase {
    let limit = [1000, -1000][turn / 4 % 2];
    let job = Job { matrix: with_entry(chance, turn % 4, limit), ..job_of(chance, built_in) };
    let room = chance.below(BUFFERS);
    with_buffer(chance, &job, room)
}

fn with_entry(chance: &mut Chance, place: usize, entry: i128) -> Matrix {
    loop {
        let others = positive_matrix(chance, 1000);
        let matrix = from_fn(|n| if n == place { entry } else { others[n] });
        if determinant(matrix) > 0 {
            return matrix;
        }
    }
}

/// At the limits of one byte and of all, and anything between them; now and then the largest file there is.
fn long_word(chance: &mut Chance, turn: usize) -> WritingCase {
    let anything = chance.below(4097);
    let length = [4096, 255, 256, 4095, 257, anything, 512, anything][turn % 8];
    let mut job = job_of(chance, if turn % 16 == 0 { sixteen } else { any_system });
    job.word = digits_by_chance(chance, &job.input, length);
    let room = chance.below(5);
    with_buffer(chance, &job, room)
}
