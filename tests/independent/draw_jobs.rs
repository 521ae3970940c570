//! Job files by chance: kinds of case with their shares. A case depends on the seed and its number alone.

use crate::chance::Chance;
use crate::damage;
use crate::draw_full::full_output;
use crate::draw_list::places;
use crate::draw_stretching::{decimal, stretching, SCALING};
use crate::draw_systems::*;
use crate::kinds::{kind_of, Kind};
use crate::plane::{determinant, product, Matrix};
use crate::reading::Job;
use crate::symmetry::{symmetric, symmetric_or_built_in, too_short_or_long};
use crate::systems::{Row, B, D, R};

pub const KINDS: [Kind<Vec<u8>>; 23] = [
    (5, "built-in systems, a word that names a fraction", |c, _| with_systems(c, built_in, built_in, word_of_fraction)),
    (4, "built-in systems, digits by chance", |c, _| with_systems(c, built_in, built_in, digits_by_chance)),
    (3, "built-in systems in other coordinates", |c, _| with_systems(c, changed, any_system, some_word)),
    (4, "covers between points by chance", |c, _| with_systems(c, any_system, cover, some_word)),
    (2, "B's transformations with other intervals, by symmetry", |c, _| with_systems(c, symmetric, symmetric_or_built_in, some_word)),
    (3, "digits in another order, twice, not needed", |c, _| with_systems(c, decorated, decorated, some_word)),
    (2, "digits that stretch, entries near the range's ends", |c, _| with_systems(c, stretching, stretching_or_other, digits_by_chance)),
    (2, "powers of ten, entries at the range's ends", |c, _| powers_of_ten(c)),
    (1, "long words", |c, _| long_word(c)),
    (2, "outputs that just fit, or do not", full_output),
    (1, "damaged: the document's job, cut at every length", |_, turn| layout(&documents_job())[..turn % 148].to_vec()),
    (1, "damaged: a job cut somewhere", |c, _| damaged_file(c, damage::cut)),
    (1, "damaged: bytes follow", |c, _| damaged_file(c, damage::append)),
    (2, "damaged: another count", |c, _| damaged_file(c, damage::change_count)),
    (1, "counts at their limits, with all that is counted", |c, _| damaged_job(c, damage::fill_to_limit)),
    (2, "damaged: each number of a job in turn, at a limit", number_in_turn),
    (3, "damaged: a row", |c, turn| damaged_job(c, if turn % 6 == 0 { damage::break_both_determinants } else { damage::break_row })),
    (2, "damaged: a cover", |c, _| damaged_job(c, damage::break_cover)),
    (4, "damaged: a row that does not expand", |c, _| damaged_job(c, damage::break_growth)),
    (1, "damaged: intervals by symmetry that are too short or too long", |c, _| off_symmetric(c)),
    (1, "damaged: the matrix", |c, _| damaged_job(c, damage::break_matrix)),
    (2, "damaged: several things at once", |c, _| damaged_often(c)),
    (1, "damaged: bytes by chance", |c, _| damaged_file(c, damage::change_bytes)),
];

/// The job file of a case, and how many places its list has.
pub fn case(seed: u64, number: u64) -> (Vec<u8>, usize) {
    let (kind, turn) = kind_of(&KINDS, number);
    let mut chance = Chance::of_case(seed, number);
    let file = kind.2(&mut chance, turn);
    let places = places(&mut chance, turn, &file);
    (file, places)
}

/// "Input R, output R, matrix 2 1 1 2, word 0 0 1 (147 bytes)."
pub fn documents_job() -> Job {
    Job { input: R.to_vec(), output: R.to_vec(), matrix: [2, 1, 1, 2], word: vec![0, 0, 1] }
}

/// The bytes of a job, as "Job file" lays them out.
pub fn layout(job: &Job) -> Vec<u8> {
    let mut file = Vec::new();
    for rows in [&job.input, &job.output] {
        push_number(&mut file, rows.len() as i128);
        rows.iter().flatten().for_each(|&n| push_number(&mut file, n));
    }
    push_number(&mut file, 4);
    job.matrix.iter().for_each(|&n| push_number(&mut file, n));
    push_number(&mut file, job.word.len() as i128);
    file.extend(&job.word);
    file
}

fn push_number(file: &mut Vec<u8>, n: i128) {
    file.extend((n as u16).to_le_bytes());
}

type System = fn(&mut Chance) -> Vec<Row>;
type Word = fn(&mut Chance, &[Row], usize) -> Vec<u8>;

fn with_systems(chance: &mut Chance, input: System, output: System, word: Word) -> Vec<u8> {
    let (input, output, matrix) = (input(chance), output(chance), matrix(chance));
    let length = match chance.below(12) {
        0 => chance.below(2),
        1 => chance.below(1000),
        2..=4 => chance.below(12),
        _ => chance.below(80),
    };
    let mut word = word(chance, &input, length);
    if chance.once_in(8) && length > 0 {
        let (place, count) = (chance.below(length), input.len() as u8);
        word[place] = chance.pick(&[count, count + 1, 16, 128, 255]);
    }
    layout(&Job { input, output, matrix, word })
}

pub fn any_system(chance: &mut Chance) -> Vec<Row> {
    chance.pick::<System>(&[built_in, changed, cover, decorated, power_of_r])(chance)
}

fn stretching_or_other(chance: &mut Chance) -> Vec<Row> {
    chance.pick::<System>(&[stretching, stretching, built_in])(chance)
}

fn some_word(chance: &mut Chance, rows: &[Row], length: usize) -> Vec<u8> {
    chance.pick::<Word>(&[word_of_fraction, word_of_fraction, digits_by_chance])(chance, rows, length)
}

/// Digits of the whole system or of a small part of it.
pub fn digits_by_chance(chance: &mut Chance, rows: &[Row], length: usize) -> Vec<u8> {
    let part = if chance.once_in(3) { 1 + chance.below(rows.len()) } else { rows.len() };
    let first = chance.below(rows.len());
    (0..length).map(|_| ((first + chance.below(part)) % rows.len()) as u8).collect()
}

fn long_word(chance: &mut Chance) -> Vec<u8> {
    let (input, output) = (any_system(chance), any_system(chance));
    let length = chance.pick(&[1000, 2000, 3000, 4000, 4096]) - chance.below(3);
    let word = some_word(chance, &input, length);
    layout(&Job { input, output, matrix: matrix(chance), word })
}

/// Most digits of the word multiply, or most divide; a 1 beside the powers of ten leaves nothing to cancel.
fn powers_of_ten(chance: &mut Chance) -> Vec<u8> {
    let (input, output) = (decimal(chance), chance.pick::<System>(&[decimal, built_in])(chance));
    let [a, d] = [0; 2].map(|_| chance.pick(&[1, 1, 10, 100, 1000]));
    let (half, first) = (SCALING / 2, chance.pick(&[0, SCALING / 2]));
    let beside = chance.pick(&[0, 0, 1, -1]);
    let matrix = if first == 0 { [a, beside, 0, d] } else { [a, 0, beside, d] };
    let length = chance.below(30);
    let mut digit = || if chance.once_in(8) { chance.below(input.len()) } else { first + chance.below(half) } as u8;
    let word = (0..length).map(|_| digit()).collect();
    layout(&Job { input, output, matrix, word })
}

/// Matrices with determinant above 0 and entries in −1000..1000: tiny and huge ones, with determinant 1 or a large one, cancelled or not.
pub fn matrix(chance: &mut Chance) -> Matrix {
    let factor = chance.pick(&[2, 6, 97, 300]);
    match chance.below(8) {
        0 => [1, 0, 0, 1],
        1 => positive_matrix(chance, 3),
        2 => positive_matrix(chance, 1000),
        3 => unimodular(chance, 12),
        4 => huge_unimodular(chance),
        5 => positive_matrix(chance, 1000 / factor).map(|n| n * factor),
        6 => limit_matrix(chance),
        _ => [chance.between(1, 1000), chance.between(-1000, 1000), 0, chance.between(1, 1000)],
    }
}

/// A product of simplest matrices that grows as long as it can.
fn huge_unimodular(chance: &mut Chance) -> Matrix {
    let mut m = chance.pick(&[[1, 0, 0, 1], [-1, 0, 0, -1], [0, 1, -1, 0]]);
    loop {
        let longer = product(m, chance.pick(&[[1, 1, 0, 1], [1, 0, 1, 1]]));
        if longer.iter().any(|n| n.abs() > 1000) {
            return m;
        }
        m = longer;
    }
}

fn limit_matrix(chance: &mut Chance) -> Matrix {
    loop {
        let m: Matrix = [0; 4].map(|_| chance.pick(&[-1000, -999, -500, -1, 0, 0, 1, 500, 999, 1000]));
        if determinant(m) > 0 {
            return m;
        }
    }
}

/// The input system or the output system, or both.
fn off_symmetric(chance: &mut Chance) -> Vec<u8> {
    let [input, output] = chance.pick::<[System; 2]>(&[[too_short_or_long, built_in], [symmetric, too_short_or_long], [too_short_or_long, too_short_or_long]]);
    with_systems(chance, input, output, digits_by_chance)
}

/// A whole job to be damaged.
fn whole_job(chance: &mut Chance) -> Job {
    let (input, output) = (any_system(chance), any_system(chance));
    let length = chance.below(10);
    let word = some_word(chance, &input, length);
    Job { input, output, matrix: matrix(chance), word }
}

fn damaged_job(chance: &mut Chance, damage: fn(&mut Chance, &mut Job)) -> Vec<u8> {
    let mut job = whole_job(chance);
    damage(chance, &mut job);
    layout(&job)
}

fn damaged_file(chance: &mut Chance, damage: fn(&mut Chance, &Job, &mut Vec<u8>)) -> Vec<u8> {
    let job = whole_job(chance);
    let mut file = layout(&job);
    damage(chance, &job, &mut file);
    file
}

/// Each number of a job from B to D in turn, set to a value at a limit.
fn number_in_turn(chance: &mut Chance, turn: usize) -> Vec<u8> {
    let mut job = Job { input: B.to_vec(), output: D.to_vec(), ..documents_job() };
    damage::set_to_limit(chance, &mut job, turn);
    layout(&job)
}

/// Two or three damages: which one is told shows the order of judging.
fn damaged_often(chance: &mut Chance) -> Vec<u8> {
    let mut job = whole_job(chance);
    for _ in 0..2 {
        let of_rows = [damage::set_any_to_limit, damage::break_row, damage::break_cover, damage::break_growth];
        let damage = if chance.once_in(5) { damage::break_matrix } else { chance.pick::<fn(&mut Chance, &mut Job)>(&of_rows) };
        damage(chance, &mut job);
    }
    let mut file = layout(&job);
    if chance.once_in(2) {
        let damage = chance.pick::<fn(&mut Chance, &Job, &mut Vec<u8>)>(&[damage::cut, damage::append, damage::change_count]);
        damage(chance, &job, &mut file);
    }
    file
}
