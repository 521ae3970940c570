//! Damage to cases of writing (T-01): to the systems, the matrix, the word, or to several things at once.

use crate::chance::Chance;
use crate::damage::{break_a_row, break_matrix, open_gap, set_to_limit};
use crate::draw_jobs::{any_system, documents_job};
use crate::draw_writing::{buffer_for, handed_over, job_of, system_of, with_buffer, BUFFERS};
use crate::plane::Matrix;
use crate::reading::Job;
use crate::systems::{Row, B, D};
use crate::unexpanding::stop_growth;
use crate::writing::length;
use crate::writing_cases::{WritingCase, MOST};

type DamageToRows = fn(&mut Chance, &mut Vec<Row>);

fn whole(chance: &mut Chance) -> WritingCase {
    let job = job_of(chance, any_system);
    handed_over(chance, &job)
}

/// Any buffer, so that 14 meets every other refusal.
fn with_any_buffer(chance: &mut Chance, mut case: WritingCase) -> WritingCase {
    let turn = chance.below(BUFFERS);
    case.room = buffer_for(chance, &case.contents, turn);
    shorten_buffer(chance, &mut case);
    case
}

/// Mostly, where the word is too long: of a long buffer each byte is printed.
fn shorten_buffer(chance: &mut Chance, case: &mut WritingCase) {
    if case.contents.word.len() > 4096 && !chance.once_in(6) {
        case.room = case.room.min(chance.below(60));
    }
}

/// Each count in turn, of the input system and then of the output system.
pub fn broken_count(chance: &mut Chance, turn: usize) -> WritingCase {
    let mut case = whole(chance);
    break_count(&mut case, turn / COUNTS % 2, turn);
    with_any_buffer(chance, case)
}

const COUNTS: usize = 15;

/// No count that is allowed, or one whose low bits are what the count was, or one more or fewer than there are digits.
fn break_count(case: &mut WritingCase, which: usize, turn: usize) {
    let count = case.contents.systems[which].count;
    let others: [u64; COUNTS] = [
        0, 17, 256 + count, (1 << 16) + count, (1 << 32) + count, u64::MAX, 18, count + 1,
        255, 65535, 1 << 16, 1 << 32, 1 << 63, (1 << 63) + count, count - 1,
    ];
    case.contents.systems[which].count = others[turn % COUNTS];
    case.names[which] = b'S';
}

pub fn broken_system(chance: &mut Chance, turn: usize, damage: DamageToRows) -> WritingCase {
    let mut case = whole(chance);
    break_rows(chance, &mut case, turn % 2, damage);
    with_any_buffer(chance, case)
}

fn break_rows(chance: &mut Chance, case: &mut WritingCase, which: usize, damage: DamageToRows) {
    let mut rows = case.contents.systems[which].rows();
    damage(chance, &mut rows);
    (case.names[which], case.contents.systems[which]) = system_of(chance, &rows);
}

/// Each number of a job from B to D in turn, set to a value at a limit.
pub fn broken_number(chance: &mut Chance, turn: usize) -> WritingCase {
    let mut job = Job { input: B.to_vec(), output: D.to_vec(), ..documents_job() };
    set_to_limit(chance, &mut job, turn);
    let room = chance.below(BUFFERS);
    with_buffer(chance, &job, room)
}

pub fn broken_matrix(chance: &mut Chance, turn: usize) -> WritingCase {
    let mut case = whole(chance);
    spoil_matrix(chance, &mut case.contents.matrix, turn);
    with_any_buffer(chance, case)
}

/// An entry out of −1000..1000, or one that is no 16-bit number and has low bits that would do; or the determinant; or both.
fn spoil_matrix(chance: &mut Chance, matrix: &mut Matrix, turn: usize) {
    let place = chance.below(4);
    let sign = chance.pick(&[1, -1]);
    if turn % 4 >= 2 {
        let mut job = documents_job();
        break_matrix(chance, &mut job);
        *matrix = job.matrix;
    }
    match turn % 4 {
        0 => matrix[place] = sign * chance.pick(&[1001, 1001, 1002, 2000, 32767, 32768, 32769, 65535, 65536, 1 << 31, 1 << 32]),
        1 if chance.once_in(3) => matrix[place] = chance.pick(&[i64::MIN, i64::MIN, i64::MAX, i64::MIN + 1]) as i128,
        1 => matrix[place] += sign * chance.pick(&[1 << 16, 1 << 16, 1 << 32, 1 << 48, 1 << 62]),
        2 => matrix[place] = sign * chance.pick(&[1000, 1001, 65536, 1 << 62]),
        _ => (),
    }
}

pub fn too_long_word(chance: &mut Chance, turn: usize) -> WritingCase {
    let mut case = whole(chance);
    lengthen(chance, &mut case, turn);
    with_any_buffer(chance, case)
}

fn lengthen(chance: &mut Chance, case: &mut WritingCase, turn: usize) {
    let anything = 4097 + chance.below(MOST - 4096);
    let length = [4097, 4098, anything, 4096 + 256, 4097, MOST, anything, 4097][turn % 8];
    case.contents.word.resize(length, chance.below(4) as u8);
}

/// Two of the five things that can be refused, each two in turn, and perhaps a third: which one is told shows the order of judging.
pub fn broken_together(chance: &mut Chance, turn: usize) -> WritingCase {
    let pairs: Vec<[usize; 2]> = (0..5).flat_map(|second| (0..second).map(move |first| [first, second])).collect();
    let mut broken = pairs[turn % pairs.len()].to_vec();
    if chance.once_in(3) {
        broken.push(chance.below(5));
    }
    let mut case = whole(chance);
    for part in 0..4 {
        if broken.contains(&part) {
            break_part(chance, &mut case, part);
        }
    }
    let needed = length(&case.contents);
    let shorter = [0, needed - 1, chance.below(needed)];
    case.room = if broken.contains(&4) { chance.pick(&shorter) } else { needed }.min(MOST);
    shorten_buffer(chance, &mut case);
    case
}

/// The input system, the output system, the matrix or the word.
fn break_part(chance: &mut Chance, case: &mut WritingCase, part: usize) {
    let turn = chance.below(8);
    match part {
        0 | 1 if chance.once_in(4) => break_count(case, part, turn),
        0 | 1 => {
            let damage = chance.pick::<DamageToRows>(&[break_a_row, open_gap, stop_growth]);
            break_rows(chance, case, part, damage);
        }
        2 => spoil_matrix(chance, &mut case.contents.matrix, turn),
        _ => lengthen(chance, case, turn),
    }
}
