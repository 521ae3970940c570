//! Damage to cases of runs with two inputs (T-14): to the state, to the systems, or to several things at once.

use crate::chance::Chance;
use crate::columns::by_column;
use crate::damage;
use crate::draw_states::{handed_in, opened_and_held, plain, reached, LIMIT};
use crate::pair_cases::PairCase;
use crate::reading::Job;

const LEAST: i128 = i64::MIN as i128;
const GREATEST: i128 = i64::MAX as i128;

/// "12 for a state that is all 0, not cancelled, out of range or holds a number that is no digit of the system."
pub fn broken_state(chance: &mut Chance, turn: usize) -> PairCase {
    let mut case = if chance.once_in(2) { reached(chance) } else { opened_and_held(chance) };
    break_state(chance, &mut case, turn);
    case
}

fn break_state(chance: &mut Chance, case: &mut PairCase, turn: usize) {
    let mut state = case.state;
    match turn % 6 {
        0 if chance.once_in(2) => state[..8].fill(0),
        0 | 1 => multiply(chance, &mut state[..8]),
        2 => state[chance.below(8)] = chance.pick(&[LIMIT + 1, LIMIT + 1, -LIMIT - 1, -LIMIT - 1, 1 << 32, GREATEST, LEAST]),
        3 | 4 => break_held(chance, case.systems[0].used(), &mut state[8 + turn % 2]),
        _ => state[10] = chance.pick(&[2, -1, 2, -1, 255, 256, 257, 1 << 32, LEAST, GREATEST]),
    }
    *case = handed_in(case.clone(), state);
}

/// All eight have a divisor; it may be found in the numerator or the denominator alone, if the other one is 0.
fn multiply(chance: &mut Chance, form: &mut [i128]) {
    if chance.once_in(3) {
        form[4 * chance.below(2)..][..4].fill(0);
    }
    let by = chance.pick(&[2, 2, 3, 5, -2, 7, 1 << 20]);
    form.iter_mut().for_each(|n| *n *= by);
}

/// No digit of the system, or a number whose low bytes are one.
fn break_held(chance: &mut Chance, digits: usize, held: &mut i128) {
    let (count, digit) = (digits as i128, chance.below(digits.max(1)) as i128);
    *held = chance.pick(&[count, count, count + 1, 16, 255, 256, 256 + digit, -2, -256, (1 << 32) + digit, LEAST, GREATEST]);
}

fn whole_case(chance: &mut Chance) -> PairCase {
    if chance.once_in(2) { plain(chance) } else { reached(chance) }
}

/// "A system has 0 or more than 16 digits", or one more or fewer than it had.
pub fn broken_count(chance: &mut Chance, turn: usize) -> PairCase {
    let mut case = whole_case(chance);
    break_count(chance, &mut case, turn);
    case
}

fn break_count(chance: &mut Chance, case: &mut PairCase, turn: usize) {
    let which = chance.below(2);
    let count = case.systems[which].count;
    let others = [17, 0, 256 + count, count - 1, 18, 255, (1 << 32) + count, count + 1, 256, 1 << 63, u64::MAX];
    case.systems[which].count = others[turn % others.len()];
    case.names[which] = b'S';
}

pub fn broken_systems(chance: &mut Chance) -> PairCase {
    let mut case = whole_case(chance);
    break_systems(chance, &mut case);
    case
}

/// What damages the systems of a job damages these.
fn break_systems(chance: &mut Chance, case: &mut PairCase) {
    let [input, output] = [0, 1].map(|k: usize| case.systems[k].rows());
    let mut job = Job { input, output, matrix: [1, 0, 0, 1], word: Vec::new() };
    let of_rows = [damage::set_any_to_limit, damage::break_row, damage::break_row, damage::break_both_determinants];
    let of_all = [damage::break_cover, damage::break_growth, damage::fill_to_limit];
    chance.pick::<fn(&mut Chance, &mut Job)>(&[&of_rows[..], &of_all].concat())(chance, &mut job);
    case.systems = [job.input, job.output].map(|rows| by_column(&rows));
    case.names = [b'S'; 2];
}

/// Which number is told shows the order of judging: the input system, the output system, the state.
pub fn broken_together(chance: &mut Chance) -> PairCase {
    let mut case = broken_systems(chance);
    if chance.once_in(2) {
        break_systems(chance, &mut case);
    }
    if chance.once_in(3) {
        let turn = chance.below(11);
        break_count(chance, &mut case, turn);
    }
    if chance.once_in(2) {
        let turn = chance.below(6);
        break_state(chance, &mut case, turn);
    }
    case
}
