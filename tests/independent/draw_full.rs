//! Jobs whose output just fits in the program's room of 8192 digits, or does not.

use crate::chance::Chance;
use crate::draw_jobs::{digits_by_chance, layout, matrix};
use crate::draw_stretching::{hundred_of, scaling_row};
use crate::draw_systems::power_of_r;
use crate::reading::Job;
use crate::systems::R;
use crate::unexpanding::IDENTITIES;

pub fn full_output(chance: &mut Chance, turn: usize) -> Vec<u8> {
    let job = match turn % 8 {
        0 | 4 => a_hundred_for_one(chance),
        // By turns and not by chance: that the room is asked for before the range shows only where both end at the same step, whatever the seed is.
        1 | 5 => room_and_range([939, 763, 939, 904][turn / 4 % 4]),
        2 => one_digit_for_ever(chance),
        6 => just_full(turn / 8 % 4),
        _ => more_digits_out(chance),
    };
    layout(&job)
}

/// A hundred digits of R for one. 81 of these leave room for 92 more, which come one by one or from one that is then held.
fn a_hundred_for_one(chance: &mut Chance) -> Job {
    let b = chance.below(4);
    let mut word = vec![4; 81];
    match chance.below(3) {
        0 => word.extend(vec![4; chance.below(3)]),
        1 => word.extend(vec![b as u8; 91 + chance.below(4)]),
        _ => word.insert(chance.below(81), chance.pick(&[0, 1, 2, 3, 4, 5])),
    }
    let matrix = if chance.once_in(4) { matrix(chance) } else { [1, 0, 0, 1] };
    Job { input: hundred_of(b), output: R.to_vec(), matrix, word }
}

/// Just as many digits as there is room for, and the last one is absorbed: a full output stops no run that needs no place. By turns too.
fn just_full(b: usize) -> Job {
    Job { input: hundred_of(b), output: R.to_vec(), matrix: [1, 0, 0, 1], word: [vec![4; 81], vec![b as u8; 92]].concat() }
}

/// Document 01's two digits that change nothing, of which one would fit for ever: now refused.
fn one_digit_for_ever(chance: &mut Chance) -> Job {
    let rows = IDENTITIES.to_vec();
    let word = digits_by_chance(chance, &rows, 3);
    Job { input: rows.clone(), output: rows, matrix: matrix(chance), word }
}

/// The first five digits of the word bring X to n 0 0 d; they have infinity or 0 inside X·W_held, so that R gives nothing out for them. The sixth
/// stands for a hundred zeros and, behind that X, for far more. Each zero that is given out takes n from the third entry: after m zeros it is −nm.
/// With n = 122070 the room (8192) and the range end at the same step, with 122080 the range ends first and with 122040 the room. d = 997·97·97·11
/// has no divisor in common with any of them.
pub fn room_and_range(first: i128) -> Job {
    let (k, l) = match first {
        763 => (80, 2),
        904 => (45, 3),
        _ => (65, 2),
    };
    let mut input = hundred_of(0);
    input.extend([scaling_row([k, 0, 0, 1], 9), scaling_row([l, 0, 0, 1], 2), scaling_row([1, 0, 0, 97], 10), scaling_row([1, 0, 0, 11], 4)]);
    Job { input, output: R.to_vec(), matrix: [first, 0, 0, 997], word: vec![5, 6, 7, 7, 8, 4] }
}

/// Two or three digits of R for one, and now and then a byte that is no digit behind them.
fn more_digits_out(chance: &mut Chance) -> Job {
    let input = power_of_r(chance);
    // 2 · 4096 = 8192, and 3 · 2731 = 8193.
    let length = if input.len() == 8 { 4097 - chance.below(4).max(1) } else { 2733 - chance.below(5) };
    // The first half of the digits is for the numbers above 0.
    let mut word = digits_by_chance(chance, &input[..input.len() / 2], length);
    if word.len() < 4096 && chance.once_in(4) {
        word.push(16);
    }
    let matrix = chance.pick(&[[1, 0, 0, 1], [1, 0, 0, 1], [1, 1, 0, 1], [2, 0, 0, 1]]);
    Job { input, output: R.to_vec(), matrix, word }
}
