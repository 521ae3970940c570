//! How a case of a run with two inputs is cut into two calls (T-14): the room of each, and what the first one gets of the words. By chance, and by what
//! one run does with all there is.

use crate::chance::Chance;
use crate::pair_cases::{whole, PairCase};

/// No room of a case is larger.
pub const MOST: usize = 512;

/// By turns and not by chance: with just as many places as digits are written before a run leaves the range, it ends 20 where giving one more would
/// leave it, and 22 with one place more.
pub fn lend(chance: &mut Chance, turn: usize, case: &mut PairCase) {
    case.rooms = [MOST; 2];
    let all = whole(case);
    case.cuts = [0, 1].map(|which: usize| cut(chance, all.taken[which], case.words[which].len()));
    // Where many digits come, mostly there is room for a few of them only, and little is printed.
    let written = if chance.once_in(12) { all.written.len() } else { all.written.len().min(chance.pick(&[3, 20, 60])) };
    case.rooms = rooms(chance, written);
    let room = all.written.len() + turn % 3;
    if all.end == 22 && turn % 3 < 2 && room <= MOST {
        let first = chance.below(room + 1);
        case.rooms = [first, room - first];
    }
}

fn cut(chance: &mut Chance, taken: usize, length: usize) -> usize {
    match chance.below(7) {
        0 => 0,
        1 | 2 => length,
        3 => taken.saturating_sub(1),
        4 => chance.below(length + 1),
        _ => chance.below(taken + 1),
    }
}

fn rooms(chance: &mut Chance, written: usize) -> [usize; 2] {
    let first = match chance.below(9) {
        0 => 0,
        1 => 1,
        2 => written,
        3 => written.saturating_sub(1),
        4 => written + 1,
        5 | 6 => chance.below(written + 1),
        _ => written + chance.below(20),
    };
    let left = written.saturating_sub(first);
    let more = match chance.below(8) {
        0 => 0,
        1 | 2 => left,
        3 => left + 1,
        4 => chance.below(left + 1),
        5 => chance.below(4),
        6 => MOST / (1 + chance.below(20)),
        _ => left + chance.below(10),
    };
    [first.min(MOST), more.min(MOST)]
}
