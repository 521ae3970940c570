//! Cases of runs with two inputs (T-14) by chance: kinds of case with their shares. A case depends on the seed and its number alone.

use crate::case_bytes::name_of;
use crate::chance::Chance;
use crate::columns::{by_column, Columns};
use crate::damage_pairs::{broken_count, broken_state, broken_systems, broken_together};
use crate::draw_calls::lend;
use crate::draw_jobs::{any_system, digits_by_chance};
use crate::draw_states::{at_limits, by_images, filling, opened_and_held, reached, rows_not_cancelled};
use crate::draw_stretching::{decimal, stretching};
use crate::draw_systems::{built_in, point, word_of, word_of_fraction};
use crate::kinds::{kind_of, Kind};
use crate::pair_cases::{opening, PairCase};
use crate::systems::Row;

/// How a case is lent room and cut in two comes afterwards.
pub const KINDS: [Kind<PairCase>; 19] = [
    (5, "built-in systems, words that name fractions", |c, _| operation(c, two(built_in), word_of_fraction)),
    (3, "built-in systems, digits by chance", |c, _| operation(c, two(built_in), digits_by_chance)),
    (3, "built-in systems, words with a period", |c, _| operation(c, two(built_in), periodic)),
    (5, "drawn systems", |c, _| operation(c, two(any_system), some_word)),
    (2, "digits that stretch, entries near the range's ends", |c, _| operation(c, [stretching, stretching_or_other], digits_by_chance)),
    (2, "powers of ten, entries at the range's ends", |c, _| operation(c, [decimal, decimal_or_other], digits_by_chance)),
    (2, "the same word twice", |c, _| same_word(c)),
    (4, "a byte that is no digit", with_no_digit),
    (1, "long words", |c, _| long_words(c)),
    (3, "states on the way of a run", |c, _| reached(c)),
    (2, "opened states with digits held", |c, _| opened_and_held(c)),
    (2, "states with entries at the range's ends", |c, _| at_limits(c)),
    (2, "states whose rows are not cancelled, each by itself", |c, _| rows_not_cancelled(c)),
    (5, "states made from four images: in one interval, at its ends, (0, 0), beside it, on both sides", by_images),
    (2, "states made from images that fill the range", |c, _| filling(c)),
    (3, "damaged: the state", broken_state),
    (1, "damaged: a count", broken_count),
    (2, "damaged: a system", |c, _| broken_systems(c)),
    (1, "damaged: several things at once", |c, _| broken_together(c)),
];

pub fn case(seed: u64, number: u64) -> PairCase {
    let (kind, turn) = kind_of(&KINDS, number);
    let mut chance = Chance::of_case(seed, number);
    let mut case = kind.2(&mut chance, turn);
    lend(&mut chance, turn, &mut case);
    case
}

pub type System = fn(&mut Chance) -> Vec<Row>;
pub type Word = fn(&mut Chance, &[Row], usize) -> Vec<u8>;

fn two(sort: System) -> [System; 2] {
    [sort, sort]
}

fn operation(chance: &mut Chance, sorts: [System; 2], word: Word) -> PairCase {
    let systems = systems(chance, sorts);
    let operation = chance.pick(b"+-*");
    let words = words(chance, &systems[0], word);
    assembled(chance, operation, systems, words)
}

/// Input and output system: one and the same, or two.
pub fn systems(chance: &mut Chance, [input, output]: [System; 2]) -> [Vec<Row>; 2] {
    let input = input(chance);
    let output = if chance.once_in(3) { input.clone() } else { output(chance) };
    [input, output]
}

/// A case with no room, and nothing for the first call.
pub fn assembled(chance: &mut Chance, operation: u8, systems: [Vec<Row>; 2], words: [Vec<u8>; 2]) -> PairCase {
    let [input, output] = systems.map(|rows| handed(chance, &rows));
    let state = opening(operation).expect("an operation");
    PairCase { operation, state, names: [input.0, output.0], systems: [input.1, output.1], words, rooms: [0; 2], cuts: [0; 2] }
}

/// A system by its name, if it has one, or with its numbers; now and then with any numbers at the places that it does not use.
fn handed(chance: &mut Chance, rows: &[Row]) -> (u8, Columns) {
    let mut columns = by_column(rows);
    if let (Some(name), false) = (name_of(&columns), chance.once_in(5)) {
        return (name, columns);
    }
    if chance.once_in(3) {
        fill_unused(chance, &mut columns);
    }
    (b'S', columns)
}

/// Any numbers at the places of digits that the system hasn't got.
pub fn fill_unused(chance: &mut Chance, system: &mut Columns) {
    let used = system.used();
    system.runs.iter_mut().for_each(|run| run[used..].iter_mut().for_each(|n| *n = chance.between(-32768, 32767)));
}

/// Two words of about the same length, or not.
pub fn words(chance: &mut Chance, rows: &[Row], word: Word) -> [Vec<u8>; 2] {
    let length = match chance.below(12) {
        0 => chance.below(2),
        1 => chance.below(150),
        2..=5 => chance.below(12),
        _ => chance.below(50),
    };
    [0; 2].map(|_| {
        let length = if chance.once_in(4) { chance.below(length + 10) } else { length };
        word(chance, rows, length)
    })
}

pub fn some_word(chance: &mut Chance, rows: &[Row], length: usize) -> Vec<u8> {
    chance.pick::<Word>(&[word_of_fraction, word_of_fraction, digits_by_chance, periodic])(chance, rows, length)
}

/// A simple fraction's first digits, and then some of these again and again.
fn periodic(chance: &mut Chance, rows: &[Row], length: usize) -> Vec<u8> {
    let z = point(chance, 7);
    let (before, period) = (chance.below(4), 1 + chance.below(3));
    let mut word = word_of(chance, rows, z, before + period);
    while word.len() < length {
        word.push(word[word.len() - period]);
    }
    word.truncate(length);
    word
}

fn stretching_or_other(chance: &mut Chance) -> Vec<Row> {
    chance.pick::<System>(&[stretching, stretching, built_in])(chance)
}

fn decimal_or_other(chance: &mut Chance) -> Vec<Row> {
    chance.pick::<System>(&[decimal, decimal, built_in])(chance)
}

/// x − x names 0: no digit is ever given out unless its interval has 0 inside.
fn same_word(chance: &mut Chance) -> PairCase {
    let systems = systems(chance, two(any_system));
    let [x, _] = words(chance, &systems[0], some_word);
    let operation = chance.pick(b"--+*");
    assembled(chance, operation, systems, [x.clone(), x])
}

fn long_words(chance: &mut Chance) -> PairCase {
    let systems = systems(chance, two(any_system));
    let length = chance.pick(&[200, 300, 400, 511, 512]);
    let words = [0; 2].map(|_| some_word(chance, &systems[0], length));
    let operation = chance.pick(b"+-*");
    assembled(chance, operation, systems, words)
}

/// In x, in y, or in both, which is found first or second: near the beginning, near the end, or anywhere.
fn with_no_digit(chance: &mut Chance, turn: usize) -> PairCase {
    let systems = systems(chance, two(any_system));
    let count = systems[0].len() as u8;
    let mut words = words(chance, &systems[0], some_word);
    for (which, word) in words.iter_mut().enumerate() {
        if turn % 3 != which {
            let anywhere = chance.below(word.len() + 1);
            let place = chance.pick(&[0, 1, word.len().saturating_sub(1), anywhere]).min(word.len());
            word.insert(place, chance.pick(&[count, count + 1, 16, 128, 254, 255]));
        }
    }
    let operation = chance.pick(b"+-*");
    assembled(chance, operation, systems, words)
}
