//! States that are handed to a run with two inputs (T-14): those of runs, and such as no run makes.

use crate::chance::Chance;
use crate::draw_jobs::any_system;
use crate::draw_pairs::{assembled, some_word, systems, words};
use crate::draw_systems::built_in;
use crate::forms::{behind, cancelled, ends, with_columns, Form};
use crate::pair_cases::{in_two, PairCase};
use crate::pairs::{numbers, Numbers, State};
use crate::plane::{gcd, pseudoinverse, Interval, Point};
use crate::systems::w;

/// "Entries within ±1,000,000,000."
pub const LIMIT: i128 = 1_000_000_000;

/// A case from built-in or drawn systems, with short words.
pub fn plain(chance: &mut Chance) -> PairCase {
    let systems = if chance.once_in(2) { systems(chance, [built_in; 2]) } else { systems(chance, [any_system; 2]) };
    let words = words(chance, &systems[0], some_word);
    let operation = chance.pick(b"+-*");
    assembled(chance, operation, systems, words)
}

/// The case, from that state on.
pub fn handed_in(case: PairCase, state: Numbers) -> PairCase {
    PairCase { operation: b's', state, ..case }
}

/// Mostly a digit of the input system, or none.
fn some_held(chance: &mut Chance, case: &PairCase) -> Option<u8> {
    let digit = chance.below(case.systems[0].used()) as u8;
    (!chance.once_in(3)).then_some(digit)
}

/// The form with held digits, or none, and a turn.
fn with_held(chance: &mut Chance, case: &PairCase, x: Form) -> Numbers {
    let held = [0; 2].map(|_| some_held(chance, case));
    numbers(&State { x, held, turn: chance.below(2) })
}

/// Where a run stopped, with the words that it left, or with others; perhaps another digit is held or it is the other one's turn.
pub fn reached(chance: &mut Chance) -> PairCase {
    let mut case = plain(chance);
    case.cuts = [0, 1].map(|which: usize| chance.below(case.words[which].len() + 1));
    case.rooms = [chance.below(12), 0];
    let [first, _] = in_two(&case);
    let mut state = first.state;
    match chance.below(6) {
        0 => state[8 + chance.below(2)] = some_held(chance, &case).map_or(-1, i128::from),
        1 => state[10] = 1 - state[10],
        _ => (),
    }
    for (word, taken) in case.words.iter_mut().zip(first.taken) {
        if chance.once_in(2) {
            word.drain(..taken);
        }
    }
    handed_in(case, state)
}

pub fn opened_and_held(chance: &mut Chance) -> PairCase {
    let case = plain(chance);
    let form = form_of(&case.state);
    let state = with_held(chance, &case, form);
    handed_in(case, state)
}

pub fn form_of(state: &Numbers) -> Form {
    let [a, b, c, d, e, f, g, h, ..] = *state;
    [[a, b, c, d], [e, f, g, h]]
}

pub fn at_limits(chance: &mut Chance) -> PairCase {
    let case = plain(chance);
    let some = chance.pick(&[1, 3, 1000]);
    let form = loop {
        let others = [0, 0, 1, -1, LIMIT / 2, chance.between(-LIMIT, LIMIT), chance.between(-some, some)];
        let form: Form = [[0; 4]; 2].map(|row| row.map(|_: i128| if chance.once_in(3) { LIMIT * chance.pick(&[1, -1]) } else { chance.pick(&others) }));
        if gcd(form.as_flattened()) == 1 {
            break form;
        }
    };
    let state = with_held(chance, &case, form);
    handed_in(case, state)
}

/// The numerator has a divisor and the denominator has another one, or one of them is 0: together they are cancelled.
pub fn rows_not_cancelled(chance: &mut Chance) -> PairCase {
    let case = plain(chance);
    let [p, q] = chance.pick(&[[2, 3], [3, 2], [1, 6], [5, 1], [4, 9], [0, 1], [1, 0], [7, 2]]);
    let form = loop {
        let form = [p, q].map(|times| [0; 4].map(|_: i128| times * chance.between(-5, 5)));
        if gcd(form.as_flattened()) == 1 {
            break form;
        }
    };
    let state = with_held(chance, &case, form);
    handed_in(case, state)
}

/// Which images a state is made from.
#[derive(Clone, Copy, PartialEq)]
enum Sort {
    InOne,
    AtEnds,
    WithZero,
    Beside,
    OnBothSides,
}

pub fn by_images(chance: &mut Chance, turn: usize) -> PairCase {
    let sort = [Sort::InOne, Sort::WithZero, Sort::Beside, Sort::OnBothSides, Sort::AtEnds][turn % 5];
    let size = chance.pick(&[1, 3, 3, 10, 1000]);
    from_images(chance, sort, size)
}

/// Entries as large as they can be: giving a digit out often leaves the range, and now and then only until it is cancelled.
pub fn filling(chance: &mut Chance) -> PairCase {
    let sort = chance.pick(&[Sort::InOne, Sort::InOne, Sort::AtEnds]);
    from_images(chance, sort, LIMIT)
}

/// Both digits are held; or one is still the next of its word.
fn from_images(chance: &mut Chance, sort: Sort, size: i128) -> PairCase {
    let mut case = plain(chance);
    let [input, output] = [0, 1].map(|k: usize| case.systems[k].rows());
    let digits = [0; 2].map(|_| chance.below(input.len()));
    let u = w(&chance.pick(&output));
    let x = form_in_range(chance, sort, u, digits.map(|a| w(&input[a])), size);
    let mut held = digits.map(|a| Some(a as u8));
    for which in 0..2 {
        if chance.once_in(4) {
            case.words[which].splice(..0, held[which].take());
        }
    }
    let turn = chance.below(2);
    handed_in(case, numbers(&State { x, held, turn }))
}

/// Numbers up to that size in the images, or smaller ones, if the form's leave the range.
fn form_in_range(chance: &mut Chance, sort: Sort, u: Interval, of: [Interval; 2], mut size: i128) -> Form {
    loop {
        let form = with_images(of, four(chance, sort, u, size));
        if form.as_flattened().iter().all(|n| n.abs() <= LIMIT) && gcd(form.as_flattened()) == 1 {
            return form;
        }
        size = size / 2 + 1;
    }
}

/// The form that sends the pairs of ends to these images, or to the same multiple above 0 of each: ends(i) times its pseudoinverse is det(i) times the
/// matrix that changes nothing, and det(i)·det(j) > 0.
fn with_images([i, j]: [Interval; 2], images: [Point; 4]) -> Form {
    cancelled(behind(with_columns(images), pseudoinverse(ends(i)), pseudoinverse(ends(j))))
}

fn four(chance: &mut Chance, sort: Sort, u: Interval, size: i128) -> [Point; 4] {
    let sign = chance.pick(&[1, -1]);
    let mut images = [[0; 2]; 4].map(|_: Point| combined(chance, sort, u, size).map(|n| sign * n));
    let which = chance.below(4);
    match sort {
        Sort::WithZero => {
            images[which] = [0, 0];
            if chance.once_in(3) {
                images[chance.below(4)] = [0, 0];
            }
        }
        Sort::Beside => {
            let [k, l] = chance.pick(&[[-1, size], [size, -1], [-1, 0], [0, -1], [-size, 1]]);
            images[which] = [0, 1].map(|n: usize| sign * (k * u.left[n] + l * u.right[n]));
        }
        Sort::OnBothSides => images[which] = images[which].map(|n| -n),
        _ => (),
    }
    images
}

/// A point of the closed interval, with both coefficients at least 0; often at an end.
fn combined(chance: &mut Chance, sort: Sort, u: Interval, size: i128) -> Point {
    let [mut k, mut l] = [0; 2].map(|_| chance.between(1, size));
    match chance.below(if sort == Sort::AtEnds { 3 } else { 20 }) {
        0 => k = 0,
        1 => l = 0,
        _ => (),
    }
    [0, 1].map(|n: usize| k * u.left[n] + l * u.right[n])
}
