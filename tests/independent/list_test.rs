//! This implementation held against what document 02 says of the list (T-02): document 01's examples with their divisors, the borders between the list,
//! the room and the range, and on drawn jobs the number of divisors, their scale, and that a run can be cut anywhere in its list.

use crate::chance::Chance;
use crate::draw_full::room_and_range;
use crate::draw_jobs::{case, digits_by_chance, documents_job, layout, matrix};
use crate::draw_list::LONGEST;
use crate::plane::{determinant, product, Matrix};
use crate::reading::{read, Job};
use crate::running::{go_on, never_full, opened, printed_list, run, starting_at, Lent, Run, ROOM};
use crate::self_test::{job, Tests};
use crate::systems::{f, B, D, R};

pub fn lists(tests: &mut Tests) {
    examples(tests);
    borders(tests);
    held_first(tests);
    let drawn: Vec<Job> = (1..=600).filter_map(|n| read(&case(2, n).0).ok()).collect();
    let whole: Vec<(u8, Run)> = drawn.iter().map(|job| run(job, ROOM)).collect();
    let both = || drawn.iter().zip(&whole);
    tests.push(("of drawn jobs many can be run", drawn.len() > 300));
    tests.push(("many divisors are above 1", whole.iter().filter(|(_, run)| run.listed.iter().any(|&g| g > 1)).count() > 100));
    tests.push(("a list for input, output and one more is never full", whole.iter().all(|(end, run)| *end != 15 && run.listed.len() < LONGEST)));
    tests.push(("so many divisors as steps 4 and 5", whole.iter().all(|(_, run)| counts_agree(None, run))));
    tests.push(("the product of the divisors is the scale", both().all(|(job, (_, run))| scale_holds(job, run))));
    tests.push(("R to R cancels nothing", r_to_r_lists_ones()));
    tests.push(("a run can be cut anywhere in its list", both().all(|(job, (end, run))| places_tried(run).all(|places| cut(job, *end, run, places)))));
}

/// End, digits taken, what is written and listed, and the state.
type Answer = (u8, usize, Vec<u8>, Vec<i128>, Matrix, Option<u8>);

fn answer((end, run): (u8, Run)) -> Answer {
    (end, run.taken, run.written, run.listed, run.x, run.held)
}

fn with_list(job: &Job, room: usize, places: usize) -> Answer {
    answer(go_on(job, Lent { room, places }, opened(job)))
}

fn examples(tests: &mut Tests) {
    let p6 = job(&B, &B, [1, 0, 0, 1], &[1]);
    let all = (0, 1, vec![1], vec![1, 2], [1, 0, 0, 1], None);
    tests.push(("P6 lists 1 and then 2", answer(run(&p6, 8)) == all && with_list(&p6, 1, 2) == all));
    tests.push(("P6, one place", with_list(&p6, 8, 1) == (15, 1, vec![1], vec![1], [2, -1, 0, 1], Some(1))));
    tests.push(("P6, no place", with_list(&p6, 8, 0) == (15, 1, vec![], vec![], [1, 0, 0, 1], Some(1))));
    let line = |places| printed_list(&layout(&p6), places);
    tests.push(("P6 as a line", [0, 1, 2, 65535].map(line) == ["15 1 0 0\n", "15 1 1 1 1\n", "0 1 1 2 1 2\n", "0 1 1 2 1 2\n"]));
    tests.push(("a refused file has no such line", printed_list(&layout(&p6)[1..], 2).is_empty()));
    // Taken and written when the list is full: the steps are those of README's table.
    let full = [(1, 0), (1, 1), (1, 2), (2, 2), (3, 2), (3, 3)];
    let stops = |places: usize| {
        let (end, taken, written, listed, ..) = with_list(&documents_job(), ROOM, places);
        (end, taken, written.len(), listed) == (15, full[places].0, full[places].1, vec![1; places])
    };
    tests.push(("P4, too few places", (0..6).all(stops)));
    tests.push(("P4, just enough", with_list(&documents_job(), 3, 6) == (0, 3, vec![0, 1, 1], vec![1; 6], [2, 1, 1, 2], None)));
    let bare = |word: &[u8]| with_list(&job(&R, &R, [1, 0, 0, 1], word), 0, 0).0;
    tests.push(("an empty word and a byte that is no digit need no place", (bare(&[]), bare(&[4])) == (0, 21)));
}

/// "After 20 and before 22."
fn borders(tests: &mut Tests) {
    let end = |job: &Job, room, places| with_list(job, room, places).0;
    tests.push(("P5, the list ends before the room, with it, and behind it", [3, 4, 5].map(|places| end(&documents_job(), 2, places)) == [15, 20, 20]));
    let third: Vec<u8> = [2, 0].repeat(20);
    let absorbing = job(&D, &R, [3, -1, 0, 1], &third);
    let stopped = |end, taken, held, x| (end, taken, vec![], vec![1; taken - 1], x, Some(held));
    tests.push(("D to R, 28 places", with_list(&absorbing, 0, 28) == stopped(15, 29, 2, [3, -1, 0, 268435456])));
    tests.push(("D to R, 29 places: the list before the range", with_list(&absorbing, 0, 29) == stopped(15, 30, 0, [3, 1, 0, 536870912])));
    tests.push(("D to R, 30 places", with_list(&absorbing, 0, 30) == stopped(22, 30, 0, [3, 1, 0, 536870912])));
    // Six digits taken and the last one held: five divisors besides those of the digits written.
    let ends = |first, places: [usize; 3]| [8192, 8193].map(|room| places.map(|places| end(&room_and_range(first), room, places)));
    tests.push(("room, range and list end at the same step", ends(939, [8196, 8197, 8198]) == [[15, 20, 20], [15, 15, 22]]));
    tests.push(("the range ends first, and the list", ends(763, [8195, 8196, 8197]) == [[15, 15, 22], [15, 15, 22]]));
    tests.push(("the room ends first, and the list", ends(904, [8196, 8197, 8198]) == [[15, 20, 20], [15, 15, 20]]));
}

/// A digit held before the run has a divisor too, and is no input of it.
fn held_first(tests: &mut Tests) {
    let rest = Job { word: vec![0, 1], ..documents_job() };
    let [too_few, enough] = [5, 6].map(|places| answer(go_on(&rest, Lent { room: 3, places }, starting_at([2, 1, 1, 2], Some(0)))));
    tests.push(("a held digit, and a list for input and output", too_few == (15, 2, vec![0, 1, 1], vec![1; 5], [2, -1, 1, 1], Some(1))));
    tests.push(("and for one more", enough == (0, 2, vec![0, 1, 1], vec![1; 6], [2, 1, 1, 2], None)));
}

/// Each byte taken, and the digit held before, is absorbed or is the one held behind.
fn counts_agree(held_before: Option<u8>, run: &Run) -> bool {
    run.listed.len() + run.held.is_some() as usize == run.taken + run.written.len() + held_before.is_some() as usize
}

/// "The product of the divisors times (output product times state) equals the product of the output determinants times (M cancelled times input
/// product)": the remainders by two large primes are the same.
fn scale_holds(job: &Job, run: &Run) -> bool {
    let output: Vec<Matrix> = run.written.iter().map(|&b| f(&job.output[b as usize])).collect();
    let absorbed = &job.word[..run.taken - run.held.is_some() as usize];
    let input = absorbed.iter().map(|&a| f(&job.input[a as usize]));
    [(1 << 61) - 1, (1 << 62) - 57].iter().all(|&prime: &i128| {
        let times = |m, n| product(m, n).map(|n| n.rem_euclid(prime));
        let scaled = |m: Matrix, by: &i128| m.map(|n| (n * by).rem_euclid(prime));
        let given = times(output.iter().fold([1, 0, 0, 1], |m, &g| times(m, g)), run.x);
        let taken = times(opened(job).x, input.clone().fold([1, 0, 0, 1], times));
        run.listed.iter().fold(given, scaled) == output.iter().map(|&g| determinant(g)).fold(taken, |m, det| scaled(m, &det))
    })
}

/// The determinant of each digit is 1: where nothing could be cancelled before, nothing can be behind it.
fn r_to_r_lists_ones() -> bool {
    let chance = &mut Chance::of_case(2, 0);
    (0..200).all(|length| {
        let word = digits_by_chance(chance, &R, length);
        run(&job(&R, &R, matrix(chance), &word), ROOM).1.listed.iter().all(|&g| g == 1)
    })
}

/// All numbers of places up to what is listed, or of a long list some.
fn places_tried(whole: &Run) -> impl Iterator<Item = usize> {
    let listed = whole.listed.len();
    (0..=listed).filter(move |places| listed <= 40 || [listed / 3, listed - 1, listed].contains(places))
}

/// A run with so many places stops where they are full, and stops again as it is called again with nothing more; with a list that is long enough it goes
/// on, and both together did what one run does.
fn cut(job: &Job, end: u8, whole: &Run, places: usize) -> bool {
    let (stop, first) = go_on(job, Lent { room: ROOM, places }, opened(job));
    let full = places < whole.listed.len() || end == 22;
    let rest = Job { word: job.word[first.taken..].to_vec(), ..job.clone() };
    let room = ROOM - first.written.len();
    let again = answer(go_on(&rest, Lent { room, places: 0 }, starting_at(first.x, first.held)));
    let (last, second) = go_on(&rest, never_full(&rest, room), starting_at(first.x, first.held));
    stop == if full { 15 } else { end }
        && again == (stop, 0, vec![], vec![], first.x, first.held)
        && counts_agree(None, &first)
        && counts_agree(first.held, &second)
        && (last, second.x, second.held) == (end, whole.x, whole.held)
        && first.taken + second.taken == whole.taken
        && [first.written, second.written].concat() == whole.written
        && [first.listed, second.listed].concat() == whole.listed
}
