//! What holds of every run with two inputs (document 02, T-14), on drawn ones: the numbers that its digits name (demand 3), that it can be cut anywhere
//! and stops again, and that it is a plain run where one input does not matter.

use crate::chance::Chance;
use crate::columns::by_column;
use crate::draw_jobs::{any_system, digits_by_chance, matrix};
use crate::draw_pairs::case;
use crate::draw_states::form_of;
use crate::draw_systems::{built_in, point, word_of};
use crate::forms::{before, behind, coefficients, images, may_be_given, Form, SAME};
use crate::pair_cases::{called, in_two, layout, opening, read, whole, PairCase};
use crate::pairs::{answer, Answer, Numbers};
use crate::plane::{cancel, det, gcd, in_closed, product, pseudoinverse, send, Interval, Matrix, Point};
use crate::running::run;
use crate::self_test::{job, Tests};
use crate::systems::{f, w, D, R};

pub fn pair_laws(tests: &mut Tests) {
    let drawn: Vec<PairCase> = (1..=1500).map(|n| case(2, n)).collect();
    tests.push(("the bytes of a case are read as that case", drawn.iter().all(|case| read(&layout(case)).is_some_and(|again| layout(&again) == layout(case)))));
    let answers = drawn.iter().map(|case| (case, whole(case)));
    let run: Vec<(&PairCase, Answer)> = answers.filter(|(_, answer)| matches!(answer.end, 0 | 20..=22)).collect();
    tests.push(("of drawn cases many are run", run.len() > 1000));
    tests.push(("and write many digits", run.iter().map(|(_, answer)| answer.written.len()).sum::<usize>() > 5000));
    tests.push(("a form is what its sentence says", run.iter().all(|(case, _)| form_agrees(case))));
    tests.push(("coefficients by determinants", run.iter().all(|(case, _)| signs_agree(case))));
    tests.push(("output and state name what the input does", run.iter().all(|(case, answer)| names_the_same(case, answer))));
    tests.push(("a run in two calls is one run", run.iter().all(|(case, answer)| together(in_two(case)) == *answer)));
    tests.push(("a run can be cut anywhere, and stops again", run.iter().step_by(13).all(|(case, _)| cut_anywhere(shortened(case)))));
    tests.push(("each digit's closed interval holds the number", (0..400).map(digits_hold).sum::<Option<usize>>() > Some(2000)));
    tests.push(("x − x on R gives nothing out", (0..100).all(nothing_for_zero)));
    tests.push(("where x or y alone matters, it is a plain run", (0..300).all(plain_run)));
    tests.push(("with x and y changed over, nothing else is", (0..300).all(mirrored)));
}

/// "X(x, y) = X·(x0·y0, x0·y1, x1·y0, x1·y1)."
fn at(form: Form, x: Point, y: Point) -> Point {
    form.map(|[of_xy, of_x, of_y, of_1]| of_xy * x[0] * y[0] + of_x * x[0] * y[1] + of_y * x[1] * y[0] + of_1 * x[1] * y[1])
}

/// At some points, and with the transformations and intervals of all pairs of input digits.
fn form_agrees(case: &PairCase) -> bool {
    let (form, [input, output]) = (form_of(&case.state), [0, 1].map(|k: usize| case.systems[k].rows()));
    let (s, t) = ([3, -7], [5, 2]);
    let given = output.iter().all(|g| at(before(f(g), form), s, t) == send(f(g), at(form, s, t)));
    given && input.iter().all(|a| input.iter().all(|b| {
        let (i, j) = (w(a), w(b));
        at(behind(form, f(a), f(b)), s, t) == at(form, send(f(a), s), send(f(b), t))
            && images(form, [i, j]) == [at(form, i.left, j.left), at(form, i.left, j.right), at(form, i.right, j.left), at(form, i.right, j.right)]
    }))
}

/// With α·left + β·right = v, det(v, right) is α·det(left, right), and det(left, v) is β times that, which is below 0.
fn signs_agree(case: &PairCase) -> bool {
    let [input, output] = [0, 1].map(|k: usize| case.systems[k].rows());
    let images = images(form_of(&case.state), [w(&input[0]), w(&input[input.len() - 1])]);
    output.iter().map(w).all(|u| {
        let solved = images.iter().all(|&v| {
            let [alpha, beta] = coefficients(v, u);
            let scaled = |n: usize| alpha.above * beta.below * u.left[n] + beta.above * alpha.below * u.right[n];
            (0..2).all(|n| scaled(n) == alpha.below * beta.below * v[n])
        });
        let signs: Vec<i128> = images.iter().flat_map(|&v| [-det(v, u.right), -det(u.left, v)]).collect();
        let given = !images.contains(&[0, 0]) && (signs.iter().all(|&n| n >= 0) || signs.iter().all(|&n| n <= 0));
        solved && given == may_be_given(&images, u)
    })
}

/// The digits absorbed of x or y: the one held before and those taken, without the one held behind.
fn absorbed(case: &PairCase, answer: &Answer, which: usize) -> Vec<u8> {
    let before = case.state[8 + which];
    let mut digits: Vec<u8> = (before >= 0).then_some(before as u8).into_iter().collect();
    digits.extend(&case.words[which][..answer.taken[which]]);
    if answer.state[8 + which] >= 0 {
        digits.pop();
    }
    digits
}

/// The output's product times the state is a multiple of the first state with the two inputs' products behind it: the remainders by two large primes are.
fn names_the_same(case: &PairCase, answer: &Answer) -> bool {
    let [input, output] = [0, 1].map(|k: usize| case.systems[k].rows());
    [(1 << 61) - 1, (1 << 62) - 57].iter().all(|&prime: &i128| {
        let rest = |form: Form| form.map(|row| row.map(|n| n.rem_euclid(prime)));
        let times = |m: Matrix, n: Matrix| product(m, n).map(|n| n.rem_euclid(prime));
        let given = answer.written.iter().fold(SAME, |m, &c| times(m, f(&output[c as usize])));
        let [x, y] = [0, 1].map(|which| absorbed(case, answer, which).iter().fold(SAME, |m, &a| times(m, f(&input[a as usize]))));
        let left = rest(before(given, form_of(&answer.state)));
        let right = rest(behind(rest(behind(form_of(&case.state), x, SAME)), SAME, y));
        let (left, right) = (left.as_flattened(), right.as_flattened());
        (0..8).all(|i| (0..i).all(|j| (left[i] * right[j] - left[j] * right[i]) % prime == 0))
    })
}

/// What two calls did, one after the other.
fn together([first, second]: [Answer; 2]) -> Answer {
    let taken = [0, 1].map(|which: usize| first.taken[which] + second.taken[which]);
    Answer { taken, written: [first.written, second.written].concat(), ..second }
}

/// A few bytes of each word, and a little room.
fn shortened(case: &PairCase) -> PairCase {
    let words = case.words.clone().map(|word| word[..word.len().min(5)].to_vec());
    PairCase { words, rooms: [0, 5], cuts: [0, 0], ..case.clone() }
}

fn cut_anywhere(mut case: PairCase) -> bool {
    let one = whole(&case);
    let [x, y] = [0, 1].map(|which: usize| 0..=case.words[which].len());
    let all = x.flat_map(|a| y.clone().flat_map(move |b| (0..=5).map(move |room| (a, b, room))));
    all.into_iter().all(|(a, b, room)| {
        (case.cuts, case.rooms) = ([a, b], [room, 5 - room]);
        let [first, second] = in_two(&case);
        let left = [&case.words[0][first.taken[0]..a], &case.words[1][first.taken[1]..b]];
        let again = called(&case, &first.state, left, room - first.written.len());
        again == Answer { taken: [0, 0], written: Vec::new(), ..first.clone() } && together([first, second]) == one
    })
}

/// "A digit names numbers so: if z is named by what follows digit a, F_a(z) is named from a on." Both words name fractions, each digit of them with the
/// number in its closed interval; then so does the output. The answer counts the digits.
fn digits_hold(n: u64) -> Option<usize> {
    let chance = &mut Chance::of_case(3, n);
    let [input, output] = [0; 2].map(|_| built_in(chance));
    let named = [0; 2].map(|_| point(chance, 30));
    let [x, y] = named.map(|z| word_of(chance, &input, z, 40));
    let start = opening(chance.pick(b"+-*")).unwrap();
    let written = answer(&[by_column(&input), by_column(&output)], &start, [&x, &y], 60).written;
    let mut z = at(form_of(&start), named[0], named[1]);
    for &c in &written {
        let Interval { left, right } = w(&output[c as usize]);
        if z != [0, 0] && !in_closed(Interval { left, right }, z) {
            return None;
        }
        z = send(pseudoinverse(f(&output[c as usize])), z);
        z = z.map(|n| n / gcd(&z).max(1));
    }
    Some(written.len())
}

/// R has no digit with 0 inside. Words of 0 and 1, or of 2 and 3: each digit's interval is within the one before.
fn nothing_for_zero(n: u64) -> bool {
    let chance = &mut Chance::of_case(4, n);
    let first = chance.pick(&[0, 2]);
    let word: Vec<u8> = (0..chance.below(60)).map(|_| first + chance.below(2) as u8).collect();
    let answer = answer(&[by_column(&R), by_column(&R)], &opening(b'-').unwrap(), [&word, &word], 9);
    answer.written.is_empty() && matches!(answer.end, 0 | 22)
}

/// On D, y in the interval of digit 0, 1 or 2 has its second number above 0; so where X is M·(x0·y1, x1·y1), y makes no difference, and absorbing it
/// cancels a 2. And so with x and y changed over.
fn plain_run(n: u64) -> bool {
    let chance = &mut Chance::of_case(5, n);
    let (m, output, length, which) = (cancel(matrix(chance)), built_in(chance), chance.below(40), n as usize % 2);
    let z = point(chance, 30);
    let word = if chance.once_in(2) { word_of(chance, &D, z, length) } else { digits_by_chance(chance, &D, length) };
    let other: Vec<u8> = (0..length + 2).map(|_| chance.below(3) as u8).collect();
    let alone = |m: Matrix, held: i128| -> Vec<i128> {
        let mut state = vec![0; 8];
        (state[1 + which], state[3], state[5 + which], state[7]) = (m[0], m[1], m[2], m[3]);
        state.push(held);
        state
    };
    let words: [&[u8]; 2] = if which == 0 { [&word, &other] } else { [&other, &word] };
    let start: Numbers = [&alone(m, -1)[..], &[-1, 0]].concat().try_into().unwrap();
    let pair = answer(&[by_column(&D), by_column(&output)], &start, words, 20);
    let (end, plain) = run(&job(&D, &output, m, &word), 20);
    let held = plain.held.map_or(-1, i128::from);
    let state = [&pair.state[..8], &pair.state[8 + which..9 + which]].concat();
    (pair.end, pair.taken[which], pair.written, state) == (end, plain.taken, plain.written, alone(plain.x, held))
}

/// X(y, x) with the words, the held digits and the turn changed over. Each word has a digit: of an empty x and an empty y, x is asked for first.
fn mirrored(n: u64) -> bool {
    let chance = &mut Chance::of_case(6, n);
    let [input, output] = [0; 2].map(|_| any_system(chance));
    let [x, y] = [0; 2].map(|_| chance.below(30) + 1).map(|length| digits_by_chance(chance, &input, length));
    let start = opening(chance.pick(b"+-*")).unwrap();
    let over = |[a, b, c, d, e, f, g, h, i, j, turn]: Numbers| [a, c, b, d, e, g, f, h, j, i, 1 - turn];
    let systems = [by_column(&input), by_column(&output)];
    let [one, other] = [(start, [&x, &y]), (over(start), [&y, &x])].map(|(state, words)| answer(&systems, &state, words.map(|word| &word[..]), 30));
    other == Answer { taken: [one.taken[1], one.taken[0]], state: over(one.state), ..one }
}
