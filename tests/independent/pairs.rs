//! "Sum and product of two words" (document 02, T-14): runs with two inputs. In words, held digits, counts and the turn, 0 is x and 1 is y.

use crate::columns::Columns;
use crate::faults::{planted, Fault};
use crate::forms::{before, behind, cancelled, images, may_be_given, Form, SAME};
use crate::plane::{gcd, pseudoinverse};
use crate::systems::{f, w, Row};

/// "A state of eight numbers, cancelled and within the same range, two held digits and whose turn it is."
#[derive(Clone, Debug, PartialEq)]
pub struct State {
    pub x: Form,
    pub held: [Option<u8>; 2],
    pub turn: usize,
}

/// A state as it is handed over: the eight numbers, the digit held of x and of y, or −1, and the turn.
pub type Numbers = [i128; 11];

pub const PLUS: Form = [[0, 1, 1, 0], [0, 0, 0, 1]];
pub const MINUS: Form = [[0, 1, -1, 0], [0, 0, 0, 1]];
pub const TIMES: Form = [[1, 0, 0, 0], [0, 0, 0, 1]];

/// "x+y, x−y and xy", with nothing held; "absorb, x first and then by turns".
pub fn opened(x: Form) -> State {
    State { x, held: [None; 2], turn: planted(Fault::PairYFirst) as usize }
}

pub fn numbers(state: &State) -> Numbers {
    let [[a, b, c, d], [e, f, g, h]] = state.x;
    let [x, y] = state.held.map(|held| held.map_or(-1, i128::from));
    [a, b, c, d, e, f, g, h, x, y, state.turn as i128]
}

/// "12 for a state that is all 0, not cancelled, out of range or holds a number that is no digit of the system." So is a turn that no one has.
pub fn judge(numbers: &Numbers, digits: usize) -> Result<State, u8> {
    let [a, b, c, d, e, f, g, h, x, y, turn] = *numbers;
    let state = State { x: [[a, b, c, d], [e, f, g, h]], held: [held(x, digits)?, held(y, digits)?], turn: (turn != 0) as usize };
    let known_turn = [0, 1].contains(&turn) || planted(Fault::PairAnyTurn);
    if in_lowest_terms(&state.x) && in_range(&state.x) && known_turn { Ok(state) } else { Err(12) }
}

/// Neither all 0 nor not cancelled.
fn in_lowest_terms(x: &Form) -> bool {
    match gcd(x.as_flattened()) {
        0 => planted(Fault::PairZeroState),
        1 => !planted(Fault::PairJudgedByRows) || x.iter().all(|row| gcd(row) <= 1),
        _ => planted(Fault::PairAnyTerms),
    }
}

fn held(number: i128, digits: usize) -> Result<Option<u8>, u8> {
    let number = if planted(Fault::PairHeldLowByte) && number != -1 { number & 255 } else { number };
    match number {
        -1 => Ok(None),
        _ if number >= 0 && number < digits as i128 => Ok(Some(number as u8)),
        _ => Err(12),
    }
}

/// "Within the same range": "entries within ±1,000,000,000".
fn in_range(x: &Form) -> bool {
    let limit = if planted(Fault::PairRangeOneLess) { 999_999_999 } else { 1_000_000_000 };
    x.as_flattened().iter().all(|n| n.abs() <= limit)
}

/// What a run is called with besides its state, once the systems are judged.
pub struct Call<'a> {
    pub input: &'a [Row],
    pub output: &'a [Row],
    pub words: [&'a [u8]; 2],
    pub room: usize,
}

/// What a run has done: bytes taken of x and of y, digits written.
pub struct Run {
    pub state: State,
    pub taken: [usize; 2],
    pub written: Vec<u8>,
}

/// One step after another until one stops; the answer has the end number.
pub fn go_on(call: &Call, state: State) -> (u8, Run) {
    let mut run = Run { state, taken: [0; 2], written: Vec::new() };
    loop {
        if let Err(end) = step(call, &mut run) {
            return (end, run);
        }
    }
}

/// A stop is an error with its end number; it "leaves the state as it was before that step".
fn step(call: &Call, run: &mut Run) -> Result<(), u8> {
    // "A missing digit is loaded before anything else, x before y."
    let order = if planted(Fault::PairLoadsYFirst) { [1, 0] } else { [0, 1] };
    if let Some(which) = order.into_iter().find(|&which| run.state.held[which].is_none()) {
        return load(call, run, which);
    }
    if planted(Fault::PairRoomFirst) && run.written.len() >= call.room {
        return Err(20);
    }
    let input_left = (0..2).all(|which| run.taken[which] < call.words[which].len());
    match digit_to_give(call, &run.state) {
        Some(c) if !(planted(Fault::PairAbsorbsEarly) && input_left) => give(call, run, c),
        _ => absorb(call, run, run.state.turn),
    }
}

fn load(call: &Call, run: &mut Run, which: usize) -> Result<(), u8> {
    // "0 if a missing digit has no input left."
    let Some(&byte) = call.words[which].get(run.taken[which]) else {
        let goes_on = planted(Fault::PairGoesOnWithX) && which == 1 && run.taken[0] < call.words[0].len();
        return if goes_on { absorb(call, run, 0) } else { Err(0) };
    };
    // "Ends 20 to 22 as before": "The next byte is no digit of the input system: stop, end 21. The byte is not taken."
    let digits = if planted(Fault::PairOutputsDigits) { call.input.len().min(call.output.len()) } else { call.input.len() };
    if byte as usize >= digits {
        run.taken[which] += (planted(Fault::PairNoDigitTaken) && which == 1) as usize;
        return Err(21);
    }
    run.state.held[which] = Some(byte);
    run.taken[which] += 1;
    Ok(())
}

/// The row of the digit held of x, or of y.
fn row_held<'a>(call: &Call<'a>, state: &State, which: usize) -> &'a Row {
    &call.input[state.held[which].expect("both are held here") as usize]
}

/// "The smallest such c."
fn digit_to_give(call: &Call, state: &State) -> Option<u8> {
    let images = images(state.x, [0, 1].map(|which| w(row_held(call, state, which))));
    let mut given = (0..call.output.len()).filter(|&c| may_be_given(&images, w(&call.output[c])));
    let c = if planted(Fault::PairLastDigit) { given.last() } else { given.next() };
    c.map(|c| c as u8)
}

/// "No room in the output: stop, end 20. Else X becomes pseudoinverse(G)·X, cancelled; if an entry leaves the range: stop, end 22; else write" it.
fn give(call: &Call, run: &mut Run, c: u8) -> Result<(), u8> {
    let next = in_range_behind(before(pseudoinverse(f(&call.output[c as usize])), run.state.x));
    if planted(Fault::PairRangeBeforeRoom) {
        next?;
    }
    if run.written.len() >= call.room {
        return Err(20);
    }
    if planted(Fault::PairWritesFirst) && next.is_err() {
        run.written.push(c);
    }
    run.state.x = next?;
    run.written.push(c);
    Ok(())
}

/// "Otherwise absorb, x first and then by turns": "X becomes X·F_held, cancelled, and nothing is held; if an entry leaves the range: stop, end 22."
fn absorb(call: &Call, run: &mut Run, which: usize) -> Result<(), u8> {
    let f = f(row_held(call, &run.state, which));
    let [of_x, of_y] = if which == 0 || planted(Fault::PairYAsX) { [f, SAME] } else { [SAME, f] };
    let next = in_range_behind(behind(run.state.x, of_x, of_y));
    if planted(Fault::PairHeldIsLost) {
        run.state.held[which] = None;
    }
    run.state.x = next?;
    run.state.held[which] = None;
    if !planted(Fault::PairTurnKept) {
        run.state.turn = 1 - which;
    }
    Ok(())
}

/// "The range is tested after cancelling."
fn in_range_behind(x: Form) -> Result<Form, u8> {
    let next = cancelled(x);
    let tested = if planted(Fault::PairRangeFirst) { &x } else { &next };
    if in_range(tested) { Ok(next) } else { Err(22) }
}

/// What a call answers: its end or the number of its refusal, bytes taken of x and of y, digits written, and the state.
#[derive(Clone, Debug, PartialEq)]
pub struct Answer {
    pub end: u8,
    pub taken: [usize; 2],
    pub written: Vec<u8>,
    pub state: Numbers,
}

/// "A run judges its input system, its output system, then the state (12), before any step; it then answers the number, counts 0 and 0, the state as
/// handed in, and an untouched output." The first system is the input system, of both words.
pub fn answer(systems: &[Columns; 2], state: &Numbers, words: [&[u8]; 2], room: usize) -> Answer {
    match judge_all(systems, state) {
        Err(end) => Answer { end, taken: [0; 2], written: Vec::new(), state: *state },
        Ok(judged) => {
            let [input, output] = [0, 1].map(|k: usize| systems[k].rows());
            let (end, run) = go_on(&Call { input: &input, output: &output, words, room }, judged);
            Answer { end, taken: run.taken, written: run.written, state: numbers(&run.state) }
        }
    }
}

fn judge_all([input, output]: &[Columns; 2], state: &Numbers) -> Result<State, u8> {
    let state = judge(state, input.used());
    if planted(Fault::PairStateFirst) {
        state.clone()?;
    }
    if planted(Fault::PairOutputFirst) {
        output.judge()?;
    }
    input.judge()?;
    output.judge()?;
    state
}
