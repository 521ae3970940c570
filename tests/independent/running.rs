//! "The step" and "The program" of document 01, with the list of document 02 (T-02).

use crate::faults::{planted, Fault};
use crate::plane::{cancel, gcd, image, included, product, pseudoinverse, Interval, Matrix};
use crate::reading::{read, Job};
use crate::systems::{f, w, R};

/// The program "gives room for 8,192 digits".
pub const ROOM: usize = 8192;

/// "State: a matrix X (cancelled, determinant above 0, entries within ±1,000,000,000) and a held digit of the input system, or none." And what the
/// run has done: bytes taken, digits written, divisors listed (T-02).
pub struct Run {
    pub x: Matrix,
    pub held: Option<u8>,
    pub taken: usize,
    pub written: Vec<u8>,
    pub listed: Vec<i128>,
}

/// What a run is lent: room for so many digits, and a list with so many places.
#[derive(Clone, Copy)]
pub struct Lent {
    pub room: usize,
    pub places: usize,
}

/// Each divisor goes with a byte that was taken, with the digit held at first, or with a digit that was written.
pub fn never_full(job: &Job, room: usize) -> Lent {
    Lent { room, places: job.word.len() + room + 1 }
}

pub fn starting_at(x: Matrix, held: Option<u8>) -> Run {
    Run { x, held, taken: 0, written: Vec::new(), listed: Vec::new() }
}

/// "X is M cancelled, nothing held."
pub fn opened(job: &Job) -> Run {
    starting_at(cancel(job.matrix), None)
}

/// A job's run from its start, with a list that is never full.
pub fn run(job: &Job, room: usize) -> (u8, Run) {
    go_on(job, never_full(job, room), opened(job))
}

/// One step after another until one stops; the answer has the end number.
pub fn go_on(job: &Job, lent: Lent, mut run: Run) -> (u8, Run) {
    loop {
        if let Err(end) = step(job, lent, &mut run) {
            return (end, run);
        }
    }
}

/// "One step, first line that applies." A stop is an error with its end number; it "leaves the state as it was before that step".
pub fn step(job: &Job, lent: Lent, run: &mut Run) -> Result<(), u8> {
    let Some(held) = run.held else { return take_digit(job, lent, run) };
    let row = &job.input[held as usize];
    if planted(Fault::RoomFirst) && run.written.len() >= lent.room {
        return Err(20);
    }
    match digit_that_fits(job, image(run.x, w(row))) {
        Some(b) if !(planted(Fault::AbsorbsEarly) && run.taken < job.word.len()) => give_digit(job, lent, run, b),
        _ => absorb(lent, run, f(row)),
    }
}

/// Lines 1 to 3, where nothing is held.
fn take_digit(job: &Job, lent: Lent, run: &mut Run) -> Result<(), u8> {
    // "1. Nothing held and no input left: stop, end 0."
    let Some(&byte) = job.word.get(run.taken) else { return Err(0) };
    // "2. Nothing held and the next byte is no digit of the input system: stop, end 21. The byte is not taken."
    if byte as usize >= job.input.len() {
        run.taken += planted(Fault::NoDigitTaken) as usize;
        return Err(21);
    }
    // "3. Nothing held: take the byte as the held digit. X stays."
    run.held = Some(byte);
    run.taken += 1;
    if planted(Fault::ListsLoading) {
        list(lent, run, 1);
    }
    Ok(())
}

/// "4. Some U_b includes X·W_held: let b be the smallest."
fn digit_that_fits(job: &Job, named: Interval) -> Option<u8> {
    let rows = if planted(Fault::FourDigitsAreR) && job.output.len() == R.len() { &R[..] } else { &job.output };
    let u = |b: u8| w(&rows[b as usize]);
    let mut fitting = (0..job.output.len() as u8).filter(|&b| included(named, u(b)));
    if planted(Fault::LastDigit) {
        return fitting.last();
    }
    if planted(Fault::NarrowestDigit) {
        return fitting.reduce(|b, c| if included(u(c), u(b)) && !included(u(b), u(c)) { c } else { b });
    }
    fitting.next()
}

/// Line 4, with b found.
fn give_digit(job: &Job, lent: Lent, run: &mut Run, b: u8) -> Result<(), u8> {
    let next = cancelled(product(pseudoinverse(f(&job.output[b as usize])), run.x));
    if planted(Fault::ListBeforeRoom) {
        ask_for_place(lent, run, &next)?;
    }
    // "No room in the output: stop, end 20."
    if run.written.len() >= lent.room && !(planted(Fault::RangeBeforeRoom) && !next.in_range) {
        return Err(20);
    }
    ask_for_place(lent, run, &next)?;
    if planted(Fault::WritesFirst) && !next.in_range {
        run.written.push(b);
    }
    // "Else X becomes pseudoinverse(G_b)·X, cancelled; if an entry leaves the range: stop, end 22; else write b."
    make(lent, run, next)?;
    run.written.push(b);
    Ok(())
}

/// "5. No U_b does: X becomes X·F_held, cancelled, and nothing is held; if an entry leaves the range: stop, end 22."
fn absorb(lent: Lent, run: &mut Run, f_held: Matrix) -> Result<(), u8> {
    let next = cancelled(product(run.x, f_held));
    if !planted(Fault::ListForGivingOnly) {
        ask_for_place(lent, run, &next)?;
    }
    if planted(Fault::HeldIsLost) {
        run.held = None;
    }
    make(lent, run, next)?;
    run.held = None;
    Ok(())
}

/// "Cancelling hands back its divisor beside the matrix" (T-02).
struct Cancelled {
    x: Matrix,
    divisor: i128,
    in_range: bool,
}

/// "The range is tested after cancelling."
fn cancelled(m: Matrix) -> Cancelled {
    let limit = if planted(Fault::RangeOneLess) { 999_999_999 } else { 1_000_000_000 };
    let (x, divisor) = if planted(Fault::CancelsTwoAlone) && gcd(&m) != 2 { (m, 1) } else { (cancel(m), gcd(&m)) };
    let tested = if planted(Fault::RangeFirst) { m } else { x };
    let divisor = if planted(Fault::DivisorOfTwo) { gcd(&m[..2]) } else { divisor };
    Cancelled { x, divisor, in_range: tested.iter().all(|n| n.abs() <= limit) }
}

/// "15, the list is full, in steps 4 and 5, after 20 and before 22" (T-02).
fn ask_for_place(lent: Lent, run: &Run, next: &Cancelled) -> Result<(), u8> {
    let not_asked = planted(Fault::FullListGoesOn)
        || (planted(Fault::RangeBeforeList) && !next.in_range)
        || (planted(Fault::ListsAboveOne) && next.divisor == 1);
    if run.listed.len() >= lent.places && !not_asked { Err(15) } else { Ok(()) }
}

/// The step 4 or 5 is made, or it is end 22. "Each step passes it on, and a run lists them in a second lent buffer, one number for each step 4 or 5
/// made" (T-02).
fn make(lent: Lent, run: &mut Run, next: Cancelled) -> Result<(), u8> {
    if !next.in_range {
        return Err(22);
    }
    run.x = next.x;
    list(lent, run, next.divisor);
    Ok(())
}

fn list(lent: Lent, run: &mut Run, divisor: i128) {
    if run.listed.len() < lent.places && !(planted(Fault::ListsAboveOne) && divisor == 1) {
        run.listed.push(divisor);
    }
}

/// What the program prints for a file: "three lines: end number, digits taken, digits written; the four entries and the held digit or `-`; the output
/// digits. Fields are parted by one blank; with no digits the third line is empty. A refused file prints one line: `refused`, number, section."
pub fn printed(file: &[u8]) -> String {
    let job = match read(file) {
        Ok(job) => job,
        Err(refusal) => return format!("refused {} {}\n", refusal.number, refusal.section),
    };
    let (end, run) = run(&job, ROOM);
    let [a, b, c, d] = run.x;
    let held = run.held.map_or("-".to_string(), |digit| digit.to_string());
    format!("{end} {} {}\n{a} {b} {c} {d} {held}\n{}\n", run.taken, run.written.len(), parted(&run.written))
}

/// The line that `many` prints besides, where the file reads: of a second run from the start, with the program's room and a list of so many places,
/// the end, digits taken, digits written and numbers listed, and then these numbers.
pub fn printed_list(file: &[u8], places: usize) -> String {
    let Ok(job) = read(file) else { return String::new() };
    let (end, run) = go_on(&job, Lent { room: ROOM, places }, opened(&job));
    let counts = [end as i128, run.taken as i128, run.written.len() as i128, run.listed.len() as i128];
    parted(&[&counts[..], &run.listed].concat()) + "\n"
}

/// Parted by one blank.
pub fn parted<T: ToString>(fields: &[T]) -> String {
    fields.iter().map(T::to_string).collect::<Vec<String>>().join(" ")
}
