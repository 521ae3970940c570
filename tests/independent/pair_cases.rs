//! A case of a run with two inputs (T-14): its bytes, and the three lines that are printed for it.

use crate::case_bytes::{push_length, push_numbers, push_system, push_word, take, take_length, take_numbers, take_system, take_word};
use crate::columns::Columns;
use crate::faults::{planted, Fault};
use crate::pairs::{answer, numbers, opened, Answer, Numbers, MINUS, PLUS, TIMES};
use crate::running::parted;

/// What the bytes of a case say.
#[derive(Clone, Debug, PartialEq)]
pub struct PairCase {
    /// `+`, `-` or `*`, or `s` for a state that is handed in.
    pub operation: u8,
    pub state: Numbers,
    /// Of the input system and the output system: `R`, `B` or `D`, or `S` for one whose numbers are in the case.
    pub names: [u8; 2],
    pub systems: [Columns; 2],
    pub words: [Vec<u8>; 2],
    /// Room of the first call, and how much more the second one has.
    pub rooms: [usize; 2],
    /// How many bytes of each word the first call gets.
    pub cuts: [usize; 2],
}

/// The state that an operation opens with.
pub fn opening(operation: u8) -> Option<Numbers> {
    let form = match operation {
        b'+' => PLUS,
        b'-' => MINUS,
        b'*' => TIMES,
        _ => return None,
    };
    Some(numbers(&opened(form)))
}

pub fn layout(case: &PairCase) -> Vec<u8> {
    let mut bytes = vec![case.operation];
    if case.operation == b's' {
        push_numbers(&mut bytes, &case.state);
    }
    case.names.iter().zip(&case.systems).for_each(|(&name, system)| push_system(&mut bytes, name, system));
    case.words.iter().for_each(|word| push_word(&mut bytes, word));
    [case.rooms, case.cuts].as_flattened().iter().for_each(|&n| push_length(&mut bytes, n));
    bytes
}

/// The case of these bytes; none if they are no whole case, or more than one.
pub fn read(mut bytes: &[u8]) -> Option<PairCase> {
    let rest = &mut bytes;
    let operation = take(rest, 1)?[0];
    let state = if operation == b's' { take_numbers(rest)? } else { opening(operation)? };
    let (input, output) = (take_system(rest)?, take_system(rest)?);
    let words = [take_word(rest)?, take_word(rest)?];
    let rooms = [take_length(rest)?, take_length(rest)?];
    let cuts = [take_length(rest)?, take_length(rest)?];
    let whole = rest.is_empty() && (0..2).all(|k| cuts[k] <= words[k].len());
    whole.then_some(PairCase { operation, state, names: [input.0, output.0], systems: [input.1, output.1], words, rooms, cuts })
}

/// A call with the case's systems.
pub fn called(case: &PairCase, state: &Numbers, words: [&[u8]; 2], room: usize) -> Answer {
    answer(&case.systems, state, words, room)
}

/// The call with all there is, from the start.
pub fn whole(case: &PairCase) -> Answer {
    called(case, &case.state, [&case.words[0], &case.words[1]], case.rooms[0] + case.rooms[1])
}

/// The first call, and the one that goes on from there: with the bytes that the first did not take, whether it was given them or not, and the room
/// that it did not fill, and more of it.
pub fn in_two(case: &PairCase) -> [Answer; 2] {
    let [x, y] = &case.words;
    let first = called(case, &case.state, [&x[..case.cuts[0]], &y[..case.cuts[1]]], case.rooms[0]);
    let rest = [&x[first.taken[0]..], &y[first.taken[1]..]];
    let second = called(case, &first.state, rest, room_left(case, &first));
    [first, second]
}

/// A fault may write more than there is room for.
fn room_left(case: &PairCase, first: &Answer) -> usize {
    case.rooms[0].saturating_sub(first.written.len()) + case.rooms[1]
}

/// Three lines: the first call, the second, and one call that does all.
pub fn printed(case: &PairCase) -> String {
    let [first, second] = in_two(case);
    let rooms = [case.rooms[0], room_left(case, &first), case.rooms[0] + case.rooms[1]];
    let answers = [first, second, whole(case)];
    answers.iter().zip(rooms).map(|(answer, room)| line(answer, room)).collect()
}

/// End, taken of x, taken of y, written; the state; and every byte of the output afterwards. Before the call each was 238.
fn line(answer: &Answer, room: usize) -> String {
    let behind = if planted(Fault::PairClearsOutput) { 0 } else { 238 };
    let mut output = answer.written.clone();
    output.resize(room.max(output.len()), behind);
    let [x, y] = answer.taken;
    let parts = [format!("{} {x} {y} {} ", answer.end, answer.written.len()), format!(" {} ", parted(&answer.state)), format!(" {}", parted(&output))];
    parts.join("|").trim_end().to_string() + "\n"
}
