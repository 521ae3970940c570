//! A case of writing (T-01): its bytes, and the line that is printed for it. And the line that is printed for a job file that is written again.

use crate::case_bytes::{push_length, push_numbers, push_system, push_word, take_length, take_numbers, take_system, take_word};
use crate::reading;
use crate::writing::{contents_of, write, Contents};

/// What the bytes of a case say.
#[derive(Clone, Debug, PartialEq)]
pub struct WritingCase {
    /// Of the input system and the output system: `R`, `B` or `D`, or `S` for one whose numbers are in the case.
    pub names: [u8; 2],
    pub contents: Contents,
    /// How many bytes the lent buffer has.
    pub room: usize,
}

/// No word and no buffer of a case is longer.
pub const MOST: usize = 8192;

/// Each byte of a buffer before the call.
const BEFORE: u8 = 238;

pub fn layout(case: &WritingCase) -> Vec<u8> {
    let mut bytes = Vec::new();
    case.names.iter().zip(&case.contents.systems).for_each(|(&name, system)| push_system(&mut bytes, name, system));
    push_numbers(&mut bytes, &case.contents.matrix);
    push_word(&mut bytes, &case.contents.word);
    push_length(&mut bytes, case.room);
    bytes
}

/// The case of these bytes; none if they are no whole case, or more than one.
pub fn read(mut bytes: &[u8]) -> Option<WritingCase> {
    let rest = &mut bytes;
    let (input, output) = (take_system(rest)?, take_system(rest)?);
    let (matrix, word, room) = (take_numbers(rest)?, take_word(rest)?, take_length(rest)?);
    let whole = rest.is_empty() && word.len() <= MOST && room <= MOST;
    whole.then_some(WritingCase { names: [input.0, output.0], contents: Contents { systems: [input.1, output.1], matrix, word }, room })
}

/// The number of the refusal or 0, its section or 0, and how many bytes were written; and the buffer afterwards.
fn called(contents: &Contents, room: usize) -> ([usize; 3], Vec<u8>) {
    let mut buffer = vec![BEFORE; room];
    let answer = match write(contents, &mut buffer) {
        Ok(written) => [0, 0, written],
        Err(refusal) => [refusal.number as usize, refusal.section as usize, 0],
    };
    (answer, buffer)
}

/// The three numbers, and every byte of the buffer afterwards, each behind one blank.
pub fn printed(case: &WritingCase) -> String {
    let ([number, section, written], buffer) = called(&case.contents, case.room);
    let bytes: String = buffer.iter().map(|byte| format!(" {byte}")).collect();
    format!("{number} {section} {written} |{bytes}\n")
}

/// The line that `again` prints, where the file reads: the job is written again, into a buffer as long as the file. The number of the refusal or
/// 0, how many bytes were written, and how many of the buffer, from the first one on, are the file's.
pub fn printed_again(file: &[u8]) -> String {
    let Ok(job) = reading::read(file) else { return String::new() };
    let ([number, _, written], buffer) = called(&contents_of(&job), file.len());
    let same = buffer.iter().zip(file).take_while(|(byte, again)| byte == again).count();
    format!("{number} {written} {same}\n")
}
