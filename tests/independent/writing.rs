//! "Writing job files" of document 02 (T-01).
//!
//! Nothing is written behind something else here. What stands at a place of the file is worked out from the place; the file of all these bytes is given to
//! the reader, whose refusals are the writer's; and then each place of the buffer gets its byte.

use crate::columns::{by_column, Columns};
use crate::faults::{planted, Fault};
use crate::plane::Matrix;
use crate::reading::{read, Job, Refusal};
use crate::writing_faults::{mistaken, past_the_file, put, refused, spoilt, told_first};

/// "Two systems, a matrix and a word": the systems by columns (T-12), and the numbers as they are handed over, too large ones too.
#[derive(Clone, Debug, PartialEq)]
pub struct Contents {
    pub systems: [Columns; 2],
    pub matrix: Matrix,
    pub word: Vec<u8>,
}

pub fn contents_of(job: &Job) -> Contents {
    Contents { systems: [by_column(&job.input), by_column(&job.output)], matrix: job.matrix, word: job.word.clone() }
}

/// "Fill a lent buffer with the job file." The answer is how many bytes the file has.
pub fn write(contents: &Contents, buffer: &mut [u8]) -> Result<usize, Refusal> {
    let contents = &mistaken(contents);
    let file = file_of(contents);
    judge(contents, &file, buffer.len()).map_err(|refusal| refused(refusal, contents, &file, buffer))?;
    // "Bytes past the file stay."
    past_the_file(&mut buffer[file.len()..]);
    let file = spoilt(contents, file);
    put(&file, buffer);
    Ok(file.len())
}

/// "Refusals: those of the reader for the same contents, in its order; then 14, buffer too short, nothing written."
fn judge(contents: &Contents, file: &[u8], room: usize) -> Result<(), Refusal> {
    told_first(contents, room < file.len())?;
    match read(file) {
        Err(Refusal { number: 5, .. }) if planted(Fault::WriteLongWord) && contents.word.len() == 4097 => (),
        answer => drop(answer?),
    }
    let enough = file.len() + planted(Fault::WriteExactRefused) as usize;
    if room < enough { Err(TOO_SHORT) } else { Ok(()) }
}

/// It is no section's; it is told with section 0.
pub const TOO_SHORT: Refusal = Refusal { number: 14, section: 0 };

pub fn file_of(contents: &Contents) -> Vec<u8> {
    (0..length(contents)).map(|place| byte_at(contents, place)).collect()
}

/// All before the word's bytes is numbers of two bytes each.
pub fn length(contents: &Contents) -> usize {
    2 * starts(contents)[4] + contents.word.len()
}

/// How many numbers stand before each section, and before the word's bytes: a section has its count, and then a system has eight numbers for each
/// digit, and the matrix has four.
pub fn starts(contents: &Contents) -> [usize; 5] {
    let [input, output] = [0, 1].map(|which: usize| 1 + 8 * contents.systems[which].used());
    [0, input, input + output, input + output + 5, input + output + 6]
}

/// "Low byte first, two's complement."
fn byte_at(contents: &Contents, place: usize) -> u8 {
    let numbers = starts(contents)[4];
    match place.checked_sub(2 * numbers) {
        Some(place) => contents.word[place],
        None => (number_at(contents, place / 2).rem_euclid(65536) >> (8 * (place % 2))) as u8,
    }
}

/// "Four sections in fixed order, each after its count": the number that has so many before it.
fn number_at(contents: &Contents, before: usize) -> i128 {
    let starts = starts(contents);
    let section = starts.iter().rposition(|&start| start <= before).expect("the first section starts with the first number");
    match (section, before - starts[section]) {
        (0 | 1, 0) => sayable_count(contents.systems[section].count as i128),
        (0 | 1, n) => contents.systems[section].runs[(n - 1) % 8][(n - 1) / 8],
        (2, 0) => 4,
        (2, n) => sayable_entry(contents.matrix[n - 1]),
        _ => sayable_count(contents.word.len() as i128),
    }
}

/// A count that two bytes cannot say is above 16 and above 4096, and so is the largest one that they can: the reader refuses both alike.
fn sayable_count(n: i128) -> i128 {
    n.min(65535)
}

/// An entry that is no 16-bit number is out of −1000..1000, and so is the nearest one that is.
fn sayable_entry(n: i128) -> i128 {
    n.clamp(-32768, 32767)
}
