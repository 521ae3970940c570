//! "Job file" and "Numbers of refusal" of document 01, with number 18 of document 02 (T-04).

use crate::expanding::expands;
use crate::faults::{planted, Fault};
use crate::plane::{covered, det, determinant, gcd, Interval, Matrix};
use crate::systems::{f, w, Row};

#[derive(Clone, Debug)]
pub struct Job {
    pub input: Vec<Row>,
    pub output: Vec<Row>,
    pub matrix: Matrix,
    pub word: Vec<u8>,
}

/// "The answer is the number and the section, 0 to 3."
#[derive(Debug, PartialEq)]
pub struct Refusal {
    pub number: u8,
    pub section: u8,
}

/// "Four sections in fixed order, each after its count: input system; output system; matrix; word. Nothing follows."
pub fn read(file: &[u8]) -> Result<Job, Refusal> {
    let mut rest = file;
    let input = in_section(0, read_system(&mut rest))?;
    let output = in_section(1, read_system(&mut rest))?;
    let mut matrix = in_section(2, read_matrix(&mut rest));
    if !planted(Fault::MatrixLast) {
        matrix = Ok(matrix?);
    }
    let word = in_section(3, read_word(&mut rest))?;
    // "Last, 2." "2 has section 3."
    if !rest.is_empty() {
        return Err(Refusal { number: 2, section: 3 });
    }
    Ok(Job { input, output, matrix: matrix?, word })
}

fn in_section<T>(section: u8, answer: Result<T, u8>) -> Result<T, Refusal> {
    answer.map_err(|number| Refusal { number, section })
}

/// Refuses with a number if the condition holds.
fn refuse_if(condition: bool, number: u8) -> Result<(), u8> {
    if condition { Err(number) } else { Ok(()) }
}

/// The next bytes of the file; "1: the file ends before a count or a section is whole".
fn take<'a>(rest: &mut &'a [u8], length: usize) -> Result<&'a [u8], u8> {
    refuse_if(rest.len() < length, 1)?;
    let (taken, left) = rest.split_at(length);
    *rest = left;
    Ok(taken)
}

/// "Its count (2 bytes, low byte first)."
fn take_count(rest: &mut &[u8]) -> Result<usize, u8> {
    let bytes = take(rest, 2)?;
    let high = if planted(Fault::LowByteOfCount) { 0 } else { bytes[1] };
    Ok(bytes[0] as usize + 256 * high as usize)
}

/// "Signed 16-bit numbers, low byte first, two's complement."
fn take_numbers(rest: &mut &[u8], how_many: usize) -> Result<Vec<i128>, u8> {
    let bytes = take(rest, 2 * how_many)?;
    let unsigned = bytes.chunks(2).map(|pair| pair[0] as i128 + 256 * pair[1] as i128);
    Ok(unsigned.map(|n| if n < 32768 { n } else { n - 65536 }).collect())
}

/// "A section's count present (1), count right (3), section present (1), then contents: row by row 6, 7, 8, 9; then 10."
/// "18, a row not expanding, directly after 10" (T-04).
fn read_system(rest: &mut &[u8]) -> Result<Vec<Row>, u8> {
    let count = take_count(rest)?;
    if planted(Fault::LengthBeforeCount) {
        refuse_if(rest.len() < 16 * count, 1)?;
    }
    let most = if planted(Fault::SeventeenDigits) { 17 } else { 16 };
    refuse_if(count == 0 || count > most, 3)?;
    let numbers = take_numbers(rest, 8 * count)?;
    let rows: Vec<Row> = numbers.chunks(8).map(|row| row.try_into().unwrap()).collect();
    judge_system(&rows)?;
    Ok(rows)
}

/// "Admitted if every number lies in −100..100, det F > 0, det W < 0, the four numbers of F have greatest common divisor 1, so have the two numbers
/// of each end, and every point lies in the closed interval of some digit." And "a system must expand" (T-04).
pub fn judge_system(rows: &[Row]) -> Result<(), u8> {
    refuse_if(planted(Fault::RangesFirst) && rows.iter().flatten().any(|n| n.abs() > 100), 6)?;
    for row in rows {
        judge_row(row)?;
    }
    let growing = refuse_if(!rows.iter().all(|row| expands(f(row), w(row))), 18);
    if planted(Fault::GrowthBeforeCover) {
        growing?;
    }
    let intervals: Vec<Interval> = rows.iter().map(w).collect();
    refuse_if(!covered(&intervals), 10)?;
    growing
}

pub fn judge_row(row: &Row) -> Result<(), u8> {
    let Interval { left, right } = w(row);
    refuse_if(row.iter().any(|n| n.abs() > 100), 6)?;
    refuse_if(planted(Fault::IntervalFirst) && det(left, right) >= 0, 8)?;
    refuse_if(determinant(f(row)) <= 0, 7)?;
    refuse_if(det(left, right) >= 0, 8)?;
    refuse_if(gcd(&f(row)) != 1, 9)?;
    refuse_if(gcd(&left) != 1, 9)?;
    refuse_if(gcd(&right) != 1 && !planted(Fault::RightEndAnyTerms), 9)
}

/// "Matrix (count 4, then a b c d as such numbers)": "6, then 11", and M has "entries in −1000..1000 and determinant above 0".
fn read_matrix(rest: &mut &[u8]) -> Result<Matrix, u8> {
    let count = take_count(rest)?;
    refuse_if(count != 4, 4)?;
    let numbers = take_numbers(rest, 4)?;
    let matrix: Matrix = numbers.try_into().unwrap();
    refuse_if(matrix.iter().any(|n| n.abs() > 1000), 6)?;
    refuse_if(determinant(matrix) <= 0, 11)?;
    Ok(matrix)
}

/// "Word (count 0..4096, one byte a digit)." "The word's bytes are not tested here."
fn read_word(rest: &mut &[u8]) -> Result<Vec<u8>, u8> {
    let count = take_count(rest)?;
    let most = if planted(Fault::ShortWords) { 4095 } else { 4096 };
    refuse_if(count > most, 5)?;
    Ok(take(rest, count)?.to_vec())
}
