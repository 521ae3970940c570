//! What the bytes of a case are made of, whether it is a run with two inputs (T-14) or a job file to be written (T-01): numbers with their low byte first,
//! systems, and words after their lengths. Those that take answer none where the bytes end too early.

use crate::columns::{by_column, Columns};
use crate::systems::{B, D, R};

/// The built-in system of that name.
pub fn named(name: u8) -> Option<Columns> {
    match name {
        b'R' => Some(by_column(&R)),
        b'B' => Some(by_column(&B)),
        b'D' => Some(by_column(&D)),
        _ => None,
    }
}

/// The name of a built-in system, with 0 at the places of digits that it hasn't got.
pub fn name_of(system: &Columns) -> Option<u8> {
    b"RBD".iter().copied().find(|&name| named(name).as_ref() == Some(system))
}

/// The name, and after `S` the count in 8 bytes and 128 numbers of 2 bytes by columns.
pub fn push_system(bytes: &mut Vec<u8>, name: u8, system: &Columns) {
    bytes.push(name);
    if name == b'S' {
        bytes.extend(system.count.to_le_bytes());
        bytes.extend(system.runs.as_flattened().iter().flat_map(|&n| (n as i16).to_le_bytes()));
    }
}

pub fn push_word(bytes: &mut Vec<u8>, word: &[u8]) {
    push_length(bytes, word.len());
    bytes.extend(word);
}

/// A length, in 2 bytes.
pub fn push_length(bytes: &mut Vec<u8>, length: usize) {
    bytes.extend((length as u16).to_le_bytes());
}

/// Signed numbers of 8 bytes.
pub fn push_numbers(bytes: &mut Vec<u8>, numbers: &[i128]) {
    bytes.extend(numbers.iter().flat_map(|&n| (n as i64).to_le_bytes()));
}

pub fn take<'a>(rest: &mut &'a [u8], length: usize) -> Option<&'a [u8]> {
    let (taken, left) = rest.split_at_checked(length)?;
    *rest = left;
    Some(taken)
}

pub fn take_length(rest: &mut &[u8]) -> Option<usize> {
    Some(u16::from_le_bytes(take(rest, 2)?.try_into().ok()?) as usize)
}

pub fn take_numbers<const N: usize>(rest: &mut &[u8]) -> Option<[i128; N]> {
    let mut numbers = [0; N];
    for number in &mut numbers {
        *number = i64::from_le_bytes(take(rest, 8)?.try_into().ok()?) as i128;
    }
    Some(numbers)
}

pub fn take_system(rest: &mut &[u8]) -> Option<(u8, Columns)> {
    let name = take(rest, 1)?[0];
    if name != b'S' {
        return Some((name, named(name)?));
    }
    let count = u64::from_le_bytes(take(rest, 8)?.try_into().ok()?);
    let mut runs = [[0; 16]; 8];
    for number in runs.as_flattened_mut() {
        *number = take_length(rest)? as i16 as i128;
    }
    Some((name, Columns { count, runs }))
}

pub fn take_word(rest: &mut &[u8]) -> Option<Vec<u8>> {
    let length = take_length(rest)?;
    Some(take(rest, length)?.to_vec())
}
