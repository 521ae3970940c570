//! What the planted faults of the writer (T-01) do. With none planted, nothing here has an effect.

use crate::columns::{by_column, Columns};
use crate::faults::{planted, Fault};
use crate::plane::cancel;
use crate::reading::Refusal;
use crate::systems::Row;
use crate::writing::{file_of, starts, Contents, TOO_SHORT};

/// The contents as they are taken from the caller.
pub fn mistaken(contents: &Contents) -> Contents {
    let mut taken = contents.clone();
    for system in &mut taken.systems {
        if planted(Fault::WriteCountLowByte) {
            system.count %= 256;
        }
        if planted(Fault::WriteCount32Bits) {
            system.count %= 1 << 32;
        }
    }
    if planted(Fault::WriteMatrix16Bits) {
        taken.matrix = taken.matrix.map(|n| n as i16 as i128);
    }
    taken
}

/// What is told before the refusals of the reader.
pub fn told_first(contents: &Contents, short: bool) -> Result<(), Refusal> {
    let [input, output] = &contents.systems;
    let refuse_if = |condition, number, section| if condition { Err(Refusal { number, section }) } else { Ok(()) };
    refuse_if(planted(Fault::WriteShortFirst) && short, 14, 0)?;
    refuse_if(planted(Fault::WriteShortBeforeMatrix) && short && input.judge().is_ok() && output.judge().is_ok(), 14, 0)?;
    refuse_if(planted(Fault::WriteUnusedJudged) && unused_large(input), 6, 0)?;
    refuse_if(planted(Fault::WriteUnusedJudged) && unused_large(output), 6, 1)?;
    refuse_if(planted(Fault::WriteDigitsJudged) && contents.word.iter().any(|&digit| digit as u64 >= input.count), 21, 3)?;
    if planted(Fault::WriteOutputFirst) { output.judge().map_err(|number| Refusal { number, section: 1 }) } else { Ok(()) }
}

fn unused_large(system: &Columns) -> bool {
    system.runs.iter().any(|run| run[system.used()..].iter().any(|n| n.abs() > 100))
}

/// What becomes of a refusal, and of the buffer in spite of it.
pub fn refused(refusal: Refusal, contents: &Contents, file: &[u8], buffer: &mut [u8]) -> Refusal {
    let judged = 2 * starts(contents)[refusal.section as usize];
    if planted(Fault::WritePart) && refusal == TOO_SHORT || planted(Fault::WriteThenJudge) {
        let written = if refusal == TOO_SHORT { file.len() } else { judged };
        put(&file[..written], buffer);
    }
    if planted(Fault::WriteSectionLost) { Refusal { section: 0, ..refusal } } else { refusal }
}

/// As much of the file as there is room for.
pub fn put(file: &[u8], buffer: &mut [u8]) {
    buffer.iter_mut().zip(file).for_each(|(place, &byte)| *place = byte);
}

/// The bytes that are written.
pub fn spoilt(contents: &Contents, file: Vec<u8>) -> Vec<u8> {
    let [_, output, matrix, word, digits] = starts(contents).map(|numbers| 2 * numbers);
    let mut file = if others_written(contents) == *contents { file } else { file_of(&others_written(contents)) };
    if planted(Fault::WriteAtStart) {
        [output, matrix, word].iter().zip([matrix, word, file.len()]).for_each(|(&from, to)| file.copy_within(from..to, 0));
    }
    if planted(Fault::WriteUnusedRow) {
        file.splice(matrix..matrix, [0; 16]);
    }
    if planted(Fault::WriteHighFirst) {
        file[..digits].chunks_mut(2).for_each(|number| number.swap(0, 1));
    }
    if planted(Fault::WriteSixteen) {
        [file[0], file[output]] = [16; 2];
    }
    if planted(Fault::WriteWordLowByte) {
        file[word + 1] = 0;
    }
    file
}

/// The contents that are written.
fn others_written(contents: &Contents) -> Contents {
    let mut other = contents.clone();
    if planted(Fault::WriteTransposed) {
        other.matrix.swap(1, 2);
    }
    if planted(Fault::WriteCancelled) {
        other.matrix = cancel(contents.matrix);
    }
    if planted(Fault::WriteInputTwice) {
        other.systems[1] = contents.systems[0].clone();
    }
    if planted(Fault::WriteByColumns) {
        other.systems = contents.systems.clone().map(|system| by_column(&columns_as_rows(&system)));
    }
    other
}

/// The first numbers of all digits, then the second ones, and so on, cut into rows.
fn columns_as_rows(system: &Columns) -> Vec<Row> {
    let numbers: Vec<i128> = system.runs.iter().flat_map(|run| &run[..system.used()]).copied().collect();
    numbers.chunks(8).map(|row| row.try_into().unwrap()).collect()
}

/// What is done to the bytes behind the file.
pub fn past_the_file(rest: &mut [u8]) {
    let spoilt = if planted(Fault::WritePastFile) { 1 } else if planted(Fault::WriteClearsRest) { rest.len() } else { 0 };
    rest.iter_mut().take(spoilt).for_each(|byte| *byte = 0);
}
