//! A case of writing (T-01) in readable form.

use std::fmt::Write;

use crate::running::parted;
use crate::show::write_system;
use crate::writing_cases::WritingCase;

pub fn readable(case: &WritingCase) -> String {
    let mut text = String::new();
    for (side, (&name, system)) in ["input", "output"].iter().zip(case.names.iter().zip(&case.contents.systems)) {
        write_system(&mut text, side, name, system);
    }
    writeln!(text, "matrix {}", parted(&case.contents.matrix)).unwrap();
    writeln!(text, "word: {} bytes", case.contents.word.len()).unwrap();
    case.contents.word.chunks(32).for_each(|line| writeln!(text, "  {}", parted(line)).unwrap());
    writeln!(text, "a buffer of {} bytes", case.room).unwrap();
    text
}
