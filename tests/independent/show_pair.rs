//! A case of a run with two inputs (T-14) in readable form.

use std::fmt::Write;

use crate::pair_cases::PairCase;
use crate::running::parted;
use crate::show::write_system;

pub fn readable(case: &PairCase) -> String {
    let [held_x, held_y, turn] = [8, 9, 10].map(|n: usize| case.state[n]);
    let mut text = format!("operation {}\nstate {}, held {held_x} and {held_y}, turn {turn}\n", case.operation as char, parted(&case.state[..8]));
    for (side, (&name, system)) in ["input", "output"].iter().zip(case.names.iter().zip(&case.systems)) {
        write_system(&mut text, side, name, system);
    }
    for (name, (word, cut)) in ["x", "y"].iter().zip(case.words.iter().zip(case.cuts)) {
        writeln!(text, "word {name}: {} bytes, of which the first call gets {cut}", word.len()).unwrap();
        word.chunks(32).for_each(|line| writeln!(text, "  {}", parted(line)).unwrap());
    }
    writeln!(text, "room {}, and {} more for the second call", case.rooms[0], case.rooms[1]).unwrap();
    text
}
