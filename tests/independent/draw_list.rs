//! How many places the list of a case has (T-02), by chance and by what its run lists.

use crate::chance::Chance;
use crate::reading::{read, Job};
use crate::running::{never_full, run, ROOM};

/// Never full, whatever the job is: 4096 bytes taken, 8192 digits written, and one place more.
pub const LONGEST: usize = 4096 + ROOM + 1;

/// Of a file that is refused, any number: it is read and passed over.
pub fn places(chance: &mut Chance, turn: usize, file: &[u8]) -> usize {
    match read(file) {
        Ok(job) => places_for(chance, turn, &job),
        Err(_) => chance.below(LONGEST + 1),
    }
}

/// With just as many places as numbers are listed, the list is full exactly at the step that stops the run: at end 20 that still is the end, at end 22
/// it becomes 15. By turns and not by chance, where the list's end has to be told from the room's and the range's, whatever the seed is.
fn places_for(chance: &mut Chance, turn: usize, job: &Job) -> usize {
    let (end, whole) = run(job, ROOM);
    let needed = whole.listed.len();
    if matches!(end, 20 | 22) && turn / 8 % 2 == 0 {
        return needed;
    }
    match chance.below(12) {
        0 => 0,
        1 => 1,
        2 | 3 => needed,
        4 | 5 => needed.saturating_sub(1),
        6 => chance.below(needed.min(8) + 1),
        7 | 8 => chance.below(needed + 1),
        9 => needed + 1,
        10 => never_full(job, ROOM).places,
        _ => needed + chance.below(LONGEST - needed + 1),
    }
}
