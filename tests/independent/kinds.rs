//! Kinds of case with their shares: how a generator chooses what to draw, whatever its cases are.

use crate::chance::Chance;

/// A kind of case: its share of SLOTS, its name, and how a case is drawn. The number handed over counts the times that this kind came up; a kind that
/// goes through places one after another goes by it.
pub type Kind<C> = (usize, &'static str, fn(&mut Chance, usize) -> C);

/// The kinds take turns: of any 50 cases in a row, each kind has its share.
pub const SLOTS: usize = 50;

/// The kind of the case with that number (from 1), and how many times this kind came up before.
pub fn kind_of<C>(kinds: &'static [Kind<C>], number: u64) -> (&'static Kind<C>, usize) {
    let (slot, round) = ((number - 1) as usize % SLOTS, (number - 1) as usize / SLOTS);
    let mut first = 0;
    for kind in kinds {
        if slot < first + kind.0 {
            return (kind, round * kind.0 + slot - first);
        }
        first += kind.0;
    }
    unreachable!("the shares add up to {SLOTS}")
}
