//! What can be asked for of every sort of case: of runs with two inputs (T-14) and of job files to be written (T-01) alike.

use std::io::{stdout, BufWriter};

use crate::faults::{Named, PAIR_FAULTS, WRITING_FAULTS, WRITTEN_FAULTS};
use crate::kinds::{kind_of, Kind, SLOTS};
use crate::pair_cases::PairCase;
use crate::writing_cases::WritingCase;
use crate::{draw_pairs, draw_writing, pair_cases, show_pair, show_writing, writing_cases};
use crate::{flush, give_up, input, number, print, take_counted, write, write_counted, USAGE};

/// A sort of case: how one is drawn, its bytes, what is printed for it, and the faults that such cases have to find.
pub struct Sort<C: 'static> {
    kinds: &'static [Kind<C>],
    case: fn(seed: u64, number: u64) -> C,
    layout: fn(&C) -> Vec<u8>,
    read: fn(&[u8]) -> Option<C>,
    printed: fn(&C) -> String,
    readable: fn(&C) -> String,
    faults: &'static [&'static [Named]],
}

pub const PAIRS: Sort<PairCase> = Sort {
    kinds: &draw_pairs::KINDS,
    case: draw_pairs::case,
    layout: pair_cases::layout,
    read: pair_cases::read,
    printed: pair_cases::printed,
    readable: show_pair::readable,
    faults: &[&PAIR_FAULTS],
};

pub const WRITING: Sort<WritingCase> = Sort {
    kinds: &draw_writing::KINDS,
    case: draw_writing::case,
    layout: writing_cases::layout,
    read: writing_cases::read,
    printed: writing_cases::printed,
    readable: show_writing::readable,
    faults: &[&WRITTEN_FAULTS, &WRITING_FAULTS],
};

/// Does what is asked for: the sort's own name alone asks for answers, and stands behind `draw-` and the others.
pub fn of_sort<C>(sort: &Sort<C>, asked: &str, words: &[&str]) {
    match (asked, words) {
        ("", []) => answer(sort, &input()),
        ("draw", [seed, count]) => draw(sort, number(seed), number(count), 1),
        ("draw", [seed, count, first]) => draw(sort, number(seed), number(count), number(first).max(1)),
        ("case", [seed, n]) => print(&(sort.layout)(&(sort.case)(number(seed), number(n).max(1)))),
        ("kind", [n]) => println!("{}", kind_of(sort.kinds, number(n).max(1)).0 .1),
        ("kinds", []) => print_kinds(sort.kinds),
        ("show", []) => print((sort.readable)(&case_of(sort, &input())).as_bytes()),
        ("faults", []) => print_faults(sort.faults),
        _ => give_up(USAGE),
    }
}

pub fn print_kinds<C>(kinds: &[Kind<C>]) {
    kinds.iter().for_each(|kind| println!("{} of {SLOTS}: {}", kind.0, kind.1));
}

pub fn print_faults(lists: &[&[Named]]) {
    lists.iter().copied().flatten().for_each(|fault| println!("{}: {}", fault.1, fault.2));
}

fn answer<C>(sort: &Sort<C>, mut cases: &[u8]) {
    let mut out = BufWriter::new(stdout());
    while !cases.is_empty() {
        write(&mut out, (sort.printed)(&case_of(sort, take_counted(&mut cases))).as_bytes());
    }
    flush(out);
}

fn case_of<C>(sort: &Sort<C>, bytes: &[u8]) -> C {
    (sort.read)(bytes).unwrap_or_else(|| give_up("these bytes are no case"))
}

fn draw<C>(sort: &Sort<C>, seed: u64, count: u64, first: u64) {
    let mut out = BufWriter::new(stdout());
    for n in first..first + count {
        write_counted(&mut out, &(sort.layout)(&(sort.case)(seed, n)));
    }
    flush(out);
}
