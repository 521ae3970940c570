//! An implementation of document 01 and of document 02's requests T-01, T-02, T-04, T-05 and T-14, written from their sentences alone, to be held against
//! the proved programs; and generators of job files, of jobs to be written and of runs with two inputs. What it can be asked for is in USAGE below.

mod case_bytes;
mod case_commands;
mod chance;
mod columns;
mod damage;
mod damage_pairs;
mod damage_writing;
mod draw_calls;
mod draw_full;
mod draw_jobs;
mod draw_list;
mod draw_pairs;
mod draw_states;
mod draw_stretching;
mod draw_systems;
mod draw_writing;
mod expanding;
mod faults;
mod forms;
mod kinds;
mod list_test;
mod pair_cases;
mod pair_laws;
mod pair_test;
mod pairs;
mod plane;
mod reading;
mod running;
mod self_test;
mod show;
mod show_pair;
mod show_writing;
mod symmetry;
mod systems;
mod trace;
mod unexpanding;
mod writing;
mod writing_cases;
mod writing_faults;
mod writing_test;

use std::io::{stdin, stdout, BufWriter, Read, Write};

use case_commands::{of_sort, print_faults, print_kinds, PAIRS, WRITING};
use faults::FAULTS;
use kinds::kind_of;

const USAGE: &str = "usage: independent COMMAND [--fault NAME]
  one              read one job file, print what the program prints for it
  many             read many job files, each after its length in 4 bytes and before the number of places in its list in 2 bytes, low byte first;
                   print the same for each, and for one that reads a fourth line: with that list, end, taken, written, listed, the numbers listed
  list PLACES      read one job file, print that line for a list of so many places
  again            read one job file, write it again where it reads, print: number of the refusal or 0, bytes written, how many of the buffer's first
                   bytes are the file's
  draw SEED COUNT [FIRST]  write that many cases in the form that `many` reads, from case FIRST on, or from 1
  case SEED N      write the job file of case N, the first being 1
  places SEED N    print how many places its list has
  kind N           print what kind of case N is
  kinds            print all kinds with their shares
  show             read one job file, print it in readable form
  trace            read one job file, print the steps of its run as a table
  faults           print the names of the faults that --fault plants, and that job files find
And for runs with two inputs (tests/README.md has the form of a case):
  pairs            read many cases, each after its length in 4 bytes, low byte first; print three lines for each
  draw-pairs SEED COUNT [FIRST]  write that many cases in the form that `pairs` reads, from case FIRST on, or from 1
  case-pairs SEED N  write case N, the first being 1, without its length
  kind-pairs N     print what kind of case N is
  kinds-pairs      print all kinds with their shares
  show-pairs       read one case without its length, print it in readable form
  faults-pairs     print the names of the faults that --fault plants, and that these cases find
And for writing job files the same: writing, draw-writing, case-writing, kind-writing, kinds-writing, show-writing, faults-writing;
`writing` prints one line for each case.
And of all:
  self-test        hold this implementation against the documents' examples";

fn main() {
    let mut words: Vec<String> = std::env::args().skip(1).collect();
    if let Some(place) = words.iter().position(|word| word == "--fault") {
        let known = words.get(place + 1).is_some_and(|name| faults::plant(name));
        if !known {
            give_up("no such fault; `faults`, `faults-writing` and `faults-pairs` print the names");
        }
        words.drain(place..place + 2);
    }
    let words: Vec<&str> = words.iter().map(|word| word.as_str()).collect();
    match words[..] {
        ["one"] => print(running::printed(&input()).as_bytes()),
        ["many"] => answer_many(&input()),
        ["list", places] => print(running::printed_list(&input(), number(places) as usize).as_bytes()),
        ["again"] => print(writing_cases::printed_again(&input()).as_bytes()),
        ["draw", seed, count] => draw(number(seed), number(count), 1),
        ["draw", seed, count, first] => draw(number(seed), number(count), number(first).max(1)),
        ["case", seed, n] => print(&draw_jobs::case(number(seed), number(n).max(1)).0),
        ["places", seed, n] => println!("{}", draw_jobs::case(number(seed), number(n).max(1)).1),
        ["kind", n] => println!("{}", kind_of(&draw_jobs::KINDS, number(n).max(1)).0 .1),
        ["kinds"] => print_kinds(&draw_jobs::KINDS),
        ["show"] => print(show::readable(&input()).as_bytes()),
        ["trace"] => print(trace::table(&input()).as_bytes()),
        ["faults"] => print_faults(&[&FAULTS]),
        ["self-test"] => self_test::all(),
        _ => of_cases(&words),
    }
}

/// Cases that are no job files: what is asked for and their sort stand in one word, with a dash between them.
fn of_cases(words: &[&str]) {
    let Some((&first, rest)) = words.split_first() else { give_up(USAGE) };
    let (asked, sort) = first.rsplit_once('-').unwrap_or(("", first));
    match sort {
        "pairs" => of_sort(&PAIRS, asked, rest),
        "writing" => of_sort(&WRITING, asked, rest),
        _ => give_up(USAGE),
    }
}

fn give_up(why: &str) -> ! {
    eprintln!("{why}");
    std::process::exit(2)
}

fn number(word: &str) -> u64 {
    word.parse().unwrap_or_else(|_| give_up(USAGE))
}

fn input() -> Vec<u8> {
    let mut bytes = Vec::new();
    stdin().read_to_end(&mut bytes).unwrap_or_else(|_| give_up("standard input cannot be read"));
    bytes
}

fn print(bytes: &[u8]) {
    write(&mut stdout(), bytes);
}

fn write(out: &mut impl Write, bytes: &[u8]) {
    out.write_all(bytes).unwrap_or_else(|_| give_up("standard output cannot be written"));
}

fn flush(mut out: impl Write) {
    out.flush().unwrap_or_else(|_| give_up("standard output cannot be written"));
}

fn answer_many(mut jobs: &[u8]) {
    let mut out = BufWriter::new(stdout());
    while !jobs.is_empty() {
        let job = take_counted(&mut jobs);
        let places = take(&mut jobs, 2);
        write(&mut out, running::printed(job).as_bytes());
        write(&mut out, running::printed_list(job, places[0] as usize + 256 * places[1] as usize).as_bytes());
    }
    flush(out);
}

/// What stands after its length in 4 bytes.
fn take_counted<'a>(rest: &mut &'a [u8]) -> &'a [u8] {
    let length = take(rest, 4).iter().rev().fold(0, |n, &byte| 256 * n + byte as usize);
    take(rest, length)
}

fn take<'a>(rest: &mut &'a [u8], length: usize) -> &'a [u8] {
    let Some((taken, left)) = rest.split_at_checked(length) else { give_up("the input ends within a case") };
    *rest = left;
    taken
}

fn draw(seed: u64, count: u64, first: u64) {
    let mut out = BufWriter::new(stdout());
    for n in first..first + count {
        let (job, places) = draw_jobs::case(seed, n);
        write_counted(&mut out, &job);
        write(&mut out, &(places as u16).to_le_bytes());
    }
    flush(out);
}

/// After its length in 4 bytes.
fn write_counted(out: &mut impl Write, bytes: &[u8]) {
    write(out, &(bytes.len() as u32).to_le_bytes());
    write(out, bytes);
}
