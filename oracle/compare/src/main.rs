//! Hands the same cases to the oracle and to the proved library, and counts those that agree in every cell.
//!
//! `compare calls [SEED [TIMES]]`: generated calls of every exported function, those that label in both modes, and result files that
//! one side writes and the other reads; TIMES multiplies their number.
//! `compare files [SEED [COUNT]] [-- PROGRAM..]`: whole batch files through the listing program.
//! `compare hostile [SEED [COUNT]]`: COUNT calls of each function and COUNT files that nobody means well with, all in this process.
//! `compare roots`: some millions of floats to the exported root, and to that of the standard library; `compare roots --all` all 2^32.
//! `compare stack`: measures the stack that each exported function takes; `compare stack --stated` makes the same calls on threads of
//! the stated stack, and `compare stack --calls FUNCTION BYTES` those of one function in this process, on a thread of so many bytes.
//!
//! Without words it is `calls`. A case that differs is named by its seed and index. PROGRAM is `target/bin/listing` where none
//! is named. A run that does not meet each kind of case often enough fails, whatever agreed.

use std::env::{args_os, current_exe};
use std::ffi::OsString;
use std::process::{exit, ExitCode};

use compare::files::{self, Program};
use compare::hostile;
use compare::proved::Compared;
use compare::roots;
use compare::stack;
use compare::tally::Tally;
use oracle::cases::{ClosureBytesCase, GroupingCase, KMeansCase, LabelBytesCase, LabelCase};
use oracle::cases::{PlaceCase, RestartsCase, SphericalCase, SphericalGroupingCase};
use oracle::cases::{ReadResultCase, ResultNumbersCase, ResultTripCase, WriteResultCase};

/// The built cases and `count` generated ones of one kind, each added by `add`.
fn compare<C: Compared>(seed: u64, count: u64, add: fn(&mut Tally, &str, &C)) -> Tally {
    let mut tally = Tally::default();
    for (number, case) in C::built().iter().enumerate() {
        add(&mut tally, &format!("built {number}"), case);
    }
    for index in 0..count {
        let case = C::generate(seed, index);
        add(&mut tally, &format!("seed {seed} index {index}"), &case);
    }
    tally.need(C::NAME, C::NEEDS);
    tally.report(C::NAME);
    tally
}

fn calls(seed: u64, times: u64) -> Vec<Tally> {
    vec![
        compare::<LabelBytesCase>(seed, 30_000 * times, Tally::add_both),
        compare::<LabelCase>(seed, 25_000 * times, Tally::add_both),
        compare::<PlaceCase>(seed, 25_000 * times, Tally::add_both),
        compare::<ClosureBytesCase>(seed, 55_000 * times, Tally::add),
        compare::<KMeansCase>(seed, 6_000 * times, Tally::add_both),
        compare::<RestartsCase>(seed, 3_000 * times, Tally::add_both),
        compare::<GroupingCase>(seed, 6_000 * times, Tally::add_both),
        compare::<SphericalCase>(seed, 6_000 * times, Tally::add_both),
        compare::<SphericalGroupingCase>(seed, 6_000 * times, Tally::add_both),
        compare::<WriteResultCase>(seed, 20_000 * times, Tally::add),
        compare::<ResultNumbersCase>(seed, 20_000 * times, Tally::add),
        compare::<ReadResultCase>(seed, 20_000 * times, Tally::add),
        compare::<ResultTripCase>(seed, 20_000 * times, Tally::add),
    ]
}

fn hostile(seed: u64, count: u64) -> Vec<Tally> {
    let mut tallies: Vec<Tally> = hostile::calls::compare(seed, count).into();
    tallies.push(hostile::files::compare(&mut files::exported, seed, count));
    tallies
}

fn usage() -> ! {
    eprintln!("compare [calls | files | hostile] [SEED [COUNT]] [-- PROGRAM..]");
    eprintln!("compare roots [--all]");
    eprintln!("compare stack [--stated | --calls FUNCTION BYTES]");
    exit(2)
}

/// Whether the run went well.
fn stack(words: &[OsString]) -> bool {
    let words: Vec<_> = words.iter().map(|word| word.to_string_lossy()).collect();
    let words: Vec<&str> = words.iter().map(|word| word.as_ref()).collect();
    let own = current_exe().expect("this program has a path");
    match words[..] {
        [] => stack::measure(&own),
        ["--stated"] => stack::try_stated(&own),
        ["--calls", name, bytes] => {
            let bytes = bytes.parse().unwrap_or_else(|_| usage());
            stack::call(name, bytes).unwrap_or_else(|| usage())
        }
        _ => usage(),
    }
}

/// Whether the run went well.
fn roots(words: &[OsString]) -> bool {
    match words {
        [] => roots::compare_some(),
        [all] if all == "--all" => roots::compare_all(),
        _ => usage(),
    }
}

/// The word of what is to be run, its numbers, and the program's words.
fn arguments(words: &[OsString]) -> (String, [Option<u64>; 2], Program) {
    let own = words.iter().position(|word| word == "--");
    let (own, program) = words.split_at(own.unwrap_or(words.len()));
    let mut own = own.iter().map(|word| word.to_string_lossy()).peekable();
    let what = own.next_if(|word| word.parse::<u64>().is_err());
    let mut numbers = own.map(|word| word.parse::<u64>().unwrap_or_else(|_| usage()));
    let numbers = [numbers.next(), numbers.next()];
    let program = Program::new(program.iter().skip(1).cloned());
    (what.map_or("calls".into(), String::from), numbers, program)
}

/// Whether every case agreed.
fn compare_all(words: &[OsString]) -> bool {
    let (what, [seed, count], mut program) = arguments(words);
    let seed = seed.unwrap_or(1);
    let tallies = match what.as_str() {
        "calls" => calls(seed, count.unwrap_or(1)),
        "files" => {
            let lister = &mut |file: &[u8]| program.list(file);
            vec![files::compare(lister, seed, count.unwrap_or(1_000))]
        }
        "hostile" => hostile(seed, count.unwrap_or(3_000)),
        _ => usage(),
    };
    tallies.iter().all(|tally| tally.failed == 0)
}

fn main() -> ExitCode {
    let words: Vec<OsString> = args_os().skip(1).collect();
    let went_well = match words.split_first() {
        Some((first, rest)) if first == "stack" => stack(rest),
        Some((first, rest)) if first == "roots" => roots(rest),
        _ => compare_all(&words),
    };
    match went_well {
        true => ExitCode::SUCCESS,
        false => ExitCode::FAILURE,
    }
}
