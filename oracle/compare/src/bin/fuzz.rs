//! The hostile runs by themselves, as many as are asked for: `oracle/fuzz` runs them, the calls under a memory checker.
//!
//! `fuzz calls SEED COUNT`: COUNT calls, dealt out evenly over the exported functions.
//! `fuzz files SEED COUNT [PROGRAM..]`: COUNT files through the exported function, or through the listing program where it is named.

use std::env::args_os;
use std::ffi::OsString;
use std::process::{exit, ExitCode};
use std::time::Instant;

use compare::files::{self, Program};
use compare::hostile;
use compare::tally::Tally;

fn usage() -> ! {
    eprintln!("fuzz calls SEED COUNT | fuzz files SEED COUNT [PROGRAM..]");
    exit(2)
}

fn number(word: Option<OsString>) -> u64 {
    let number = word.and_then(|word| word.to_string_lossy().parse().ok());
    number.unwrap_or_else(|| usage())
}

fn main() -> ExitCode {
    let began = Instant::now();
    let mut words = args_os().skip(1);
    let what = words.next().unwrap_or_else(|| usage());
    let (seed, count) = (number(words.next()), number(words.next()));
    let tallies: Vec<Tally> = match what.to_str() {
        Some("calls") => {
            let each = count.div_ceil(hostile::calls::FUNCTIONS as u64);
            hostile::calls::compare(seed, each).into()
        }
        Some("files") => {
            let words: Vec<OsString> = words.collect();
            let tally = match words.is_empty() {
                true => hostile::files::compare(&mut files::exported, seed, count),
                false => {
                    let mut program = Program::new(words);
                    hostile::files::compare(&mut |file| program.list(file), seed, count)
                }
            };
            vec![tally]
        }
        _ => usage(),
    };
    let (passed, failed) = tallies.iter().fold((0, 0), |(passed, failed), tally| {
        (passed + tally.passed, failed + tally.failed)
    });
    println!(
        "in all {passed} agreed, {failed} failed, {:.0} s",
        began.elapsed().as_secs_f64()
    );
    match failed {
        0 => ExitCode::SUCCESS,
        _ => ExitCode::FAILURE,
    }
}
