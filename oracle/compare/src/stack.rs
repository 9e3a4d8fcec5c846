//! The stack that the exported functions take: calls of each on a thread of a given size, in a process of their own, since too little
//! stack ends a process.

use std::path::Path;
use std::process::{Command, Stdio};

use engine::stack::{on_thread, BEGUN, STATED};
use oracle::cases::{BatchCase, Case};
use oracle::refusal::Mode::{self, OldWay, Strict};

use crate::files;
use crate::proved::{BothWays, Compared, Proved};
use crate::roots;

mod heavy;

/// The steps of what is measured.
const STEP: usize = 8 << 10;

/// The least and the most that is tried; the system makes no thread much smaller.
const LEAST: usize = 32 << 10;
const MOST: usize = 2 << 20;

/// How far a stated figure has to be above the measured one: the wrappers take it that a thread may have used `BEGUN` of what is
/// stated, and as much again is left for hosts whose threads begin with more than those here.
const MARGIN: usize = 2 * BEGUN;

/// Makes the calls of a function on a thread of that much stack and holds them against the oracle; whether all agree, if there is
/// such a function.
pub fn call(name: &str, stack: usize) -> Option<bool> {
    let (passed, failed) = match name {
        "families_label" => hold_in(Strict, stack, heavy::label_bytes()),
        "families_label_old_way" => hold_in(OldWay, stack, heavy::label_bytes()),
        "families_closure" => hold_one(stack, heavy::closure_bytes()),
        "families_label_rows" => hold_in(Strict, stack, heavy::label_rows()),
        "families_label_rows_old_way" => hold_in(OldWay, stack, heavy::label_rows()),
        "families_place_rows" => hold_in(Strict, stack, heavy::place_rows()),
        "families_place_rows_old_way" => hold_in(OldWay, stack, heavy::place_rows()),
        "families_kmeans" => hold_in(Strict, stack, heavy::kmeans()),
        "families_kmeans_old_way" => hold_in(OldWay, stack, heavy::kmeans()),
        "families_group" => hold_in(Strict, stack, heavy::grouping()),
        "families_group_old_way" => hold_in(OldWay, stack, heavy::grouping()),
        "families_root" => roots::hold_on(stack),
        "families_list" => hold(stack, heavy::files(), listed, Case::run),
        "families_write_result" => hold_one(stack, heavy::written()),
        "families_result_numbers" => hold_one(stack, heavy::told()),
        "families_read_result" => hold_one(stack, heavy::read()),
        _ => return None,
    };
    let kib = stack >> 10;
    println!("{name} on a thread of {kib} KiB: {passed} passed, {failed} failed");
    Some(failed == 0)
}

/// What the proved library answered, if it left its work slices as it should.
fn tidy<Outcome>(proved: Proved<Outcome>) -> Option<Outcome> {
    proved.tidy.then_some(proved.outcome)
}

fn listed(case: &BatchCase) -> Option<Vec<u8>> {
    files::exported(&case.file).ok().map(String::into_bytes)
}

/// As `hold`, of a function that has no other way.
fn hold_one<C>(stack: usize, cases: Vec<C>) -> (usize, usize)
where
    C: Compared + Sync,
    C::Outcome: Send,
{
    hold(stack, cases, |case| tidy(case.proved()), Case::run)
}

/// As `hold`, of a function that is one of two ways.
fn hold_in<C>(mode: Mode, stack: usize, cases: Vec<C>) -> (usize, usize)
where
    C: BothWays + Sync,
    C::Outcome: Send,
{
    let call = |case: &C| tidy(case.proved_in(mode));
    hold(stack, cases, call, |case| case.run_in(mode))
}

/// How many cases agree with the oracle, and how many do not.
fn hold<C>(
    stack: usize,
    cases: Vec<C>,
    call: impl Fn(&C) -> Option<C::Outcome> + Sync,
    oracle: impl Fn(&C) -> C::Outcome,
) -> (usize, usize)
where
    C: Case + Sync,
    C::Outcome: Send,
{
    let ours: Vec<_> = on_thread(stack, || cases.iter().map(&call).collect());
    let both = ours.into_iter().zip(&cases);
    let agrees = |(ours, case): &(Option<C::Outcome>, &C)| *ours == Some(oracle(case));
    let passed = both.filter(agrees).count();
    (passed, cases.len() - passed)
}

/// Runs `call` in a process of its own, `program` being the one that does so; whether it ended well.
pub fn passes(program: &Path, name: &str, stack: usize) -> bool {
    let mut command = command(program, name, stack);
    let status = command.stdout(Stdio::null()).stderr(Stdio::null()).status();
    status.expect("this program can be run").success()
}

fn command(program: &Path, name: &str, stack: usize) -> Command {
    let mut command = Command::new(program);
    command.args(["stack", "--calls", name, &stack.to_string()]);
    command
}

/// The least stack that is tried and on which all calls of a function pass.
fn least(program: &Path, name: &str) -> Option<usize> {
    // It is above the one and at most the other.
    let (mut low, mut high) = (LEAST - STEP, MOST);
    if !passes(program, name, high) {
        return None;
    }
    while low + STEP < high {
        let middle = (low + high) / 2 / STEP * STEP;
        match passes(program, name, middle) {
            true => high = middle,
            false => low = middle,
        }
    }
    Some(high)
}

/// Prints what each function takes beside what is stated; whether each stated figure is far enough above.
pub fn measure(program: &Path) -> bool {
    println!("| exported function | measured | stated |");
    println!("|---|---|---|");
    let enough = STATED.map(|(name, stated)| {
        let least = least(program, name);
        let shown = least.map_or("more than is tried".into(), |least| {
            format!("{} KiB", least >> 10)
        });
        println!("| `{name}` | {shown} | {} KiB |", stated >> 10);
        least.is_some_and(|least| least + MARGIN <= stated)
    });
    let all = enough.iter().all(|&enough| enough);
    if !all {
        println!(
            "a stated figure is less than {} KiB above the measured one",
            MARGIN >> 10
        );
    }
    all
}

/// Makes the calls of each function on a thread of exactly the stated stack, and on one that has so much less as the wrappers still
/// make a call on.
pub fn try_stated(program: &Path) -> bool {
    let mut all = true;
    for (name, stated) in STATED {
        for stack in [stated, stated - BEGUN] {
            let status = command(program, name, stack).status();
            let status = status.expect("this program can be run");
            if !status.success() {
                let kib = stack >> 10;
                println!("{name} on a thread of {kib} KiB: its process ended by {status}");
                all = false;
            }
        }
    }
    all
}
