//! Seconds of two runs side by side.

use std::time::Instant;

use oracle::random::Random;

/// Seconds that one run takes.
fn seconds(run: &mut dyn FnMut()) -> f64 {
    let began = Instant::now();
    run();
    began.elapsed().as_secs_f64()
}

fn median(mut times: Vec<f64>) -> f64 {
    times.sort_by(f64::total_cmp);
    times[times.len() / 2]
}

/// The seconds of both in every round, run in turn so that both meet the same weather.
fn in_turn(rounds: usize, mut ours: impl FnMut(), mut theirs: impl FnMut()) -> Vec<(f64, f64)> {
    (0..rounds)
        .map(|_| (seconds(&mut ours), seconds(&mut theirs)))
        .collect()
}

/// The median of each side.
pub fn medians(times: &[(f64, f64)]) -> (f64, f64) {
    let (ours, theirs) = times.iter().copied().unzip();
    (median(ours), median(theirs))
}

/// Medians of both, run in turn.
pub fn side_by_side(rounds: usize, ours: impl FnMut(), theirs: impl FnMut()) -> (f64, f64) {
    medians(&in_turn(rounds, ours, theirs))
}

/// Seconds that a run should take at least: the clock and a stray interruption weigh too much in a shorter one.
const LEAST: f64 = 1e-3;

/// As `side_by_side`, with ours run again and again for as long as theirs takes: on a busy machine a longer run is interrupted more
/// often than a short one, which would flatter the faster side. Theirs too is run again where it takes less than a millisecond.
pub fn as_long(rounds: usize, ours: impl FnMut(), theirs: impl FnMut()) -> (f64, f64) {
    medians(&rounds_as_long(rounds, ours, theirs))
}

/// The seconds of both in every round of `as_long`.
pub fn rounds_as_long(
    rounds: usize,
    mut ours: impl FnMut(),
    mut theirs: impl FnMut(),
) -> Vec<(f64, f64)> {
    let once = side_by_side(3, &mut ours, &mut theirs);
    let their_times = (LEAST / once.1).ceil().max(1.0);
    let our_times = (their_times * once.1 / once.0).round().max(1.0);
    let times = in_turn(
        rounds,
        || (0..our_times as usize).for_each(|_| ours()),
        || (0..their_times as usize).for_each(|_| theirs()),
    );
    let one = |(many, others)| (many / our_times, others / their_times);
    times.into_iter().map(one).collect()
}

/// Whether the command's words after the rounds all stand in the name of what is to be measured.
pub fn wanted(name: &str) -> bool {
    std::env::args().skip(2).all(|word| name.contains(&word))
}

/// Readings from -1 up to 1.
pub fn values(random: &mut Random, count: usize) -> Vec<f32> {
    (0..count)
        .map(|_| random.next_u32() as f32 / (1u32 << 31) as f32 - 1.0)
        .collect()
}

/// Rows around k centres.
pub fn rows_around(random: &mut Random, rows: usize, dim: usize, k: usize) -> Vec<f32> {
    let centres = values(random, k * dim);
    (0..rows)
        .flat_map(|row| {
            let centre = row % k * dim;
            (0..dim)
                .map(|d| 8.0 * centres[centre + d] + values(random, 1)[0] / 10.0)
                .collect::<Vec<_>>()
        })
        .collect()
}
