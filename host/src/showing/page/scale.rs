//! The one vertical scale of all charts, without which families could not be compared by eye.

use crate::answers::report::Report;

/// The most parts that the scale is cut into.
const PARTS: f64 = 8.0;
/// The share of the values' range, or of their size where they are all the same, that stays free at either end.
const ROOM: f64 = 0.04;
/// From this power of ten on a plain number is too long for a label.
const LONG: i32 = 6;

/// A value on the scale and how it is written beside the chart.
pub struct Tick {
    pub value: f64,
    pub label: String,
}

/// The scale, never empty and always finite, with some ticks on it.
pub struct Scale {
    pub ticks: Vec<Tick>,
    low: f64,
    high: f64,
}

impl Scale {
    /// The scale that holds every finite reading and mean of a report.
    pub fn of(report: &Report) -> Scale {
        let means = report.families.iter().flat_map(|it| &it.mean);
        Scale::over(report.table.values.iter().chain(means).copied())
    }

    fn over(values: impl Iterator<Item = f32>) -> Scale {
        let (low, high) = range(values);
        let (step, power) = step(high - low);
        let (first, last) = ((low / step).ceil() as i64, (high / step).floor() as i64);
        let long = power < -LONG || low.abs().max(high.abs()) >= 10f64.powi(LONG);
        let ticks = (first..=last).map(|count| {
            let value = count as f64 * step;
            let label = label(value, power, long);
            Tick { value, label }
        });
        Scale {
            ticks: ticks.collect(),
            low,
            high,
        }
    }

    /// Where a value stands, from 0 at the bottom to 1 at the top, where endless values stay too.
    pub fn share(&self, value: f64) -> Option<f64> {
        let share = (value - self.low) / (self.high - self.low);
        (!share.is_nan()).then(|| share.clamp(0.0, 1.0))
    }
}

/// The least and greatest finite value with a little room around them.
fn range(values: impl Iterator<Item = f32>) -> (f64, f64) {
    let finite = values.filter(|value| value.is_finite()).map(f64::from);
    let bounds = finite.fold(None, |bounds, value| match bounds {
        None => Some((value, value)),
        Some((low, high)) => Some((value.min(low), value.max(high))),
    });
    let (low, high) = bounds.unwrap_or((0.0, 0.0));
    let room = if low < high {
        (high - low) * ROOM
    } else if low == 0.0 {
        1.0
    } else {
        low.abs() * ROOM
    };
    (low - room, high + room)
}

/// A round step for a span, 1, 2 or 5 times a power of ten, and this power.
fn step(span: f64) -> (f64, i32) {
    let rough = span / PARTS;
    let power = rough.log10().floor() as i32;
    let round = [(1.0, power), (2.0, power), (5.0, power), (1.0, power + 1)];
    let steps = round.map(|(times, power)| (times * 10f64.powi(power), power));
    let enough = steps.into_iter().find(|(step, _)| *step >= rough);
    enough.unwrap_or(steps[3])
}

/// A tick's value with as many digits as its step needs.
fn label(value: f64, power: i32, long: bool) -> String {
    if !long {
        let decimals = (-power).max(0) as usize;
        return format!("{value:.decimals$}");
    }
    if value == 0.0 {
        return String::from("0");
    }
    let digits = (value.abs().log10().floor() as i32 - power).max(0) as usize;
    format!("{value:.digits$e}")
}

#[cfg(test)]
mod tests {
    use super::*;

    fn labels(values: &[f32]) -> Vec<String> {
        let ticks = scale(values).ticks.into_iter();
        ticks.map(|tick| tick.label).collect()
    }

    fn scale(values: &[f32]) -> Scale {
        Scale::over(values.iter().copied())
    }

    #[test]
    fn ticks_are_round() {
        assert_eq!(labels(&[-1.1, 0.9]), ["-1.0", "-0.5", "0.0", "0.5"]);
        assert_eq!(labels(&[0.0, 26.0]), ["0", "5", "10", "15", "20", "25"]);
        let huge = ["-3e38", "-2e38", "-1e38", "0", "1e38", "2e38", "3e38"];
        assert_eq!(labels(&[f32::MIN, f32::MAX]), huge);
    }

    #[test]
    fn equal_values_and_none_have_a_scale() {
        for values in [&[][..], &[0.0], &[0.25, 0.25], &[f32::MAX], &[1.0e-45]] {
            let scale = scale(values);
            assert!(scale.ticks.len() > 2, "{values:?}");
            assert!(scale.ticks.iter().all(|tick| tick.value.is_finite()));
            for &value in values {
                let share = scale.share(f64::from(value));
                assert!(share.is_some_and(|share| 0.2 < share && share < 0.8));
            }
        }
    }

    #[test]
    fn neighbours_far_from_zero_have_different_labels() {
        let mut labels = labels(&[16_777_214.0, 16_777_215.0]);
        let all = labels.len();
        labels.dedup();
        assert_eq!(labels.len(), all);
    }

    #[test]
    fn endless_values_stay_at_the_edges() {
        let scale = scale(&[-1.0, 1.0, f32::INFINITY, f32::NAN]);
        assert_eq!(scale.share(0.0), Some(0.5));
        assert!(scale
            .share(1.0)
            .is_some_and(|share| 0.9 < share && share < 1.0));
        assert_eq!(scale.share(f64::INFINITY), Some(1.0));
        assert_eq!(scale.share(f64::NEG_INFINITY), Some(0.0));
        assert_eq!(scale.share(f64::NAN), None);
    }
}
