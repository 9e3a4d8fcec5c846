//! A family's chart: one curve for each meter and the mean on top, in a frame that all families share.

use std::fmt::Write;

use super::scale::Scale;
use super::text::{count, escape};
use crate::answers::report::{Family, Report};
use crate::reading::table::Table;

const WIDTH: f64 = 720.0;
const HEIGHT: f64 = 260.0;
const TOP: f64 = 6.0;
const BOTTOM: f64 = 234.0;
const RIGHT: f64 = 712.0;
/// The least room between two labels, and between a label and the plot.
const GAP: f64 = 8.0;
/// The most characters of a reading's name in a chart; it stands whole beside the mean's value.
const NAME: usize = 14;
/// Half the length of the line that stands for a single reading.
const DASH: f64 = 24.0;

/// What the charts of a report have in common.
pub struct Chart<'a> {
    table: &'a Table,
    scale: Scale,
    left: f64,
    frame: String,
}

impl<'a> Chart<'a> {
    /// Lays out the frame for a report's readings.
    pub fn of(report: &'a Report) -> Chart<'a> {
        let scale = Scale::of(report);
        let widest = scale.ticks.iter().map(|tick| width(&tick.label));
        let mut chart = Chart {
            table: &report.table,
            left: widest.fold(0.0, f64::max) + 2.0 * GAP,
            scale,
            frame: String::new(),
        };
        chart.frame = chart.lines() + &chart.values_beside() + &chart.names_below();
        chart
    }

    /// Draws a family by its number.
    pub fn draw(&self, number: usize, family: &Family) -> String {
        let meters = count(family.rows.len(), "meter", "meters");
        let mut svg = format!(
            "<svg viewBox=\"0 0 {WIDTH} {HEIGHT}\" role=\"img\" \
             aria-label=\"Curves of the {meters} of family {number} and their mean\">\n{}\
             <g class=\"curves\" stroke-opacity=\"{}\">\n",
            self.frame,
            opacity(family.rows.len())
        );
        for &row in &family.rows {
            svg += &self.curve("meter", self.table.row(row));
        }
        svg += "</g>\n";
        svg += &self.curve("mean", &family.mean);
        svg + "</svg>\n"
    }

    fn curve(&self, class: &str, values: &[f32]) -> String {
        let ends: &[f64] = if self.table.readings == 1 {
            &[-DASH, DASH]
        } else {
            &[0.0]
        };
        let mut points = String::with_capacity(values.len() * 12);
        for (reading, &value) in values.iter().take(self.table.readings).enumerate() {
            let Some(y) = self.y(f64::from(value)) else {
                continue;
            };
            for end in ends {
                let gap = if points.is_empty() { "" } else { " " };
                let x = self.x(reading) + end;
                let _ = write!(points, "{gap}{},{}", tenths(x), tenths(y));
            }
        }
        format!("<polyline class=\"{class}\" points=\"{points}\"/>\n")
    }

    /// The grid with the zero line, and a notch below each reading.
    fn lines(&self) -> String {
        let length = tenths(RIGHT - self.left);
        let mut grid = format!("M{},{BOTTOM}h{length}", tenths(self.left));
        let mut zero = String::new();
        for tick in &self.scale.ticks {
            let Some(y) = self.y(tick.value) else {
                continue;
            };
            let line = format!("M{},{}h{length}", tenths(self.left), tenths(y));
            if tick.value == 0.0 {
                zero = format!("<path class=\"zero\" d=\"{line}\"/>\n");
            } else {
                grid += &line;
            }
        }
        for reading in 0..self.table.readings {
            let _ = write!(grid, "M{},{BOTTOM}v4", tenths(self.x(reading)));
        }
        format!("<path class=\"grid\" d=\"{grid}\"/>\n{zero}")
    }

    fn values_beside(&self) -> String {
        let mut labels = String::from("<g class=\"values\">");
        let x = tenths(self.left - GAP);
        for tick in &self.scale.ticks {
            let Some(y) = self.y(tick.value) else {
                continue;
            };
            let _ = write!(
                labels,
                "<text x=\"{x}\" y=\"{}\">{}</text>",
                tenths(y + 4.0),
                tick.label
            );
        }
        labels + "</g>\n"
    }

    /// As many names of readings as fit, at even distances.
    fn names_below(&self) -> String {
        let names: Vec<String> = (0..self.table.readings)
            .map(|reading| cut(&name(self.table, reading)))
            .collect();
        let widest = names.iter().map(|name| width(name)).fold(0.0, f64::max) + GAP;
        let every = (widest / self.band()).ceil().max(1.0) as usize;
        let mut labels = String::from("<g class=\"names\">");
        for (reading, name) in names.iter().enumerate().step_by(every) {
            let x = self.x(reading);
            if x + width(name) / 2.0 > WIDTH {
                continue;
            }
            let _ = write!(
                labels,
                "<text x=\"{}\" y=\"{}\">{}</text>",
                tenths(x),
                BOTTOM + 19.0,
                escape(name)
            );
        }
        labels + "</g>\n"
    }

    /// The width that each reading has for itself.
    fn band(&self) -> f64 {
        (RIGHT - self.left) / self.table.readings.max(1) as f64
    }

    fn x(&self, reading: usize) -> f64 {
        self.left + (reading as f64 + 0.5) * self.band()
    }

    fn y(&self, value: f64) -> Option<f64> {
        let share = self.scale.share(value)?;
        Some(BOTTOM - share * (BOTTOM - TOP))
    }
}

/// What a reading is called: by the header, or by its number, counted from 1.
pub fn name(table: &Table, reading: usize) -> String {
    let names = table.names.as_ref();
    match names.and_then(|names| names.get(reading)) {
        Some(name) if !name.trim().is_empty() => name.clone(),
        _ => (reading + 1).to_string(),
    }
}

fn cut(name: &str) -> String {
    if name.chars().count() <= NAME {
        return String::from(name);
    }
    name.chars().take(NAME - 1).chain(['…']).collect()
}

/// About the width of a label, rather too wide than too narrow.
fn width(label: &str) -> f64 {
    label
        .chars()
        .map(|it| if it.is_ascii() { 6.6 } else { 11.0 })
        .sum()
}

/// Curves are fainter where many lie over each other.
fn opacity(meters: usize) -> f64 {
    match meters {
        0..=50 => 0.6,
        51..=200 => 0.3,
        201..=1000 => 0.15,
        _ => 0.08,
    }
}

/// A coordinate to one decimal, which keeps the page small.
fn tenths(coordinate: f64) -> f64 {
    (coordinate * 10.0).round() / 10.0
}

#[cfg(test)]
mod tests {
    use super::*;

    #[test]
    fn long_names_are_cut() {
        assert_eq!(cut("Ib lag 0.5"), "Ib lag 0.5");
        assert_eq!(cut("abcdefghijklmn"), "abcdefghijklmn");
        assert_eq!(cut("abcdefghijklmno"), "abcdefghijklm…");
    }

    #[test]
    fn coordinates_have_one_decimal_at_most() {
        for coordinate in [0.0, 0.05, 33.333_333, 719.96, 1.0 / 3.0] {
            let text = tenths(coordinate).to_string();
            let decimals = text.split_once('.').map_or(0, |(_, after)| after.len());
            assert!(decimals <= 1, "{text}");
        }
    }
}
