//! How readings are grouped: the settings with their defaults, the seed; and the report that comes of it.

use clap::{value_parser, Args};
use engine::exported::Mode;

use super::reading::ReadingOptions;
use super::result_file::ResultAsked;
use super::shown::TrayOptions;
use crate::answers::cells::Cells;
use crate::answers::draws::{any_seed, Draws};
use crate::answers::report::{Grouped, Origin, Report};
use crate::answers::settings::{Settings, BRANCHING, BUDGET, LIMIT};
use crate::answers::{grouping, refusals, warnings};
use crate::failure::Failure;
use crate::reading::decimal::{self, Words};
use crate::reading::source::Source;
use crate::reading::table::Table;

/// The settings of a grouping, and how its file of readings is to be read.
#[derive(Args, Clone, Debug)]
pub struct GroupingOptions {
    #[command(flatten)]
    reading: ReadingOptions,

    /// Most meters in a family, 0 to 4096
    #[arg(long, value_name = "N", default_value = "40", value_parser = value_parser!(u32).range(LIMIT))]
    limit: u32,

    /// Parts of a split, 1 to 64
    #[arg(long, value_name = "N", default_value = "4", value_parser = value_parser!(u32).range(BRANCHING))]
    branching: u32,

    /// Balance weight: parts are balanced where it is above 0
    #[arg(long, value_name = "W", default_value = "0.25", value_parser = float, allow_hyphen_values = true)]
    weight: f32,

    /// Most splits, 0 to 8192
    #[arg(long, value_name = "N", default_value = "8192", value_parser = value_parser!(u32).range(BUDGET))]
    budget: u32,

    /// Start of the generator of draws, any 64 bits; where it is not given, one is chosen and printed
    #[arg(long, value_name = "N")]
    seed: Option<u64>,

    /// How many draws are listed, 1 to 4096; where more are needed, the list is gone through again, each draw one more than before
    #[arg(long, value_name = "N", default_value = "256", value_parser = value_parser!(u32).range(1..=4_096))]
    draws: u32,

    /// Exit by 3 where readings are likely to be grouped badly, which is a warning else
    #[arg(long)]
    fail_on_warning: bool,
}

/// A float of an option, the words `nan`, `inf` and `-inf` among them: an option is written by choice.
pub fn float(text: &str) -> Result<f32, &'static str> {
    decimal::float(text, Words::Taken)
}

/// What there is to group, and what is to be said of it.
pub struct ToGroup {
    pub table: Table,
    pub settings: Settings,
    pub draws: Draws,
    pub warnings: Vec<String>,
    /// Lines for standard error.
    pub notes: Vec<String>,
}

impl GroupingOptions {
    pub fn read(&self, source: &Source) -> Result<ToGroup, Failure> {
        let table = Table::of(source, self.reading.rules(Words::NotTaken))?;
        if table.readings == 0 {
            let what = "empty, so that nothing tells how many readings a row has";
            return Err(Failure::input(source, what));
        }
        let warnings = warnings::of_rows(&table);
        let mut notes = vec![format!("{source}: {}", table.told())];
        notes.extend(warned(source, &warnings, self.fail_on_warning)?);
        let seed = self.seed.unwrap_or_else(any_seed);
        if self.seed.is_none() {
            notes.push(format!(
                "seed {seed} was chosen; --seed {seed} repeats this run"
            ));
        }
        Ok(ToGroup {
            table,
            settings: Settings {
                limit: self.limit,
                branching: self.branching,
                weight: self.weight,
                budget: self.budget,
            },
            draws: Draws {
                seed,
                count: self.draws as usize,
            },
            warnings,
            notes,
        })
    }
}

/// Warnings as lines, or the first of them as what stops the command.
pub fn warned(source: &Source, warnings: &[String], fail: bool) -> Result<Vec<String>, Failure> {
    match (warnings.first(), fail) {
        (Some(first), true) => Err(Failure::input(source, first)),
        _ => Ok(warnings
            .iter()
            .map(|text| format!("warning: {source}: {text}"))
            .collect()),
    }
}

/// A grouping that is to be shown, on its trays.
#[derive(Args, Clone, Debug)]
pub struct ReportOptions {
    #[command(flatten)]
    grouping: GroupingOptions,

    #[command(flatten)]
    tray: TrayOptions,

    /// Group meters that match no part of a split too, as label 0, and tell how many; else such a batch is refused by 9
    #[arg(long)]
    allow_unplaced: bool,

    /// Families by shape: k-means takes its centroids to length 1 after each iteration, so that meters which differ in scale alone go together
    #[arg(long)]
    spherical: bool,
}

impl ReportOptions {
    fn mode(&self) -> Mode {
        match self.allow_unplaced {
            true => Mode::OldWay,
            false => Mode::Strict,
        }
    }

    /// The report, the engine's own cells of it, and lines for standard error.
    pub fn report(&self, source: &Source) -> Result<(Report, Cells, Vec<String>), Failure> {
        let asked = self.grouping.read(source)?;
        let (table, settings, draws) = (asked.table, asked.settings, asked.draws);
        let found = grouping::families(self.mode(), self.spherical, &table, settings, draws);
        let grouping = found.map_err(|number| {
            let why = refusals::of_grouping(number, &table, settings, draws.count);
            // The seed may have been chosen, and another one may not be refused.
            Failure::refused(number, source, format!("{why} (seed {})", draws.seed))
        })?;
        let report = Report {
            source: source.to_string(),
            origin: Origin::Grouped(Grouped {
                settings,
                draws,
                allow_unplaced: self.allow_unplaced,
                spherical: self.spherical,
                splits: grouping.splits,
                unplaced: grouping.unplaced,
            }),
            table,
            tray: self.tray.meters(),
            families: grouping.cells.families(),
            warnings: asked.warnings,
        };
        Ok((report, grouping.cells, asked.notes))
    }

    /// A result file in place of a grouping: of these options those that it has a use for.
    pub fn of_result<'a>(&self, file: &'a Source, serials: Option<&'a Source>) -> ResultAsked<'a> {
        ResultAsked {
            file,
            serials,
            rules: self.grouping.reading.rules(Words::NotTaken),
            tray: self.tray.meters(),
            fail_on_warning: self.grouping.fail_on_warning,
        }
    }
}

#[cfg(test)]
mod tests {
    use super::*;

    #[test]
    fn a_warning_is_a_line_or_a_failure() {
        let source = Source::Input;
        let warnings = ["look out".to_string()];
        let lines = warned(&source, &warnings, false);
        assert_eq!(lines, Ok(vec!["warning: standard input: look out".into()]));
        let failure = warned(&source, &warnings, true).unwrap_err();
        assert_eq!(failure, Failure::input("standard input", "look out"));
        assert_eq!(warned(&source, &[], true), Ok(vec![]));
    }

    #[test]
    fn options_that_are_floats_take_the_words() {
        assert_eq!(float("-0.5"), Ok(-0.5));
        assert_eq!(float("inf"), Ok(f32::INFINITY));
        assert!(float("0,5").unwrap_err().contains("decimal comma"));
    }
}
