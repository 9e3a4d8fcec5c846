//! `families page`: a CSV of readings, or a result file beside them, becomes one HTML page of its families.

use std::path::PathBuf;

use clap::Args;

use super::Done;
use crate::answers::report::Report;
use crate::failure::Failure;
use crate::options::grouping::ReportOptions;
use crate::options::reading::source;
use crate::options::written::{check_written, written};
use crate::reading::source::Source;
use crate::showing::page;

#[derive(Args, Clone, Debug)]
pub struct Page {
    /// Readings, one meter to a line; `-` is standard input
    #[arg(value_name = "READINGS.csv", value_parser = source(), required_unless_present = "result")]
    file: Option<Source>,

    /// Show the families of this result file, and group nothing; `-` is standard input
    #[arg(long, value_name = "FILE", value_parser = source(), requires = "serials", conflicts_with_all = GROUPING)]
    result: Option<Source>,

    /// The readings that the result file was made from
    #[arg(long, value_name = "READINGS.csv", value_parser = source(), requires = "result", conflicts_with = "file")]
    serials: Option<Source>,

    #[command(flatten)]
    report: ReportOptions,

    /// Write the page here, whole or not at all, and nothing to standard output
    #[arg(long, value_name = "FILE.html")]
    output: Option<PathBuf>,
}

/// What only a grouping has a use for.
const GROUPING: [&str; 9] = [
    "file",
    "limit",
    "branching",
    "weight",
    "budget",
    "seed",
    "draws",
    "allow_unplaced",
    "spherical",
];

impl Page {
    pub fn run(&self) -> Result<Done, Failure> {
        let read = [&self.file, &self.result, &self.serials];
        let read: Vec<&Source> = read.into_iter().flatten().collect();
        check_written(&read, &[("--output", self.output.as_ref())])?;
        let (report, notes) = self.grouped_or_read()?;
        let mut output = page::html(&report).into_bytes();
        let files = written(self.output.as_ref(), || std::mem::take(&mut output));
        Ok(Done {
            output,
            files: files.into_iter().collect(),
            notes,
        })
    }

    /// The report, and lines for standard error.
    fn grouped_or_read(&self) -> Result<(Report, Vec<String>), Failure> {
        match (&self.file, &self.result) {
            (Some(file), None) => {
                let (report, _, notes) = self.report.report(file)?;
                Ok((report, notes))
            }
            (None, Some(result)) => {
                let asked = self.report.of_result(result, self.serials.as_ref());
                asked.report()
            }
            // The options let nothing else through.
            _ => Err(Failure::Usage("either readings or --result".to_string())),
        }
    }
}
