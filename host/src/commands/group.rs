//! `families group`: a CSV of readings becomes families, in one step.

use std::path::PathBuf;

use clap::Args;

use super::Done;
use crate::answers::{refusals, result_file};
use crate::failure::Failure;
use crate::options::grouping::ReportOptions;
use crate::options::reading::source;
use crate::options::shown::ShownOptions;
use crate::options::written::{check_written, written};
use crate::reading::source::Source;

#[derive(Args, Clone, Debug)]
pub struct Group {
    /// Readings, one meter to a line; `-` is standard input
    #[arg(value_name = "READINGS.csv", value_parser = source())]
    file: Source,

    #[command(flatten)]
    report: ReportOptions,

    #[command(flatten)]
    shown: ShownOptions,

    /// Write the families here as a result file too, which `families read` gives back
    #[arg(long, value_name = "FILE")]
    result: Option<PathBuf>,
}

impl Group {
    pub fn run(&self) -> Result<Done, Failure> {
        let result = ("--result", self.result.as_ref());
        check_written(
            &[&self.file],
            &[&self.shown.named()[..], &[result]].concat(),
        )?;
        let (report, cells, notes) = self.report.report(&self.file)?;
        let (output, mut files) = self.shown.shown(&report);
        if let Some(path) = &self.result {
            let bytes = result_file::written(&cells)
                .map_err(|number| Failure::system(path.display(), refusals::of_writing(number)))?;
            files.extend(written(Some(path), || bytes));
        }
        Ok(Done {
            output,
            files,
            notes,
        })
    }
}
