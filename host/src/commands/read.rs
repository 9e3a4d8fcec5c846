//! `families read`: the families of a result file, under their serial numbers where the readings are at hand.

use clap::Args;

use super::Done;
use crate::failure::Failure;
use crate::options::reading::{source, ReadingOptions};
use crate::options::result_file::ResultAsked;
use crate::options::shown::{ShownOptions, TrayOptions};
use crate::options::written::check_written;
use crate::reading::decimal::Words;
use crate::reading::source::Source;

#[derive(Args, Clone, Debug)]
#[command(
    mut_arg("serial_column", |flag| flag.requires("serials")),
    mut_arg("no_serials", |flag| flag.requires("serials"))
)]
pub struct Read {
    /// The result file; `-` is standard input
    #[arg(value_name = "FILE", value_parser = source())]
    file: Source,

    /// The readings that the file was made from; else meters are shown by row number
    #[arg(long, value_name = "READINGS.csv", value_parser = source())]
    serials: Option<Source>,

    #[command(flatten)]
    reading: ReadingOptions,

    #[command(flatten)]
    tray: TrayOptions,

    #[command(flatten)]
    shown: ShownOptions,

    /// Exit by 3 where the readings are probably not those of the file, which is a warning else
    #[arg(long)]
    fail_on_warning: bool,
}

impl Read {
    pub fn run(&self) -> Result<Done, Failure> {
        let serials = self.serials.as_ref();
        let read: Vec<&Source> = serials.into_iter().chain([&self.file]).collect();
        check_written(&read, &self.shown.named())?;
        let asked = ResultAsked {
            file: &self.file,
            serials,
            rules: self.reading.rules(Words::NotTaken),
            tray: self.tray.meters(),
            fail_on_warning: self.fail_on_warning,
        };
        let (report, notes) = asked.report()?;
        let (output, files) = self.shown.shown(&report);
        Ok(Done {
            output,
            files,
            notes,
        })
    }
}
