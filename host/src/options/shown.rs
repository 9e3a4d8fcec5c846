//! Families that are printed: in which form, and into which files.

use std::path::PathBuf;

use clap::{value_parser, Args, ValueEnum};

use super::written::{written, Named};
use crate::answers::report::Report;
use crate::showing::files::Written;
use crate::showing::{csv, json, text};

#[derive(Clone, Copy, Debug, ValueEnum)]
enum Format {
    /// For people: each family with its mean, and its meters as SERIAL@TRAY/PLACE
    Text,
    /// serial,row,tray,place,family: a line for each meter, in the order of the rows
    Csv,
    /// Everything that is known, versions too
    Json,
}

#[derive(Args, Clone, Debug)]
pub struct ShownOptions {
    /// How the families are printed
    #[arg(long, value_enum, default_value = "text")]
    format: Format,

    /// Write the means here, a line for each family
    #[arg(long, value_name = "FILE.csv")]
    means: Option<PathBuf>,

    /// Write the families here, whole or not at all, and nothing to standard output
    #[arg(long, value_name = "FILE")]
    output: Option<PathBuf>,
}

impl ShownOptions {
    pub fn named(&self) -> [Named<'_>; 2] {
        [
            ("--output", self.output.as_ref()),
            ("--means", self.means.as_ref()),
        ]
    }

    /// What goes to standard output, and the files.
    pub fn shown(&self, report: &Report) -> (Vec<u8>, Vec<Written>) {
        let mut output = match self.format {
            Format::Text => text::families(report).into_bytes(),
            Format::Csv => csv::meters(report),
            Format::Json => json::families(report).into_bytes(),
        };
        let shown = written(self.output.as_ref(), || std::mem::take(&mut output));
        let means = written(self.means.as_ref(), || csv::means(report));
        (output, shown.into_iter().chain(means).collect())
    }
}

/// Where meters stand.
#[derive(Args, Clone, Copy, Debug)]
pub struct TrayOptions {
    /// Meters to a tray, 1 to 4096: rows come tray after tray
    #[arg(long, value_name = "N", default_value = "40", value_parser = value_parser!(u32).range(1..=4_096))]
    tray: u32,
}

impl TrayOptions {
    pub fn meters(self) -> usize {
        self.tray as usize
    }
}
