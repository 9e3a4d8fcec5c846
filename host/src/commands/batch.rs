//! `families batch`: readings and settings become a batch file, tied to their serial numbers.

use std::ffi::OsString;

use clap::{value_parser, Args};

use super::Done;
use crate::answers::batch_file::{self, MAX_FILE_BYTES};
use crate::answers::digest::Tie;
use crate::failure::Failure;
use crate::options::grouping::GroupingOptions;
use crate::options::reading::source;
use crate::reading::source::Source;

#[derive(Args, Clone, Debug)]
pub struct Batch {
    /// Readings, one meter to a line; `-` is standard input
    #[arg(value_name = "READINGS.csv", value_parser = source())]
    file: Source,

    #[command(flatten)]
    grouping: GroupingOptions,

    /// Put at the front of the file, behind the line with version, seed and digest
    #[arg(long, value_name = "TEXT", default_value = "", hide_default_value = true, value_parser = value_parser!(OsString))]
    remark: OsString,
}

impl Batch {
    pub fn run(&self) -> Result<Done, Failure> {
        let asked = self.grouping.read(&self.file)?;
        let (table, draws) = (asked.table, asked.draws);
        let tie = Tie::new(table.serials.as_deref(), asked.settings, draws);
        let batch = batch_file::Batch {
            remark: [tie.line().as_bytes(), self.remark.as_encoded_bytes()].concat(),
            rows: table.rows as u32,
            dim: table.readings as u32,
            values: table.values,
            draws: draws.numbers(),
            settings: asked.settings,
        };
        let output = batch.to_file().map_err(|length| {
            let what = format!(
                "{} rows of {} readings, {} draws and {} bytes of remark make {length} bytes; a batch file has at most {MAX_FILE_BYTES}; `families group` has no such bound",
                batch.rows, batch.dim, draws.count, batch.remark.len()
            );
            Failure::input(&self.file, what)
        })?;
        Ok(Done {
            output,
            notes: asked.notes,
            ..Done::default()
        })
    }
}
