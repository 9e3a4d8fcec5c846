//! `families label`: the nearest centroid of each row and its distance, or that the row matches none.

use clap::Args;

use super::Done;
use crate::failure::Failure;
use crate::options::nearest::NearestOptions;

#[derive(Args, Clone, Debug)]
pub struct Label {
    #[command(flatten)]
    nearest: NearestOptions,
}

impl Label {
    pub fn run(&self) -> Result<Done, Failure> {
        let given = self.nearest.read()?;
        let notes = self.nearest.warned(&given)?;
        Ok(Done {
            output: given.placements()?.into_bytes(),
            notes,
            ..Done::default()
        })
    }
}
