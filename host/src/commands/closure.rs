//! `families closure`: the centroids that each row is offered.

use clap::Args;

use super::Done;
use crate::failure::Failure;
use crate::options::grouping::float;
use crate::options::nearest::NearestOptions;

#[derive(Args, Clone, Debug)]
pub struct Closure {
    #[command(flatten)]
    nearest: NearestOptions,

    /// Most centroids to a row, 0 to 65535
    #[arg(long, value_name = "N")]
    replicas: u16,

    /// How far beyond the closest
    #[arg(long, value_name = "E", value_parser = float, allow_hyphen_values = true)]
    epsilon: f32,
}

impl Closure {
    pub fn run(&self) -> Result<Done, Failure> {
        let given = self.nearest.read()?;
        let centroids = &given.centroids;
        let text = given.each_row(0, |row| {
            centroids.closure(given.dim, self.replicas, self.epsilon, row)
        })?;
        Ok(Done {
            output: text.into_bytes(),
            ..Done::default()
        })
    }
}
