//! The commands: each has its options and gives what is to be printed and written. None knows another.

mod batch;
mod closure;
mod group;
mod label;
mod list;
mod page;
mod read;

use clap::{Parser, Subcommand};

use crate::failure::Failure;
use crate::showing::files::Written;

/// What a command gives: bytes for standard output, files, and lines for standard error.
#[derive(Clone, Debug, Default)]
pub struct Done {
    pub output: Vec<u8>,
    pub files: Vec<Written>,
    pub notes: Vec<String>,
}

/// Meter families for the calibration bench
#[derive(Parser, Debug)]
#[command(name = "families", version, after_help = AFTER)]
pub struct Program {
    #[command(subcommand)]
    command: Command,
}

const AFTER: &str = "\
Rows, families and centroids are counted from 0; trays, places, lines and columns from 1.
Exit codes: 0 done; 1 refused, with the refusal's number and what to change; 2 bad usage;
3 a CSV or batch file that does not hold what it should, or readings that are not a result file's;
4 a program or file that could not be run, read or written.";

#[derive(Subcommand, Debug)]
enum Command {
    /// Group a CSV of readings and print the families: serials, sizes, means
    Group(group::Group),
    /// Group a CSV of readings, or take a result file, into one HTML page with a chart for each family
    Page(page::Page),
    /// Print the families of a result file, which `group --result` writes
    Read(read::Read),
    /// Write a batch file, which the listing program groups, to standard output
    Batch(batch::Batch),
    /// Have the listing program group a batch file, and print the families
    List(list::List),
    /// Print the nearest centroid of each row and its squared distance, or `unplaced`
    ///
    /// A line is NAME: NUMBER DISTANCE, the distance being the score that was the smallest of all, a squared distance; or NAME: unplaced
    /// where no centroid has a score below infinity.
    Label(label::Label),
    /// Print the centroids that each row is offered
    Closure(closure::Closure),
}

impl Program {
    pub fn run(&self) -> Result<Done, Failure> {
        match &self.command {
            Command::Group(command) => command.run(),
            Command::Page(command) => command.run(),
            Command::Read(command) => command.run(),
            Command::Batch(command) => command.run(),
            Command::List(command) => command.run(),
            Command::Label(command) => command.run(),
            Command::Closure(command) => command.run(),
        }
    }
}

#[cfg(test)]
mod tests {
    use super::*;
    use clap::CommandFactory;
    use std::fs;
    use std::path::Path;

    #[test]
    fn the_options_are_sound() {
        Program::command().debug_assert();
    }

    #[test]
    fn no_command_knows_another() {
        let folder = Path::new(env!("CARGO_MANIFEST_DIR")).join("src/commands");
        let names = ["batch", "closure", "group", "label", "list", "page", "read"];
        for name in names {
            let text = fs::read_to_string(folder.join(format!("{name}.rs"))).unwrap();
            let code = text.split("#[cfg(test)]").next().unwrap();
            let from_here = |line: &&str| line.contains("super::") || line.contains("commands::");
            for line in code.lines().filter(from_here) {
                assert_eq!(line.trim(), "use super::Done;", "in {name}.rs");
            }
        }
        let files = fs::read_dir(folder).unwrap().count();
        assert_eq!(
            files,
            names.len() + 1,
            "a command that this test does not know"
        );
    }
}
