//! How a CSV of readings is to be read.

use clap::builder::{OsStringValueParser, TypedValueParser};
use clap::Args;

use crate::reading::column::Asked;
use crate::reading::decimal::Words;
use crate::reading::source::Source;
use crate::reading::table::Rules;

/// A file by its path, or `-`.
pub fn source() -> impl TypedValueParser<Value = Source> {
    OsStringValueParser::new().map(Source::from)
}

#[derive(Args, Clone, Copy, Debug)]
pub struct ReadingOptions {
    /// The first column holds serial numbers, be they numbers too
    #[arg(long, conflicts_with = "no_serials")]
    serial_column: bool,

    /// The first column holds readings, be they whole numbers too
    #[arg(long)]
    no_serials: bool,
}

impl ReadingOptions {
    pub fn rules(self, words: Words) -> Rules {
        Rules {
            first_column: asked(self.serial_column, self.no_serials),
            options: ["--serial-column", "--no-serials"],
            words,
        }
    }
}

/// What two flags say of a column, of which at most one is given.
pub fn asked(names: bool, readings: bool) -> Asked {
    match (names, readings) {
        (true, _) => Asked::Serials,
        (false, true) => Asked::Readings,
        (false, false) => Asked::Nothing,
    }
}

#[cfg(test)]
mod tests {
    use super::*;

    #[test]
    fn two_flags_say_what_a_column_holds() {
        assert_eq!(asked(true, false), Asked::Serials);
        assert_eq!(asked(false, true), Asked::Readings);
        assert_eq!(asked(false, false), Asked::Nothing);
    }
}
