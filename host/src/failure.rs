//! What stops a command: the text that says so and the exit code that goes with it.

use std::fmt;

#[derive(Clone, Debug, PartialEq, Eq)]
pub enum Failure {
    /// The engine refused; the text has what it refused, by which number, and why.
    Refused(String),
    Usage(String),
    /// A CSV or a batch file that does not hold what it should.
    Input(String),
    /// A program or a file that could not be run, read or written.
    System(String),
}

impl Failure {
    pub fn exit_code(&self) -> u8 {
        match self {
            Failure::Refused(_) => 1,
            Failure::Usage(_) => 2,
            Failure::Input(_) => 3,
            Failure::System(_) => 4,
        }
    }

    pub fn refused(number: u32, file: impl fmt::Display, why: impl fmt::Display) -> Self {
        Failure::Refused(format!("{file}: refused {number}: {why}"))
    }

    /// Something in a file, named by the file.
    pub fn input(file: impl fmt::Display, what: impl fmt::Display) -> Self {
        Failure::Input(format!("{file}: {what}"))
    }

    /// A file or a program that the system would not give.
    pub fn system(file: impl fmt::Display, what: impl fmt::Display) -> Self {
        Failure::System(format!("{file}: {what}"))
    }
}

impl fmt::Display for Failure {
    fn fmt(&self, out: &mut fmt::Formatter) -> fmt::Result {
        let (Failure::Refused(text)
        | Failure::Usage(text)
        | Failure::Input(text)
        | Failure::System(text)) = self;
        write!(out, "{text}")
    }
}

#[cfg(test)]
mod tests {
    use super::*;

    #[test]
    fn a_failure_names_its_file_and_has_its_own_exit_code() {
        let refused = Failure::refused(7, "a.bin", "the budget");
        assert_eq!(refused.to_string(), "a.bin: refused 7: the budget");
        let input = Failure::input("a.csv", "empty");
        assert_eq!(input.to_string(), "a.csv: empty");
        let others = [Failure::Usage(String::new()), Failure::system("a", "b")];
        let codes = [refused, input].map(|failure| failure.exit_code());
        assert_eq!(codes, [1, 3]);
        assert_eq!(others.map(|failure| failure.exit_code()), [2, 4]);
    }
}
