//! Where a file comes from: a path, or standard input for `-`.

use std::ffi::OsString;
use std::fmt;
use std::fs::File;
use std::io::{self, Read};
use std::path::{Path, PathBuf};

use crate::failure::Failure;

#[derive(Clone, Debug, PartialEq, Eq)]
pub enum Source {
    Input,
    File(PathBuf),
}

impl From<OsString> for Source {
    fn from(word: OsString) -> Self {
        match word == "-" {
            true => Source::Input,
            false => Source::File(word.into()),
        }
    }
}

impl fmt::Display for Source {
    fn fmt(&self, out: &mut fmt::Formatter) -> fmt::Result {
        match self {
            Source::Input => write!(out, "standard input"),
            Source::File(path) => write!(out, "{}", path.display()),
        }
    }
}

impl Source {
    pub fn read(&self) -> Result<Vec<u8>, Failure> {
        self.read_up_to(usize::MAX)
    }

    /// The front of a file that may be longer than any that is of use.
    pub fn read_up_to(&self, most: usize) -> Result<Vec<u8>, Failure> {
        let mut bytes = Vec::new();
        let most = most as u64;
        let read = match self {
            Source::Input => io::stdin().take(most).read_to_end(&mut bytes),
            Source::File(path) => {
                File::open(path).and_then(|file| file.take(most).read_to_end(&mut bytes))
            }
        };
        match read {
            Ok(_) => Ok(bytes),
            Err(error) => Err(Failure::system(self, error)),
        }
    }

    pub fn path(&self) -> Option<&Path> {
        match self {
            Source::Input => None,
            Source::File(path) => Some(path),
        }
    }
}

#[cfg(test)]
mod tests {
    use super::*;

    #[test]
    fn a_hyphen_alone_is_standard_input() {
        assert_eq!(Source::from(OsString::from("-")), Source::Input);
        let file = Source::from(OsString::from("-.csv"));
        assert_eq!(file, Source::File("-.csv".into()));
        assert_eq!(file.to_string(), "-.csv");
    }

    #[test]
    fn a_file_is_read_up_to_a_length() {
        let endless = Source::File("/dev/zero".into());
        assert_eq!(endless.read_up_to(7), Ok(vec![0; 7]));
        let own = Source::File(concat!(env!("CARGO_MANIFEST_DIR"), "/Cargo.toml").into());
        let (whole, front) = (own.read().unwrap(), own.read_up_to(9).unwrap());
        assert_eq!(front, whole[..9]);
        assert_eq!(own.read_up_to(whole.len() + 1), Ok(whole));
    }

    #[test]
    fn a_file_that_is_not_there_is_told_by_its_name() {
        let told = Source::File("no/such.csv".into()).read().unwrap_err();
        assert_eq!(told.exit_code(), 4);
        assert!(told.to_string().starts_with("no/such.csv: "), "{told}");
    }
}
