//! What the tests of the built program share: a folder to work in, and runs that are easy to judge.

use std::fs;
use std::path::{Path, PathBuf};
use std::process::{Command, Output};

/// A folder of one test, empty at its start.
pub struct Folder(PathBuf);

impl Folder {
    pub fn new(test: &str) -> Self {
        let path = Path::new(env!("CARGO_TARGET_TMPDIR")).join(test);
        let _ = fs::remove_dir_all(&path);
        fs::create_dir_all(&path).unwrap();
        Self(path)
    }

    pub fn path(&self) -> &Path {
        &self.0
    }

    pub fn write(&self, name: &str, bytes: impl AsRef<[u8]>) {
        fs::write(self.0.join(name), bytes).unwrap();
    }

    /// The program with this folder as its own, nothing about it taken from outside.
    pub fn command(&self, words: &[&str]) -> Command {
        let mut command = Command::new(env!("CARGO_BIN_EXE_families"));
        command
            .args(words)
            .current_dir(&self.0)
            .env_remove("FAMILIES_LISTING");
        command
    }

    pub fn run(&self, words: &[&str]) -> Run {
        Run::of(&mut self.command(words))
    }
}

/// How a run ended, and what it printed.
#[derive(Debug)]
pub struct Run {
    pub code: i32,
    pub bytes: Vec<u8>,
    pub errors: String,
}

impl Run {
    pub fn of(command: &mut Command) -> Self {
        let Output {
            status,
            stdout,
            stderr,
        } = command.output().unwrap();
        Self {
            code: status.code().unwrap(),
            bytes: stdout,
            errors: String::from_utf8(stderr).unwrap(),
        }
    }

    /// The text of a run that ended well.
    pub fn text(&self) -> &str {
        assert_eq!(self.code, 0, "{self:?}");
        std::str::from_utf8(&self.bytes).unwrap()
    }

    /// This exit code, these words on standard error, and nothing on standard output.
    pub fn fails(&self, code: i32, words: &[&str]) {
        assert_eq!(self.code, code, "{self:?}");
        assert!(self.bytes.is_empty(), "{self:?}");
        for word in words {
            assert!(self.errors.contains(word), "no `{word}` in {self:?}");
        }
    }
}
