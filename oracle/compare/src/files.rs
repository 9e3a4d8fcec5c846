//! Whole batch files: the listing program's text against the oracle's.

use std::ffi::OsString;
use std::io::{self, Write};
use std::process::{Command, Output, Stdio};
use std::thread;
use std::time::Duration;

use engine::exported::list;
use oracle::batch::{listing, MAX_FILE_BYTES};
use oracle::cases::{BatchCase, Case};

use crate::tally::{number_kind, Need, Tally};

/// Where the program stands under the current folder once it is proved.
pub const BUILT: &str = "target/bin/listing";

/// No listing is longer.
const ROOM: usize = 65_536;

const NEEDS: [Need; 9] = [
    ("accepted", 100),
    ("refused 1", 10),
    ("refused 4", 10),
    ("refused 6", 10),
    ("refused 7", 10),
    ("refused 8", 50),
    ("refused 9", 10),
    ("the longest file", 1),
    ("a file too long", 1),
];

/// Anything that makes the text of a file: the program, or a function that it is called by.
pub type Lister<'a> = dyn FnMut(&[u8]) -> Result<String, String> + 'a;

/// The program and the words that stand before or after its name.
pub struct Program {
    words: Vec<OsString>,
    runs: u64,
}

impl Program {
    /// The program where it is built, if there are no words.
    pub fn new(words: impl IntoIterator<Item = OsString>) -> Self {
        let mut words: Vec<OsString> = words.into_iter().collect();
        if words.is_empty() {
            words.push(BUILT.into());
        }
        Self { words, runs: 0 }
    }

    /// What it prints, if it ends by status 0 and has nothing to say on standard error.
    pub fn list(&mut self, file: &[u8]) -> Result<String, String> {
        self.runs += 1;
        // Some files come in pieces, since a pipe may hand over less than is asked for.
        let pieces = if self.runs.is_multiple_of(8) { 3 } else { 1 };
        let output = self
            .output(file, pieces)
            .map_err(|error| format!("{:?} cannot be run: {error}", self.words))?;
        let text = |bytes: &[u8]| String::from_utf8_lossy(bytes).into_owned();
        if !output.status.success() || !output.stderr.is_empty() {
            let errors = text(&output.stderr);
            return Err(format!("ended by {}: {errors}", output.status));
        }
        Ok(text(&output.stdout))
    }

    /// The file is fed by a thread of its own, so that neither side waits for the other.
    fn output(&self, file: &[u8], pieces: usize) -> io::Result<Output> {
        let mut child = Command::new(&self.words[0])
            .args(&self.words[1..])
            .stdin(Stdio::piped())
            .stdout(Stdio::piped())
            .stderr(Stdio::piped())
            .spawn()?;
        let input = child.stdin.take();
        thread::scope(|scope| {
            scope.spawn(move || {
                if let Some(mut input) = input {
                    // A program that has seen too much may stop reading; what it prints tells.
                    let _ = feed(&mut input, file, pieces);
                }
            });
            child.wait_with_output()
        })
    }
}

/// What the exported function writes, and that it leaves the rest of its room alone.
pub fn exported(file: &[u8]) -> Result<String, String> {
    const STALE: u8 = 0xa5;
    let mut text = vec![STALE; ROOM];
    let length = list(file, &mut text) as usize;
    if length > ROOM || text[length..].iter().any(|&byte| byte != STALE) {
        return Err(format!("{length} bytes, and something behind them"));
    }
    text.truncate(length);
    String::from_utf8(text).map_err(|error| error.to_string())
}

fn feed(input: &mut impl Write, file: &[u8], pieces: usize) -> io::Result<()> {
    for piece in file.chunks(file.len().div_ceil(pieces).max(1)) {
        input.write_all(piece)?;
        if piece.len() < file.len() {
            thread::sleep(Duration::from_micros(200));
        }
    }
    Ok(())
}

/// Holds the text of one file against the oracle's.
pub fn hold(tally: &mut Tally, name: &str, lister: &mut Lister, file: &[u8]) {
    let theirs = listing(file);
    let number = BatchCase::number(&theirs);
    tally.meet(number_kind(number));
    match file.len() {
        MAX_FILE_BYTES if number == 0 => tally.meet("the longest file".into()),
        length if length > MAX_FILE_BYTES => tally.meet("a file too long".into()),
        _ => (),
    }
    let theirs = String::from_utf8(theirs).map_err(|error| error.to_string());
    tally.hold(name, &lister(file), &theirs);
}

/// The built files and `count` generated ones.
pub fn compare(lister: &mut Lister, seed: u64, count: u64) -> Tally {
    let mut tally = Tally::default();
    for (number, case) in BatchCase::built().iter().enumerate() {
        hold(
            &mut tally,
            &format!("built file {number}"),
            lister,
            &case.file,
        );
    }
    for index in 0..count {
        let case = BatchCase::generate(seed, index);
        let name = format!("file of seed {seed} index {index}");
        hold(&mut tally, &name, lister, &case.file);
    }
    tally.need("files", &NEEDS);
    tally.report("files");
    tally
}
