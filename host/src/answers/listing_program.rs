//! The listing program: where it is looked for, and a run of it.

use std::env;
use std::ffi::OsString;
use std::io::{self, Write};
use std::path::{Path, PathBuf};
use std::process::{Command, Output, Stdio};
use std::thread;

use super::listing::{self, Listing};
use crate::failure::Failure;

const VARIABLE: &str = "FAMILIES_LISTING";
const BESIDE: &str = "listing";
const BUILT: &str = "target/bin/listing";

/// What is named is taken as it is; only a program that nobody named is searched.
pub fn find(named: Option<&Path>) -> Result<PathBuf, Failure> {
    let variable = env::var_os(VARIABLE).filter(|value| !value.is_empty());
    if let Some(named) = named.map(OsString::from).or(variable) {
        // With a folder in front the system does not search its own folders for it.
        return Ok(Path::new(".").join(named));
    }
    let own = env::current_exe().ok();
    let beside = own.and_then(|own| Some(own.parent()?.join(BESIDE)));
    let built = Path::new(".").join(BUILT);
    let mut candidates = beside.into_iter().chain([built]);
    candidates.find(|path| path.is_file()).ok_or_else(|| {
        Failure::System(format!(
            "no `{BESIDE}` beside this program and no {BUILT}; name it by --listing or {VARIABLE}"
        ))
    })
}

/// What the program prints of a batch, in its form; a refusal is no error here.
pub fn run(program: &Path, batch: &[u8]) -> Result<Listing, Failure> {
    let output = output(program, batch)
        .map_err(|error| Failure::system(program.display(), format!("cannot be run: {error}")))?;
    let listing =
        listing::read(&output.stdout).map_err(|what| Failure::system(program.display(), what))?;
    // An acceptance counts only from a program that says that it ended well.
    if !output.status.success() && matches!(listing, Listing::Accepted(_)) {
        let what = format!("accepted, and then ended by {}", output.status);
        return Err(Failure::system(program.display(), what));
    }
    Ok(listing)
}

/// The batch is fed by a thread of its own, so that neither side waits for the other.
fn output(program: &Path, batch: &[u8]) -> io::Result<Output> {
    let mut child = Command::new(program)
        .stdin(Stdio::piped())
        .stdout(Stdio::piped())
        .spawn()?;
    let input = child.stdin.take();
    thread::scope(|scope| {
        scope.spawn(move || {
            // A program that refuses may stop reading; what it prints tells.
            if let Some(mut input) = input {
                let _ = input.write_all(batch);
            }
        });
        child.wait_with_output()
    })
}
