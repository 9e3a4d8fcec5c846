//! The program `families`: commands in, families, files and pages out, and an exit code that tells how it went.

#![forbid(unsafe_code)]

mod answers;
mod commands;
mod failure;
mod options;
mod reading;
mod showing;

use std::io::{self, Write};
use std::process::ExitCode;

use clap::Parser;

use commands::{Done, Program};
use failure::Failure;
use showing::{files, progress};

fn main() -> ExitCode {
    let program = match Program::try_parse() {
        Ok(program) => program,
        Err(told) => return usage(&told),
    };
    match progress::shown(|| program.run()).and_then(give) {
        Ok(notes) => {
            tell(&notes);
            ExitCode::SUCCESS
        }
        Err(failure) => {
            tell(&[failure.to_string()]);
            ExitCode::from(failure.exit_code())
        }
    }
}

/// Help and version go to standard output, since they were asked for.
fn usage(told: &clap::Error) -> ExitCode {
    let text = told.render();
    if !told.use_stderr() {
        return match write_out(text.to_string().as_bytes()) {
            Ok(()) => ExitCode::SUCCESS,
            Err(failure) => ExitCode::from(failure.exit_code()),
        };
    }
    let _ = write!(io::stderr(), "{text}");
    ExitCode::from(Failure::Usage(String::new()).exit_code())
}

/// Files first: standard output stays empty where one of them fails.
fn give(done: Done) -> Result<Vec<String>, Failure> {
    files::write(&done.files)?;
    write_out(&done.output)?;
    Ok(done.notes)
}

fn write_out(bytes: &[u8]) -> Result<(), Failure> {
    let mut out = io::stdout().lock();
    out.write_all(bytes)
        .and_then(|()| out.flush())
        .map_err(|error| Failure::system("standard output", error))
}

/// Nobody is left to tell where standard error is closed.
fn tell(lines: &[String]) {
    for line in lines {
        let _ = writeln!(io::stderr(), "families: {line}");
    }
}
