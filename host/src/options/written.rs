//! Files that a command is told to write: no two under one name, and none over a file that it reads.

use std::fs;
use std::path::{Path, PathBuf};

use crate::failure::Failure;
use crate::reading::source::Source;
use crate::showing::files::Written;

/// A file by the option that names it, where it is given.
pub type Named<'a> = (&'static str, Option<&'a PathBuf>);

/// Before anything is done, so that nobody waits for a command that cannot end well.
pub fn check_written(read: &[&Source], named: &[Named]) -> Result<(), Failure> {
    let given = named
        .iter()
        .filter_map(|(option, path)| Some((*option, place(path.as_deref()?)?)));
    let given: Vec<(&str, PathBuf)> = given.collect();
    for (at, (option, path)) in given.iter().enumerate() {
        if let Some((before, _)) = given[..at].iter().find(|(_, other)| other == path) {
            let what = format!("{before} and {option} name the same file");
            return Err(Failure::Usage(what));
        }
        let mut read = read.iter();
        if let Some(source) = read.find(|source| place_of(source).as_ref() == Some(path)) {
            let what = format!("{source} is read by this command and is not written over");
            return Err(Failure::Usage(what));
        }
    }
    Ok(())
}

fn place_of(source: &Source) -> Option<PathBuf> {
    source.path().and_then(place)
}

/// One name for a file however it is named, be it there or only its folder; nothing where that is not there either, which writing tells.
fn place(path: &Path) -> Option<PathBuf> {
    let of_folder = || {
        let folder = path
            .parent()
            .filter(|folder| !folder.as_os_str().is_empty());
        let folder = fs::canonicalize(folder.unwrap_or(Path::new("."))).ok()?;
        Some(folder.join(path.file_name()?))
    };
    fs::canonicalize(path).ok().or_else(of_folder)
}

/// A file to write, where an option names one.
pub fn written(path: Option<&PathBuf>, bytes: impl FnOnce() -> Vec<u8>) -> Option<Written> {
    path.map(|path| Written {
        path: path.clone(),
        bytes: bytes(),
    })
}

#[cfg(test)]
mod tests {
    use super::*;

    fn usage(read: &[&Source], named: &[Named]) -> Option<String> {
        let failure = check_written(read, named).err()?;
        assert_eq!(failure.exit_code(), 2);
        Some(failure.to_string())
    }

    #[test]
    fn a_file_has_one_option_however_it_is_named() {
        let [f, dotted, g] = ["f", "./f", "src/../g"].map(PathBuf::from);
        let same = "--output and --result name the same file";
        for other in [&f, &dotted] {
            let named = [
                ("--output", Some(&f)),
                ("--means", None),
                ("--result", Some(other)),
            ];
            assert_eq!(usage(&[], &named).as_deref(), Some(same));
        }
        assert_eq!(
            usage(&[], &[("--output", Some(&f)), ("--means", Some(&g))]),
            None
        );
        assert_eq!(usage(&[], &[("--output", None), ("--means", None)]), None);
    }

    #[test]
    fn a_file_that_is_read_is_not_written() {
        let read = [Source::Input, Source::File("Cargo.toml".into())];
        let read: Vec<&Source> = read.iter().collect();
        let [over, beside] = ["src/../Cargo.toml", "Cargo.tom"].map(PathBuf::from);
        let told = usage(&read, &[("--output", Some(&over))]).unwrap();
        assert!(told.starts_with("Cargo.toml is read"), "{told}");
        assert_eq!(usage(&read, &[("--output", Some(&beside))]), None);
    }
}
