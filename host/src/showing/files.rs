//! Files written whole or not at all: what is there under a name is the old file or the new one.

use std::fs::{self, File};
use std::io::{self, Write};
use std::path::{Path, PathBuf};
use std::process;

use crate::failure::Failure;

/// A file to write.
#[derive(Clone, Debug)]
pub struct Written {
    pub path: PathBuf,
    pub bytes: Vec<u8>,
}

/// All files are written beside their places before the first takes its name, so that a full disk changes none.
pub fn write(files: &[Written]) -> Result<(), Failure> {
    let mut beside = Vec::new();
    let told = files
        .iter()
        .try_for_each(|file| {
            let path = name_beside(&file.path)?;
            beside.push(path.clone());
            write_new(&path, &file.bytes).map_err(|error| failure(&file.path, error))
        })
        .and_then(|()| {
            files.iter().zip(&beside).try_for_each(|(file, beside)| {
                fs::rename(beside, &file.path).map_err(|error| failure(&file.path, error))
            })
        });
    if told.is_err() {
        for path in beside {
            // What took its name is not here any more.
            let _ = fs::remove_file(path);
        }
    }
    told
}

/// A name in the same folder, since only there a rename is one step. What is no file, such as a device, is not replaced.
fn name_beside(path: &Path) -> Result<PathBuf, Failure> {
    let is_other = fs::metadata(path).is_ok_and(|found| !found.is_file());
    match path.file_name() {
        Some(name) if !is_other => {
            let mut hidden = std::ffi::OsString::from(".");
            hidden.push(name);
            hidden.push(format!(".{}.part", process::id()));
            Ok(path.with_file_name(hidden))
        }
        _ => Err(failure(path, "not a file that can be written")),
    }
}

fn write_new(path: &Path, bytes: &[u8]) -> io::Result<()> {
    let mut file = File::create(path)?;
    file.write_all(bytes)?;
    file.sync_all()
}

fn failure(path: &Path, what: impl std::fmt::Display) -> Failure {
    Failure::system(path.display(), what)
}

#[cfg(test)]
mod tests {
    use super::*;
    use std::env;

    fn folder(test: &str) -> PathBuf {
        let path = env::temp_dir().join(format!("families_{test}_{}", process::id()));
        let _ = fs::remove_dir_all(&path);
        fs::create_dir_all(&path).unwrap();
        path
    }

    fn file(path: PathBuf, text: &str) -> Written {
        let bytes = text.as_bytes().to_vec();
        Written { path, bytes }
    }

    fn names(folder: &Path) -> Vec<String> {
        let entries = fs::read_dir(folder).unwrap();
        let mut names: Vec<String> = entries
            .map(|entry| entry.unwrap().file_name().into_string().unwrap())
            .collect();
        names.sort();
        names
    }

    #[test]
    fn files_are_made_and_replaced() {
        let folder = folder("files_made");
        fs::write(folder.join("b"), "old and longer").unwrap();
        write(&[file(folder.join("a"), "1"), file(folder.join("b"), "2")]).unwrap();
        assert_eq!(fs::read(folder.join("a")).unwrap(), b"1");
        assert_eq!(fs::read(folder.join("b")).unwrap(), b"2");
        assert_eq!(names(&folder), ["a", "b"]);
        fs::remove_dir_all(folder).unwrap();
    }

    #[test]
    fn where_one_cannot_be_written_the_other_stays_and_nothing_is_left_beside() {
        let folder = folder("files_kept");
        fs::write(folder.join("a"), "old").unwrap();
        for other in [folder.join("none/b"), folder.clone(), folder.join("..")] {
            let told = write(&[file(folder.join("a"), "new"), file(other, "2")]);
            assert_eq!(told.unwrap_err().exit_code(), 4);
            assert_eq!(fs::read(folder.join("a")).unwrap(), b"old");
            assert_eq!(names(&folder), ["a"]);
        }
        fs::remove_dir_all(folder).unwrap();
    }
}
