//! Help, version and usage.

use crate::common::Folder;

const COMMANDS: [&str; 7] = ["group", "page", "read", "batch", "list", "label", "closure"];

#[test]
fn help_of_the_program_names_every_command() {
    let folder = Folder::new("help_program");
    for word in ["--help", "-h", "help"] {
        let run = folder.run(&[word]);
        for command in COMMANDS {
            assert!(run.text().contains(&format!("\n  {command} ")), "{command}");
        }
        assert!(run.errors.is_empty());
    }
}

#[test]
fn help_of_a_command_shows_its_usage() {
    let folder = Folder::new("help_commands");
    for command in COMMANDS {
        for word in ["--help", "-h"] {
            let run = folder.run(&[command, word]);
            let usage = format!("Usage: families {command} ");
            assert!(run.text().contains(&usage), "{run:?}");
            assert!(run.errors.is_empty());
        }
    }
}

#[test]
fn help_states_the_defaults() {
    let folder = Folder::new("help_defaults");
    let run = folder.run(&["group", "-h"]);
    for words in [
        ("--limit <N>", "[default: 40]"),
        ("--branching <N>", "[default: 4]"),
        ("--weight <W>", "[default: 0.25]"),
        ("--budget <N>", "[default: 8192]"),
        ("--tray <N>", "[default: 40]"),
        ("--format <FORMAT>", "[default: text]"),
    ] {
        let has = |line: &str| line.contains(words.0) && line.contains(words.1);
        assert!(run.text().lines().any(has), "{words:?} in {run:?}");
    }
}

/// The options that a batch file has no place for.
#[test]
fn some_options_are_there_only_where_families_are_shown() {
    let folder = Folder::new("help_shown");
    for command in COMMANDS {
        let run = folder.run(&[command, "-h"]);
        for option in ["--allow-unplaced", "--spherical"] {
            let has = run.text().contains(option);
            let shown = ["group", "page"].contains(&command);
            assert_eq!(has, shown, "{command} {option}");
        }
    }
}

#[test]
fn a_result_file_is_written_by_one_command_and_read_by_two() {
    let folder = Folder::new("help_result");
    for command in COMMANDS {
        let run = folder.run(&[command, "-h"]);
        let has = run.text().contains("--result <FILE>");
        assert_eq!(has, ["group", "page"].contains(&command), "{command}");
        let has = run.text().contains("--serials <READINGS.csv>");
        assert_eq!(
            has,
            ["page", "read", "list"].contains(&command),
            "{command}"
        );
    }
}

#[test]
fn the_version_is_printed() {
    let run = Folder::new("help_version").run(&["--version"]);
    assert_eq!(
        run.text(),
        format!("families {}\n", env!("CARGO_PKG_VERSION"))
    );
}

#[test]
fn bad_usage_ends_by_2() {
    let folder = Folder::new("help_usage");
    folder.run(&[]).fails(2, &["families"]);
    folder
        .run(&["grop"])
        .fails(2, &["grop", "'group'", "--help"]);
    folder
        .run(&["group", "--limits", "4", "a.csv"])
        .fails(2, &["--limits", "'--limit'"]);
    for command in COMMANDS {
        folder.run(&[command]).fails(2, &["--help"]);
        folder.run(&[command, "a", "b"]).fails(2, &["'b'"]);
    }
    let twice = ["list", "a.bin", "--listing", "x", "--listing", "x"];
    folder.run(&twice).fails(2, &["--listing"]);
    folder.write("a.bin", "");
    folder
        .run(&["list", "a.bin", "--serial-column"])
        .fails(2, &["--serials"]);
}
