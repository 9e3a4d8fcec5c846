//! `families list`, with a stand-in for the listing program.

use crate::common::{Folder, Run};

use std::fs;
use std::os::unix::fs::symlink;
use std::path::Path;
use std::process::Command;

const STAND_IN: &str = concat!(env!("CARGO_MANIFEST_DIR"), "/tests/stand_in/listing");
const P1: &str = "accepted groups 2 splits 1\n2: 2 3\n2: 0 1\n";
const READINGS: &str = "serial,error\nA1,0\nB 2,1\nC3,10\nD4,11\n";

/// P1's batch, its readings with serial numbers, and what the stand-in is to print.
fn folder(test: &str, prints: &str) -> Folder {
    let folder = Folder::new(test);
    folder.write("r.csv", READINGS);
    folder.write("prints", prints);
    let settings = "--limit 2 --branching 2 --weight 0 --budget 4 --seed 1";
    let mut words = vec!["batch", "r.csv"];
    words.extend(settings.split(' '));
    folder.write("b.bin", folder.run(&words).bytes);
    folder
}

fn with_stand_in<'a>(folder: &Folder, command: &'a mut Command) -> &'a mut Command {
    command
        .env("STAND_IN_READ", folder.path().join("read"))
        .env("STAND_IN_PRINTS", folder.path().join("prints"))
}

fn list(folder: &Folder, more: &[&str]) -> Run {
    let mut words = vec!["list", "b.bin", "--listing", STAND_IN];
    words.extend(more);
    Run::of(with_stand_in(folder, &mut folder.command(&words)))
}

/// P1 listed with the stand-in printing something else.
fn listed(test: &str, prints: &str) -> Run {
    list(&folder(test, prints), &["--serials", "r.csv"])
}

/// Whether the stand-in was run.
fn ran(folder: &Folder) -> bool {
    folder.path().join("read").exists()
}

#[test]
fn p1_is_printed_with_its_serials() {
    let folder = folder("list_p1", P1);
    let run = list(&folder, &["--serials", "r.csv"]);
    assert_eq!(
        run.text(),
        "2 families, 4 meters, 1 splits\nfamily 0, 2 meters: C3 D4\nfamily 1, 2 meters: A1 \"B 2\"\n"
    );
    let given = fs::read(folder.path().join("b.bin")).unwrap();
    assert_eq!(fs::read(folder.path().join("read")).unwrap(), given);
}

#[test]
fn without_serials_rows_are_printed_by_number() {
    let run = list(&folder("list_rows", P1), &[]);
    assert!(run
        .text()
        .ends_with("\nfamily 0, 2 meters: 2 3\nfamily 1, 2 meters: 0 1\n"));
}

#[test]
fn a_refusal_ends_by_1_with_its_meaning() {
    listed("list_refused_7", "refused 7\n").fails(1, &["b.bin", "refused 7: ", "budget of 4"]);
    let shapeless = folder("list_refused_8", "refused 8\n");
    shapeless.write("b.bin", "no batch");
    list(&shapeless, &[]).fails(1, &["refused 8: ", "8 bytes", "36"]);
    // P1's meters all have sums; a batch with one that has none names it, by its serial where that is known.
    let found = ["refused 9: ", "each meter's squares add up to a number"];
    listed("list_refused_9", "refused 9\n").fails(1, &found);
    let large = folder("list_refused_9_named", "refused 9\n");
    large.write(
        "r.csv",
        "serial,error\nA1,0\n\"B 2\",2e19\nC3,10\nD4,-3e19\n",
    );
    large.write("b.bin", large.run(&["batch", "r.csv"]).bytes);
    let named = [
        "refused 9: ",
        "match \"B 2\", D4, whose",
        "--allow-unplaced of `group`",
    ];
    list(&large, &["--serials", "r.csv"]).fails(1, &named);
    list(&large, &[]).fails(1, &["refused 9: ", "match 1, 3, whose"]);
    let folder = folder("list_refused_6", "refused 6\n");
    let words = ["list", "b.bin", "--listing", STAND_IN];
    let mut command = folder.command(&words);
    let run = Run::of(with_stand_in(&folder, command.env("STAND_IN_STATUS", "1")));
    run.fails(1, &["refused 6: ", "branching"]);
}

#[test]
fn a_damaged_listing_ends_by_4() {
    for (test, prints, words) in [
        (
            "missing",
            "accepted groups 2 splits 1\n2: 2 3\n1: 0\n",
            "3 rows are listed",
        ),
        (
            "doubled",
            "accepted groups 2 splits 1\n2: 2 3\n3: 0 1 2\n",
            "5 rows are listed",
        ),
        (
            "traded",
            "accepted groups 2 splits 1\n2: 2 2\n2: 0 1\n",
            "row 2 is listed twice",
        ),
        (
            "beyond",
            "accepted groups 2 splits 1\n2: 2 3\n2: 0 4\n",
            "row 4",
        ),
        (
            "size",
            "accepted groups 2 splits 1\n3: 2 3\n2: 0 1\n",
            "line 2",
        ),
        (
            "count",
            "accepted groups 3 splits 1\n2: 2 3\n2: 0 1\n",
            "says 3",
        ),
        ("cut", "accepted groups 2 splits 1\n2: 2 3\n2: 0 1", "end"),
        ("none", "", "end"),
        ("other", "hello\n", "line 1"),
    ] {
        listed(&format!("list_damaged_{test}"), prints).fails(4, &[words]);
    }
}

#[test]
fn an_acceptance_counts_only_with_status_0() {
    let folder = folder("list_status", P1);
    let mut command = folder.command(&["list", "b.bin", "--listing", STAND_IN]);
    let run = Run::of(with_stand_in(&folder, command.env("STAND_IN_STATUS", "1")));
    run.fails(4, &["accepted"]);
}

#[test]
fn other_readings_than_the_batch_has_end_by_3() {
    let folder = folder("list_readings", P1);
    for (csv, words) in [
        ("serial,error\nA,0\nB,1\nC,10\n", "3 rows; the batch has 4"),
        (
            "serial,error\nA,0\nB,10\nC,1\nD,11\n",
            "line 3 column 2: 10 where the batch has 1",
        ),
        (
            "serial,low,high\nA,0,1\nB,1,1\nC,1,1\nD,1,1\n",
            "2 readings in a row",
        ),
        ("serial,error\nA,0\nB,1\nA,10\nD,11\n", "line 4 column 1: "),
        ("0\n1\n10\n11\n", "no serial numbers"),
    ] {
        folder.write("s.csv", csv);
        list(&folder, &["--serials", "s.csv"]).fails(3, &["s.csv: ", words]);
    }
    assert!(
        !ran(&folder),
        "the program ran before its rows were compared"
    );
}

#[test]
fn other_serials_than_the_batch_was_made_with_end_by_3() {
    let folder = folder("list_tied", P1);
    for csv in [
        "serial,error\nB 2,0\nA1,1\nC3,10\nD4,11\n",
        "serial,error\nA1,0\nB 2,1\nC3,10\nD5,11\n",
    ] {
        folder.write("s.csv", csv);
        list(&folder, &["--serials", "s.csv"]).fails(3, &["s.csv: ", "other serial numbers"]);
    }
    let mut changed = fs::read(folder.path().join("b.bin")).unwrap();
    let budget = changed.len() - 4;
    changed[budget] += 1;
    folder.write("b.bin", changed);
    list(&folder, &["--serials", "r.csv"]).fails(3, &["r.csv: ", "other settings"]);
    assert!(
        !ran(&folder),
        "the program ran before its serials were compared"
    );
}

#[test]
fn a_batch_without_serials_takes_those_of_its_readings() {
    let folder = folder("list_untied", P1);
    folder.write("r.csv", "0\n1\n10\n11\n");
    folder.write("b.bin", folder.run(&["batch", "r.csv"]).bytes);
    folder.write("s.csv", "7,0\n8,1\n9,10\n10,11\n");
    list(&folder, &["--serials", "s.csv"])
        .fails(3, &["s.csv: line 1 column 1: ", "--serial-column"]);
    let flagged = list(&folder, &["--serials", "s.csv", "--serial-column"]);
    assert!(flagged.text().contains("family 0, 2 meters: 9 10\n"));
}

#[test]
fn a_batch_comes_from_standard_input_too() {
    let folder = folder("list_input", P1);
    let words = ["list", "-", "--listing", STAND_IN, "--serials", "r.csv"];
    let mut command = folder.command(&words);
    let batch = fs::File::open(folder.path().join("b.bin")).unwrap();
    let run = Run::of(with_stand_in(&folder, command.stdin(batch)));
    assert!(run.text().contains("C3 D4"), "{run:?}");
}

#[test]
fn an_acceptance_of_a_file_of_no_shape_is_not_believed() {
    let folder = folder("list_shape", P1);
    folder.write("b.bin", "no batch");
    list(&folder, &[]).fails(4, &["shape"]);
}

#[test]
fn the_program_is_found_by_the_environment() {
    let folder = folder("list_environment", P1);
    let mut command = folder.command(&["list", "b.bin"]);
    let run = Run::of(with_stand_in(
        &folder,
        command.env("FAMILIES_LISTING", STAND_IN),
    ));
    assert!(run.text().starts_with("2 families"));
    // The option comes first.
    let words = ["list", "b.bin", "--listing", "none"];
    Run::of(folder.command(&words).env("FAMILIES_LISTING", STAND_IN)).fails(4, &["none"]);
}

/// Runs the program under another name, since beside the built one anything may stand.
fn run_from(folder: &Folder, program: &Path) -> Run {
    let mut command = Command::new(program);
    command
        .args(["list", "b.bin"])
        .current_dir(folder.path())
        .env_remove("FAMILIES_LISTING");
    Run::of(with_stand_in(folder, &mut command))
}

#[test]
fn the_program_is_found_beside_the_own_one_or_where_it_is_built() {
    let folder = folder("list_search", P1);
    let own = folder.path().join("families");
    // A link and not a copy: a file just written may still be open in another test's child.
    fs::hard_link(env!("CARGO_BIN_EXE_families"), &own).unwrap();
    run_from(&folder, &own).fails(4, &["--listing", "FAMILIES_LISTING"]);

    fs::create_dir_all(folder.path().join("target/bin")).unwrap();
    symlink(STAND_IN, folder.path().join("target/bin/listing")).unwrap();
    assert!(run_from(&folder, &own).text().starts_with("2 families"));

    // One that cannot be run stands beside, and is taken first.
    folder.write("listing", "");
    run_from(&folder, &own).fails(4, &["cannot be run"]);
    fs::remove_file(folder.path().join("listing")).unwrap();
    fs::remove_dir_all(folder.path().join("target")).unwrap();
    symlink(STAND_IN, folder.path().join("listing")).unwrap();
    assert!(run_from(&folder, &own).text().starts_with("2 families"));
}

#[test]
fn a_program_that_does_not_read_is_no_hang() {
    let folder = folder("list_deaf", P1);
    folder.write("b.bin", vec![0; 1 << 20]);
    folder
        .run(&["list", "b.bin", "--listing", "/bin/true"])
        .fails(4, &["/bin/true"]);
    folder.run(&["list", "none.bin"]).fails(4, &["none.bin"]);
}
