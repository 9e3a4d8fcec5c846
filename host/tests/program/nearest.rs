//! `families label` and `families closure`, over the proved library.

use crate::common::{Folder, Run};

fn run(test: &str, rows: &str, centroids: &str, words: &[&str]) -> Run {
    let folder = Folder::new(test);
    folder.write("rows.csv", rows);
    folder.write("c.csv", centroids);
    let mut all = vec![words[0], "rows.csv", "--centroids", "c.csv"];
    all.extend(&words[1..]);
    folder.run(&all)
}

#[test]
fn p5_to_p7_are_labelled() {
    let p5 = run("label_p5", "1\n", "1\n1\n", &["label"]);
    assert_eq!(p5.text(), "0: 0 0\n");
    let p6 = run("label_p6", "2\n", "nan\n2\n", &["label", "--not-finite"]);
    assert_eq!(p6.text(), "0: 1 0\n");
    let p7 = run("label_p7", "NaN\n", "1\n2\n", &["label", "--not-finite"]);
    assert_eq!(p7.text(), "0: unplaced\n");
}

#[test]
fn each_row_has_its_distance_or_is_unplaced() {
    let rows = "serial,low\nA,0.1\nB,nan\nC,-2\nD,inf\nE,2e19\n";
    let centroids = "name,low\nfar,-1.5\nodd,nan\n";
    let words = ["label", "--not-finite"];
    let named = run("label_distances", rows, centroids, &words);
    assert_eq!(
        named.text(),
        "A: 0 far 2.56\nB: unplaced\nC: 0 far 0.25\nD: unplaced\nE: unplaced\n"
    );
    // The shortest decimal that gives the float back, however small.
    let tiny = run("label_tiny", "1e-20\n", "0\n", &["label"]);
    let distance = tiny.text().trim_end().strip_prefix("0: 0 ").unwrap();
    assert_eq!(distance.parse(), Ok(1e-20f32 * 1e-20f32));
    let none = run("label_no_rows", "", "1\n", &["label"]);
    assert_eq!(none.text(), "");
}

#[test]
fn p8_and_p9_are_listed() {
    let closure = |test: &str, replicas: &str, epsilon: &str| {
        let words = ["closure", "--replicas", replicas, "--epsilon", epsilon];
        run(test, "0\n", "2\n1\n-1\n", &words).text().to_string()
    };
    assert_eq!(closure("closure_p8", "3", "0"), "0: 1 2\n");
    assert_eq!(closure("closure_p8_wide", "3", "1"), "0: 1 2 0\n");
    assert_eq!(closure("closure_p9", "0", "0"), "0:\n");
}

#[test]
fn every_row_is_answered_under_its_serial() {
    let rows = "serial,low,high\nA1,0,0\n\"B 2\",9,9\n";
    let centroids = "10.0,10\n0,1\n";
    let labels = run("label_serials", rows, centroids, &["label", "--dim", "2"]);
    assert_eq!(labels.text(), "A1: 1 1\n\"B 2\": 0 2\n");
    let words = ["closure", "--replicas", "1", "--epsilon", "0"];
    let offered = run("closure_serials", rows, centroids, &words);
    assert_eq!(offered.text(), "A1: 1\n\"B 2\": 0\n");
}

#[test]
fn the_sample_falls_into_its_four_kinds() {
    let folder = Folder::new("label_sample");
    let samples = concat!(env!("CARGO_MANIFEST_DIR"), "/../samples/");
    let rows = format!("{samples}readings.csv");
    let centroids = format!("{samples}centroids.csv");
    let run = folder.run(&["label", &rows, "--centroids", &centroids]);
    let of_kind = |kind: &str| {
        run.text()
            .lines()
            .filter(|line| line.contains(kind))
            .count()
    };
    let kinds = [
        ": 0 sound 0.",
        ": 1 \"low gain\" 0.",
        ": 2 \"phase shift\" 0.",
        ": 3 \"weak start\" 0.",
    ];
    assert_eq!(kinds.map(of_kind), [14, 11, 9, 6]);
}

#[test]
fn boundary_meters_are_offered_centroids_by_name() {
    let folder = Folder::new("closure_sample");
    let samples = concat!(env!("CARGO_MANIFEST_DIR"), "/../samples/");
    let rows = format!("{samples}boundary.csv");
    let centroids = format!("{samples}centroids.csv");
    let run = folder.run(&[
        "closure",
        &rows,
        "--centroids",
        &centroids,
        "--replicas",
        "2",
        "--epsilon",
        "0.5",
    ]);
    assert_eq!(
        run.text(),
        "MF-2410201: 0 sound 2 \"phase shift\"\nMF-2410202: 1 \"low gain\"\nMF-2410203: 3 \"weak start\" 1 \"low gain\"\n"
    );
}

#[test]
fn names_of_centroids_are_told_from_their_readings() {
    let numbered = "kind,low,high\n7,0,1\n8,9,9\n";
    let label = |test: &str, words: &[&str]| run(test, "A,0,0\n", numbered, words);
    let asks = [
        "c.csv: line 2 column 1: ",
        "--centroid-names",
        "--no-centroid-names",
    ];
    label("label_unclear", &["label"]).fails(3, &asks);
    let named = label("label_named", &["label", "--centroid-names"]);
    assert_eq!(named.text(), "A: 0 7 1\n");
    label("label_unnamed", &["label", "--no-centroid-names"]).fails(1, &["refused 2: "]);
    let both = ["label", "--centroid-names", "--no-centroid-names"];
    label("label_both", &both).fails(2, &["--no-centroid-names"]);
}

#[test]
fn rows_come_from_standard_input_too() {
    let folder = Folder::new("label_input");
    folder.write("c.csv", "1\n2\n");
    folder.write("rows.csv", "1.75\n");
    let mut command = folder.command(&["label", "-", "--centroids", "c.csv"]);
    let rows = std::fs::File::open(folder.path().join("rows.csv")).unwrap();
    assert_eq!(Run::of(command.stdin(rows)).text(), "0: 1 0.0625\n");
}

#[test]
fn rows_that_cancel_against_their_centroids_are_warned_of() {
    let label = |test: &str, words: &[&str]| run(test, "1000.2\n", "1000\n1000.5\n", words);
    let warned = label("label_warned", &["label"]);
    assert!(warned.errors.contains("warning: "), "{warned:?}");
    label("label_failed", &["label", "--fail-on-warning"]).fails(3, &["subtract"]);
}

#[test]
fn refusals_end_by_1_and_print_nothing() {
    let label = |test: &str, centroids: &str, words: &[&str]| run(test, "1\n", centroids, words);
    let wide = ["label", "--dim", "65"];
    label("label_range", "1\n", &wide).fails(1, &["refused 1: --dim is 65; it goes from 1 to 64"]);
    label("label_none", "", &["label"]).fails(1, &["refused 1: ", "centroids is 0", "1 to 64"]);
    label("label_many", &"1\n".repeat(65), &["label"]).fails(1, &["refused 1: ", "65"]);
    let lengths = ["refused 2: ", "row has 1 readings", "each centroid 2"];
    label("label_length", "1.5,2\n", &["label"]).fails(1, &lengths);
    label("label_dim", "1\n", &["label", "--dim", "2"]).fails(1, &["refused 2: ", "2 are asked"]);

    let words = [
        "closure",
        "--replicas",
        "0",
        "--epsilon",
        "0",
        "--not-finite",
    ];
    let rows = "serial,low\nA1,1\nA2,nan\n";
    let refused = run("closure_nan", rows, "1\n2\n", &words);
    refused.fails(1, &["A2", "refused 5: ", "centroid 0", "reading 1 is NaN"]);
    run("closure_length", "1\n", "1.5,2\n", &words).fails(1, &["refused 2: "]);
}

#[test]
fn closure_takes_no_centroids() {
    let words = ["closure", "--replicas", "1", "--epsilon", "0"];
    assert_eq!(run("closure_none", "1\n2\n", "", &words).text(), "0:\n1:\n");
}

#[test]
fn not_finite_readings_are_taken_only_by_choice() {
    run("label_finite", "nan\n", "1\n", &["label"]).fails(3, &["rows.csv: line 1 column 1: "]);
    let words = ["label", "--not-finite"];
    run("label_overflow", "1\n", "1\n1e39\n", &words).fails(3, &["c.csv: line 2 column 1: "]);
}

#[test]
fn bad_usage_ends_by_2() {
    let folder = Folder::new("nearest_usage");
    folder.write("rows.csv", "1\n");
    folder
        .run(&["label", "rows.csv"])
        .fails(2, &["--centroids"]);
    let words = ["closure", "--epsilon", "0", "--replicas", "65536"];
    run("closure_usage", "1\n", "1\n", &words).fails(2, &["--replicas"]);
    run("closure_missing", "1\n", "1\n", &words[..3]).fails(2, &["--replicas"]);
    let words = ["label", "rows.csv", "--centroids", "none.csv"];
    folder.run(&words).fails(4, &["none.csv"]);
}
