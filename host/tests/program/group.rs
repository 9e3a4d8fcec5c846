//! `families group`: from a CSV to families in one step, held against the listing program on the same settings.

use std::fs::{self, File};
use std::process::Command;

use crate::common::{Folder, Run};

const SAMPLE: &str = concat!(env!("CARGO_MANIFEST_DIR"), "/../samples/readings.csv");
const P1: &str = "serial,error\nA1,0\nB 2,1\nC3,10\nD4,11\n";

fn group(folder: &Folder, csv: &str, words: &str) -> Run {
    folder.write("r.csv", csv);
    let mut all = vec!["group", "r.csv"];
    all.extend(words.split_whitespace());
    folder.run(&all)
}

/// Families of at most two, by seed 1.
fn p1(folder: &Folder, words: &str) -> Run {
    group(
        folder,
        P1,
        &format!("--limit 2 --branching 2 --weight 0 --seed 1 {words}"),
    )
}

/// The values of a table, in rows of their own, with numbers of their own.
fn numbered(rows: usize, value: impl Fn(usize) -> f32) -> String {
    let lines = (0..rows).map(|row| format!("M{row},{}\n", value(row)));
    lines.collect()
}

#[test]
fn families_have_serials_sizes_means_trays_and_places() {
    let run = p1(&Folder::new("group_text"), "--tray 3");
    assert_eq!(
        run.text(),
        "2 families, 4 meters, 1 splits\n\
         unplaced rows, summed over splits: 0\n\
         family 0, 2 meters\n  mean 10.5\n  C3@1/3 D4@2/1\n\
         family 1, 2 meters\n  mean 0.5\n  A1@1/1 \"B 2\"@1/2\n"
    );
    let told = "families: r.csv: a header, serial numbers from A1, 4 rows of 1 readings\n";
    assert_eq!(run.errors, told);
}

#[test]
fn csv_has_a_line_for_each_meter_in_row_order() {
    let run = p1(&Folder::new("group_csv"), "--format csv --tray=3");
    assert_eq!(
        run.text(),
        "serial,row,tray,place,family\nA1,0,1,1,1\nB 2,1,1,2,1\nC3,2,1,3,0\nD4,3,2,1,0\n"
    );
}

#[test]
fn json_has_everything() {
    let folder = Folder::new("group_json");
    let run = p1(&folder, "--format=json");
    let whole: serde_json::Value = serde_json::from_str(run.text()).unwrap();
    assert_eq!(whole["source"], "r.csv");
    assert_eq!(whole["program"]["version"], env!("CARGO_PKG_VERSION"));
    assert!(whole["program"]["engine"].is_string());
    assert_eq!(whole["settings"]["seed"], "1");
    assert_eq!(whole["settings"]["budget"], 8_192);
    assert_eq!(whole["families"][0]["mean"], serde_json::json!([10.5]));
    assert_eq!(whole["families"][0]["meters"][0]["serial"], "C3");
    assert_eq!(whole["unplaced_rows_summed_over_splits"], 0);
    assert_eq!(whole["settings"]["allow_unplaced"], false);
    assert_eq!(whole["warnings"], serde_json::json!([]));
}

/// Four meters whose squares overflow, parted by balancing alone: four rows, then three of them, then two.
#[test]
fn unplaced_rows_are_summed_over_splits() {
    let folder = Folder::new("group_unplaced");
    let csv = numbered(4, |row| 2e19 + row as f32 * 1e18);
    let words = "--limit 1 --branching 2 --weight 0.5 --seed 1 --allow-unplaced";
    let run = group(&folder, &csv, words);
    let begins = "4 families, 4 meters, 3 splits\nunplaced rows, summed over splits: 9\nfamily 0, ";
    assert!(run.text().starts_with(begins), "{run:?}");
    let run = group(&folder, &csv, &format!("{words} --format json"));
    let whole: serde_json::Value = serde_json::from_str(run.text()).unwrap();
    assert_eq!(whole["unplaced_rows_summed_over_splits"], 9);
    assert_eq!(whole["settings"]["allow_unplaced"], true);
    let run = group(&folder, &csv, &format!("{words} --format csv"));
    assert_eq!(run.text().lines().count(), 1 + 4);
    let page: Vec<&str> = ["page", "r.csv"]
        .into_iter()
        .chain(words.split(' '))
        .collect();
    let page = folder.run(&page);
    let fact = "<dt>unplaced rows, summed over splits</dt><dd>9</dd>";
    assert!(page.text().contains(fact));
}

/// The same four meters and one between them, without the flag: no format prints anything, and the message names the four.
#[test]
fn unplaced_rows_are_refused_unless_they_are_allowed() {
    let folder = Folder::new("group_refused_unplaced");
    let csv = format!(
        "serial,error\n{}calm,0.5\n",
        numbered(4, |row| 2e19 + row as f32 * 1e18)
    );
    let words = "--limit 1 --branching 2 --weight 0.5 --seed 1";
    let told = [
        "r.csv: refused 9: some meter matched no part of a split",
        "the engine does not tell which meter, so this program summed",
        "no centroid can match M0, M1, M2, M3, whose",
        "--allow-unplaced",
        "(seed 1)",
    ];
    for format in ["text", "csv", "json"] {
        let run = group(&folder, &csv, &format!("{words} --format {format}"));
        run.fails(1, &told);
        assert!(!run.errors.contains("calm"), "{run:?}");
    }
    let files = "--means m.csv --output f.txt";
    group(&folder, &csv, &format!("{words} {files}")).fails(1, &told);
    let page: Vec<&str> = ["page", "r.csv"]
        .into_iter()
        .chain(words.split(' '))
        .collect();
    folder.run(&page).fails(1, &told);
    let names = fs::read_dir(folder.path()).unwrap().count();
    assert_eq!(names, 1, "only r.csv is there");
}

/// What is refused for a split is no matter where there is none, and 6 and 7 come first.
#[test]
fn unplaced_rows_are_refused_only_where_they_are_split() {
    let folder = Folder::new("group_refused_order");
    let csv = numbered(4, |row| 2e19 + row as f32 * 1e18);
    let begins = "1 families, 4 meters, 0 splits\nunplaced rows, summed over splits: 0\n";
    for words in ["--limit 4 --seed 1", "--limit 4 --seed 1 --allow-unplaced"] {
        assert!(group(&folder, &csv, words).text().starts_with(begins));
    }
    group(&folder, &csv, "--limit 3 --branching 5").fails(1, &["refused 6: "]);
    group(&folder, &csv, "--limit 3 --branching 2 --budget 0").fails(1, &["refused 7: "]);
    group(&folder, &csv, "--limit 3 --branching 2").fails(1, &["refused 9: "]);
}

/// Each square is finite and none can be added to another: the message finds nobody to name, and says so.
#[test]
fn a_refusal_by_9_without_a_name() {
    let folder = Folder::new("group_refused_unnamed");
    let csv = numbered(4, |_| 1.5e19);
    let words = "--limit 1 --branching 2 --weight 0.5 --seed 1";
    let told = [
        "refused 9: ",
        "each meter's squares add up to a number",
        "--allow-unplaced",
    ];
    group(&folder, &csv, words).fails(1, &told);
    let allowed = group(&folder, &csv, &format!("{words} --allow-unplaced"));
    let second = allowed.text().lines().nth(1);
    assert_eq!(second, Some("unplaced rows, summed over splits: 9"));
}

/// Without unplaced rows the flag changes nothing.
#[test]
fn the_flag_alone_changes_nothing() {
    let folder = Folder::new("group_flag");
    for format in ["text", "csv"] {
        let plain = p1(&folder, &format!("--format {format}"));
        let allowed = p1(&folder, &format!("--format {format} --allow-unplaced"));
        assert_eq!(plain.text(), allowed.text());
    }
}

/// Two shapes at four scales: by distance some family has both, by shape each has its own, and every format but CSV says so.
#[test]
fn gain_only_meters_are_grouped_by_shape() {
    let folder = Folder::new("group_spherical");
    let mut csv = String::from("serial,low,high\n");
    for gain in [0.5, 1.0, 2.0, 4.0] {
        csv += &format!("L{gain},{},{}\n", 0.8 * gain, 0.6 * gain);
        csv += &format!("H{gain},{},{}\n", 0.6 * gain, 0.8 * gain);
    }
    let words = "--limit 4 --branching 2 --weight 0 --seed 1";
    let shapes = |text: &str| -> Vec<bool> {
        let one = |meters: &Vec<String>| meters.iter().all(|name| name[..1] == meters[0][..1]);
        families(text).iter().map(one).collect()
    };
    let plain = group(&folder, &csv, words);
    assert!(shapes(plain.text()).contains(&false), "{plain:?}");
    assert!(!plain.text().contains("spherical"));
    let run = group(&folder, &csv, &format!("{words} --spherical"));
    assert_eq!(shapes(run.text()), [true, true], "{run:?}");
    let third = run.text().lines().nth(2);
    assert_eq!(third, Some("spherical: families by shape"));
    // Means are those of the meters: 1.875 is the mean of the gains.
    assert!(run.text().contains("  mean 1.5 1.125\n"), "{run:?}");

    for (more, on) in [("", false), (" --spherical", true)] {
        let run = group(&folder, &csv, &format!("{words} --format json{more}"));
        let whole: serde_json::Value = serde_json::from_str(run.text()).unwrap();
        assert_eq!(whole["settings"]["spherical"], on);
        let page = format!("page r.csv {words}{more}");
        let page = folder.run(&page.split(' ').collect::<Vec<_>>());
        let fact = "<dt>spherical</dt><dd>families by shape</dd>";
        assert_eq!(page.text().contains(fact), on);
    }
    folder
        .run(&["batch", "r.csv", "--spherical"])
        .fails(2, &["--spherical"]);
}

#[test]
fn means_are_a_file_of_centroids() {
    let folder = Folder::new("group_means");
    p1(&folder, "--means m.csv").text();
    let means = fs::read_to_string(folder.path().join("m.csv")).unwrap();
    assert_eq!(means, "family,error\nfamily 0,10.5\nfamily 1,0.5\n");
    let labels = folder.run(&["label", "r.csv", "--centroids", "m.csv"]);
    assert!(
        labels.text().ends_with("D4: 0 \"family 0\" 0.25\n"),
        "{labels:?}"
    );
}

#[test]
fn an_output_file_is_written_whole_or_not_at_all() {
    let folder = Folder::new("group_output");
    let there = |name: &str| fs::read_to_string(folder.path().join(name)).ok();
    let run = p1(&folder, "--output f.txt");
    assert_eq!(run.text(), "");
    let first = there("f.txt").unwrap();
    assert_eq!(first, p1(&folder, "").text());

    p1(&folder, "--output f.txt --budget 0").fails(1, &["refused 7"]);
    assert_eq!(there("f.txt").as_ref(), Some(&first));
    p1(&folder, "--output f.txt --means none/m.csv --format csv").fails(4, &["none/m.csv"]);
    assert_eq!(there("f.txt"), Some(first));
    p1(&folder, "--output .").fails(4, &[".: "]);
    let names = fs::read_dir(folder.path()).unwrap().count();
    assert_eq!(names, 2, "only r.csv and f.txt are left");
}

#[test]
fn readings_are_not_written_over() {
    let folder = Folder::new("group_over");
    for words in ["--output r.csv", "--means ./r.csv"] {
        p1(&folder, words).fails(2, &["r.csv"]);
        assert_eq!(fs::read_to_string(folder.path().join("r.csv")).unwrap(), P1);
    }
    p1(&folder, "--output f --means f").fails(2, &["same file"]);
}

#[test]
fn readings_come_from_standard_input_too() {
    let folder = Folder::new("group_input");
    let named = p1(&folder, "");
    let words = "group - --limit 2 --branching 2 --weight 0 --seed 1";
    let words: Vec<&str> = words.split(' ').collect();
    let input = File::open(folder.path().join("r.csv")).unwrap();
    let run = Run::of(folder.command(&words).stdin(input));
    assert_eq!(run.text(), named.text());
    assert!(run.errors.contains("standard input: a header"), "{run:?}");
}

#[test]
fn a_seed_that_was_chosen_is_printed_and_repeats_the_run() {
    let folder = Folder::new("group_seed");
    let csv = numbered(300, |row| (row as f32).sin());
    let run = group(&folder, &csv, "");
    let (_, after) = run.errors.split_once("--seed ").unwrap();
    let seed = after.split(' ').next().unwrap();
    let again = group(&folder, &csv, &format!("--seed {seed}"));
    assert_eq!(run.text(), again.text());
    assert!(!again.errors.contains("--seed"), "{again:?}");
}

#[test]
fn the_most_meters_and_readings_are_grouped_each_once() {
    let folder = Folder::new("group_most");
    let cells = |row: usize| (0..64).map(move |at| format!(",{}", (row * at % 97) as f32 / 97.0));
    let line = |row: usize| format!("M{row}{}\n", cells(row).collect::<String>());
    let csv: String = (0..4_096).map(line).collect();
    let run = group(&folder, &csv, "--seed 3 --format csv");
    let mut sizes = vec![0; 4_096];
    for (row, line) in run.text().lines().skip(1).enumerate() {
        let cells: Vec<&str> = line.split(',').collect();
        let (tray, place) = (row / 40 + 1, row % 40 + 1);
        assert_eq!(line, format!("M{row},{row},{tray},{place},{}", cells[4]));
        sizes[cells[4].parse::<usize>().unwrap()] += 1;
    }
    assert_eq!(sizes.iter().sum::<usize>(), 4_096);
    assert!(sizes.iter().all(|size| *size <= 40));
}

#[test]
fn no_meters_are_no_families() {
    let folder = Folder::new("group_none");
    let run = group(&folder, "serial,low\n", "");
    let empty = "0 families, 0 meters, 0 splits\nunplaced rows, summed over splits: 0\n";
    assert_eq!(run.text(), empty);
    group(&folder, "", "").fails(3, &["r.csv", "empty"]);
}

#[test]
fn refusals_say_what_to_change() {
    let folder = Folder::new("group_refused");
    let refused = |csv: &str, words: &str, told: &[&str]| group(&folder, csv, words).fails(1, told);
    let three = "0.5\n1.5\n2.5\n";
    let told = [
        "r.csv: refused 6: ",
        "group of 3 rows",
        "limit of 2",
        "branching of 3",
    ];
    refused(three, "--limit 2 --branching 4", &told);
    let told = [
        "refused 7: ",
        "budget of 0",
        "at least 1 splits",
        "(seed 5)",
    ];
    refused(three, "--limit 2 --branching 2 --budget 0 --seed 5", &told);
    refused(
        three,
        "--limit 0 --branching 2",
        &["refused 6: ", "limit of 1 or more"],
    );
    refused(
        three,
        "--limit 2 --branching 1",
        &["refused 7: ", "branching of 2 or more"],
    );
    let equal = "serial,low\nA,3\nB,3\nC,3\nD,3\nE,3\n";
    let told = [
        "refused 7: ",
        "5 meters",
        "A being the first",
        "weight above 0",
    ];
    refused(
        equal,
        "--limit 4 --branching 2 --weight 0 --budget 3",
        &told,
    );
    let run = group(
        &folder,
        equal,
        "--limit 4 --branching 2 --weight 0.5 --budget 3",
    );
    assert!(run.text().starts_with("2 families, 5 meters, 1 splits\n"));
}

#[test]
fn bad_usage_ends_by_2_and_bad_files_by_3_and_4() {
    let folder = Folder::new("group_bad");
    for words in [
        "--limit 4097",
        "--branching 0",
        "--tray 0",
        "--format xml",
        "--weight x",
    ] {
        group(&folder, P1, words).fails(2, &[words.split(' ').nth(1).unwrap()]);
    }
    group(&folder, "low\n0.5\nx\n", "").fails(3, &["r.csv: line 3 column 1: "]);
    folder.run(&["group", "none.csv"]).fails(4, &["none.csv"]);
    group(&folder, P1, "--weight -0.5").text();
}

/// Whether some family of the first CSV has meters of two families of the second.
fn mixes(first: &str, second: &str) -> bool {
    let families = |text: &str| -> Vec<String> {
        let lines = text.lines().skip(1);
        lines
            .map(|line| line.rsplit(',').next().unwrap().to_string())
            .collect()
    };
    let pairs: Vec<_> = families(first).into_iter().zip(families(second)).collect();
    pairs
        .iter()
        .any(|(one, other)| pairs.iter().any(|(o, t)| o == one && t != other))
}

/// The sample moved away from zero: what the warning is about, and that it is one.
#[test]
fn the_sample_plus_a_thousand_is_warned_of_and_mixes_families() {
    let folder = Folder::new("group_shifted");
    let sample = fs::read_to_string(SAMPLE).unwrap();
    let shifted: Vec<String> = sample
        .lines()
        .enumerate()
        .map(|(line, text)| {
            let cells = text
                .split(',')
                .enumerate()
                .map(|(at, cell)| match (line, at) {
                    (0, _) | (_, 0) => cell.to_string(),
                    _ => (cell.parse::<f32>().unwrap() + 1_000.0).to_string(),
                });
            cells.collect::<Vec<_>>().join(",") + "\n"
        })
        .collect();
    let words = "--limit 14 --weight 0 --seed 1 --format csv";
    let plain = group(&folder, &sample, words);
    let run = group(&folder, &shifted.concat(), words);
    assert!(
        run.errors.contains("warning: r.csv: ") && run.errors.contains("subtract"),
        "{run:?}"
    );
    assert!(!plain.errors.contains("warning"), "{plain:?}");
    assert!(mixes(run.text(), plain.text()), "the shift mixed nothing");
    assert!(!mixes(plain.text(), plain.text()));
    let words = format!("{words} --fail-on-warning");
    assert_eq!(group(&folder, &sample, &words).text(), plain.text());
    group(&folder, &shifted.concat(), &words).fails(3, &["far from zero"]);
}

/// The listing program as this machine runs it.
fn listing(folder: &Folder) -> String {
    let root = concat!(env!("CARGO_MANIFEST_DIR"), "/..");
    let built = format!("{root}/target/bin/listing");
    let words = Command::new(format!("{root}/oracle/bridge/program"))
        .arg(&built)
        .output()
        .unwrap();
    let words = String::from_utf8(words.stdout).unwrap();
    folder.write("listing", format!("#!/bin/sh\nexec {words}\n"));
    let path = folder.path().join("listing");
    let mut mode = fs::metadata(&path).unwrap().permissions();
    std::os::unix::fs::PermissionsExt::set_mode(&mut mode, 0o755);
    fs::set_permissions(&path, mode).unwrap();
    "listing".to_string()
}

/// The families that two commands print, each as its meters in their order.
fn families(text: &str) -> Vec<Vec<String>> {
    let mut families: Vec<Vec<String>> = Vec::new();
    for line in text.lines().skip_while(|line| !line.starts_with("family")) {
        let words = line.split(": ").nth(1).unwrap_or(line);
        let meters = words
            .split_whitespace()
            .map(|meter| meter.split('@').next().unwrap());
        if line.starts_with("family") && !line.contains(": ") {
            families.push(Vec::new());
        } else if line.starts_with("family") {
            families.push(meters.map(String::from).collect());
        } else if !line.starts_with("  mean") {
            families
                .last_mut()
                .unwrap()
                .extend(meters.map(String::from));
        }
    }
    families
}

#[test]
fn group_and_the_listing_program_give_the_same_families() {
    let folder = Folder::new("group_and_list");
    let listing = listing(&folder);
    let shapeless = numbered(900, |row| ((row * row) as f32 * 0.37).sin());
    let sample = fs::read_to_string(SAMPLE).unwrap();
    for (csv, settings) in [
        (&sample, "--limit 14 --weight 0 --seed 1"),
        (
            &sample,
            "--limit 3 --branching 2 --weight 0.5 --seed 7 --draws 3",
        ),
        (&shapeless, "--seed 11"),
        (&shapeless, "--limit 7 --branching 5 --weight 0.1 --seed 12"),
    ] {
        let grouped = group(&folder, csv, settings);
        let mut words = vec!["batch", "r.csv"];
        words.extend(settings.split(' '));
        folder.write("b.bin", folder.run(&words).bytes);
        let list = ["list", "b.bin", "--serials", "r.csv", "--listing", &listing];
        let listed = folder.run(&list);
        assert_eq!(
            families(grouped.text()),
            families(listed.text()),
            "{settings}"
        );
        assert_eq!(grouped.text().lines().next(), listed.text().lines().next());
    }
}

#[test]
fn group_and_the_listing_program_refuse_alike() {
    let folder = Folder::new("group_and_list_refused");
    let listing = listing(&folder);
    let csv = "serial,low\nA,0.5\nB,1.5\nC,2.5\n";
    let large = "serial,low\nA,0.5\nB,2e19\nC,2.5\n";
    for (csv, settings, number) in [
        (
            csv,
            "--limit 2 --branching 4 --seed 1",
            "refused 6: a group of 3 rows",
        ),
        (
            csv,
            "--limit 2 --branching 2 --budget 0 --seed 1",
            "refused 7: a group above",
        ),
        (
            large,
            "--limit 2 --branching 2 --budget 0 --seed 1",
            "refused 7: a group above",
        ),
        (
            large,
            "--limit 2 --branching 2 --seed 1",
            "refused 9: some meter matched",
        ),
    ] {
        group(&folder, csv, settings).fails(1, &[number]);
        let mut words = vec!["batch", "r.csv"];
        words.extend(settings.split(' '));
        folder.write("b.bin", folder.run(&words).bytes);
        folder
            .run(&["list", "b.bin", "--listing", &listing])
            .fails(1, &[number]);
    }
    // The last batch, by its serials.
    let words = ["list", "b.bin", "--listing", &listing, "--serials", "r.csv"];
    folder
        .run(&words)
        .fails(1, &["no centroid can match B, whose"]);
}

/// Under a terminal that `script` makes, with readings that come late: a person sees that it works, and a file of the output does not.
#[test]
fn a_spinner_shows_on_a_terminal_where_the_work_takes_long() {
    let folder = Folder::new("group_spinner");
    folder.write("r.csv", P1);
    let program = env!("CARGO_BIN_EXE_families");
    let group = format!("'{program}' group - --limit 2 --branching 2 --weight 0 --seed 1 > out");
    let seen = |wait: &str| {
        let line = format!("(sleep {wait}; cat r.csv) | {group}");
        let run = Command::new("script")
            .args(["-qec", &line, "/dev/null"])
            .env("TERM", "xterm")
            .current_dir(folder.path())
            .output()
            .unwrap();
        let out = fs::read_to_string(folder.path().join("out")).unwrap();
        assert!(out.starts_with("2 families"), "{out}");
        String::from_utf8_lossy(&run.stdout).into_owned()
    };
    assert!(seen("1.5").contains("working"));
    assert!(!seen("0").contains("working"));
}
