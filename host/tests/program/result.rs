//! `families group --result` and `families read`: a file that carries families, and gives them back or is refused.

use std::fs::{self, File};

use engine::exported::{write_result, ResultNumbers};

use crate::common::{Folder, Run};

const SAMPLE: &str = concat!(env!("CARGO_MANIFEST_DIR"), "/../samples/readings.csv");
const P1: &str = "serial,error\nA1,0\nB 2,1\nC3,10\nD4,11\n";
const SETTINGS: &str = "--limit 2 --branching 2 --weight 0 --seed 1";

fn run(folder: &Folder, line: &str) -> Run {
    folder.run(&line.split_whitespace().collect::<Vec<_>>())
}

/// A folder with readings, their result file and what `group` printed as it was written.
fn grouped(test: &str, csv: &str, settings: &str) -> (Folder, Run) {
    let folder = Folder::new(test);
    folder.write("r.csv", csv);
    let run = run(
        &folder,
        &format!("group r.csv {settings} --result r.families"),
    );
    run.text();
    (folder, run)
}

fn p1(test: &str) -> Folder {
    grouped(test, P1, SETTINGS).0
}

fn file(folder: &Folder) -> Vec<u8> {
    fs::read(folder.path().join("r.families")).unwrap()
}

/// The lines of the families, without what stands above them.
fn from_first_family(text: &str) -> &str {
    &text[text.find("family 0").unwrap_or(text.len())..]
}

/// A file of families by the engine's own writer.
fn made(rows: usize, dim: usize, ends: &[u16], means: &[u32]) -> Vec<u8> {
    let groups = ends.len();
    let order: Vec<u16> = (0..rows as u16).rev().collect();
    let mut all_ends = ends.to_vec();
    all_ends.resize(rows, 65_535);
    let mut all_means = means.to_vec();
    all_means.resize(rows * dim, 0);
    let mut file = vec![0; 2 * rows + 2 * groups + 4 * groups * dim + 24];
    let [rows, dim, groups] = [rows, dim, groups].map(|number| number as u32);
    let numbers = ResultNumbers { rows, dim, groups };
    let number = write_result(numbers, &order, &all_ends, &all_means, &mut file);
    assert_eq!(number, 0);
    file
}

#[test]
fn p1_has_these_bytes() {
    let folder = p1("result_bytes");
    let mut expected = Vec::new();
    for half in [2u16, 3, 0, 1, 2, 4] {
        expected.extend(half.to_le_bytes());
    }
    for mean in [10.5f32, 0.5] {
        expected.extend(mean.to_le_bytes());
    }
    for word in [0u32, 8, 12, 4, 1, 2] {
        expected.extend(word.to_le_bytes());
    }
    assert_eq!(file(&folder), expected);
}

#[test]
fn what_group_wrote_is_what_it_printed() {
    let sample = fs::read_to_string(SAMPLE).unwrap();
    let shapeless: String = (0..300)
        .map(|row| {
            let x = (row * row) as f32 * 0.37;
            format!("M{row},{},{}\n", x.sin(), x.cos())
        })
        .collect();
    for (test, csv, settings) in [
        ("sample", &sample, "--limit 14 --weight 0 --seed 1"),
        ("few", &sample, "--limit 3 --branching 2 --seed 7 --tray 7"),
        ("shapeless", &shapeless, "--limit 7 --seed 11 --tray 25"),
        ("spherical", &shapeless, "--limit 9 --seed 2 --spherical"),
    ] {
        let (folder, printed) = grouped(&format!("result_same_{test}"), csv, settings);
        let tray = match settings.split_once("--tray ") {
            Some((_, tray)) => format!("--tray {tray}"),
            None => String::new(),
        };
        let read = format!("read r.families --serials r.csv --fail-on-warning {tray}");
        let text = run(&folder, &read);
        let (printed, text) = (printed.text(), text.text());
        assert_eq!(from_first_family(text), from_first_family(printed));
        let first = text.lines().next().unwrap();
        assert!(printed.starts_with(&format!("{first}, ")), "{first}");

        let grouped = run(
            &folder,
            &format!("group r.csv {settings} --format csv --means m.csv"),
        );
        let csv = run(&folder, &format!("{read} --format csv --means n.csv"));
        assert_eq!(csv.text(), grouped.text());
        let means = |name: &str| fs::read(folder.path().join(name)).unwrap();
        assert_eq!(means("m.csv"), means("n.csv"));
    }
}

#[test]
fn text_has_the_families_and_nothing_of_the_grouping() {
    let folder = p1("result_text");
    let read = run(&folder, "read r.families --serials r.csv --tray 3");
    assert_eq!(
        read.text(),
        "2 families, 4 meters\n\
         family 0, 2 meters\n  mean 10.5\n  C3@1/3 D4@2/1\n\
         family 1, 2 meters\n  mean 0.5\n  A1@1/1 \"B 2\"@1/2\n"
    );
    let told = "families: r.csv: a header, serial numbers from A1, 4 rows of 1 readings\n";
    assert_eq!(read.errors, told);
}

#[test]
fn without_serials_meters_are_shown_by_row() {
    let folder = p1("result_rows");
    let text = run(&folder, "read r.families --tray 3");
    assert_eq!(
        text.text(),
        "2 families, 4 meters\n\
         family 0, 2 meters\n  mean 10.5\n  2@1/3 3@2/1\n\
         family 1, 2 meters\n  mean 0.5\n  0@1/1 1@1/2\n"
    );
    assert_eq!(text.errors, "");
    let csv = run(&folder, "read r.families --format csv --means m.csv");
    assert_eq!(
        csv.text(),
        "serial,row,tray,place,family\n,0,1,1,1\n,1,1,2,1\n,2,1,3,0\n,3,1,4,0\n"
    );
    let means = fs::read_to_string(folder.path().join("m.csv")).unwrap();
    assert_eq!(means, "family,reading 1\nfamily 0,10.5\nfamily 1,0.5\n");
}

#[test]
fn json_has_what_the_file_tells() {
    let folder = p1("result_json");
    let of = |words: &str| -> serde_json::Value {
        let run = run(&folder, &format!("{words} --format json"));
        serde_json::from_str(run.text()).unwrap()
    };
    let grouped = of(&format!("group r.csv {SETTINGS}"));
    let whole = of("read r.families --serials r.csv");
    for same in ["program", "meters", "readings", "reading_names", "families"] {
        assert_eq!(whole[same], grouped[same], "{same}");
        assert!(!whole[same].is_null(), "{same}");
    }
    for unknown in ["settings", "splits", "unplaced_rows_summed_over_splits"] {
        assert!(grouped.get(unknown).is_some() && whole.get(unknown).is_none());
    }
    assert_eq!(whole["source"], "r.families");
    assert_eq!(whole["serials_from"], "r.csv");
    let alone = of("read r.families");
    assert!(alone["serials_from"].is_null() && alone["reading_names"].is_null());
    assert!(alone["families"][0]["meters"][0]["serial"].is_null());
    assert_eq!(alone["families"][0]["meters"][0]["row"], 2);
}

#[test]
fn a_file_comes_from_standard_input_too() {
    let folder = p1("result_input");
    let named = run(&folder, "read r.families --serials r.csv");
    let input = |name: &str| File::open(folder.path().join(name)).unwrap();
    let words = ["read", "-", "--serials", "r.csv"];
    let piped = Run::of(folder.command(&words).stdin(input("r.families")));
    assert_eq!(piped.text(), named.text());
    let words = ["read", "r.families", "--serials", "-"];
    let piped = Run::of(folder.command(&words).stdin(input("r.csv")));
    assert_eq!(piped.text(), named.text());
    let refused = Run::of(folder.command(&["read", "-"]).stdin(input("r.csv")));
    refused.fails(1, &["standard input: refused 10: no result file: "]);
}

#[test]
fn readings_of_another_shape_end_by_3() {
    let folder = p1("result_shape");
    for (csv, words) in [
        (
            "serial,error\nA,0\nB,1\nC,10\n",
            "3 rows; the result file has 4",
        ),
        ("", "0 rows; the result file has 4"),
        (
            "serial,low,high\nA,0,1\nB,1,1\nC,1,1\nD,1,1\n",
            "2 readings in a row; the result file has 1",
        ),
        ("serial,error\nA,0\nB,x\n", "line 3 column 2: "),
    ] {
        folder.write("s.csv", csv);
        for more in ["", "--format json", "--output o --means m"] {
            let read = format!("read r.families --serials s.csv {more}");
            run(&folder, &read).fails(3, &["s.csv: ", words]);
        }
        let page = "page --result r.families --serials s.csv --output o";
        run(&folder, page).fails(3, &["s.csv: ", words]);
    }
    let names = fs::read_dir(folder.path()).unwrap().count();
    assert_eq!(names, 3, "r.csv, r.families and s.csv");
}

#[test]
fn whole_numbers_in_front_are_asked_back() {
    let folder = p1("result_unclear");
    folder.write("s.csv", "7,0\n8,1\n9,10\n10,11\n");
    let read = "read r.families --serials s.csv";
    run(&folder, read).fails(3, &["--serial-column", "--no-serials"]);
    let named = run(&folder, &format!("{read} --serial-column"));
    assert!(named.text().contains("\n  9@1/3 10@1/4\n"), "{named:?}");
    run(&folder, &format!("{read} --no-serials")).fails(3, &["2 readings in a row"]);
    for flag in ["--serial-column", "--no-serials"] {
        run(&folder, &format!("read r.families {flag}")).fails(2, &["--serials"]);
    }
}

/// Two rows of two families in each other's place: their serials would stand in the wrong families.
#[test]
fn readings_in_another_order_are_warned_of() {
    let folder = p1("result_swapped");
    folder.write("s.csv", "serial,error\nC3,10\nB 2,1\nA1,0\nD4,11\n");
    let told = [
        "warning: s.csv: these are probably not the readings that the result file was made from",
        "the mean of family 0 is 10.5 in the file and 5.5 over these (reading 1)",
    ];
    for command in ["read r.families", "page --result r.families"] {
        let words = format!("{command} --serials s.csv");
        let warned = run(&folder, &words);
        assert!(!warned.text().is_empty());
        for word in told {
            assert!(warned.errors.contains(word), "no `{word}` in {warned:?}");
        }
        let failing = format!("{words} --fail-on-warning");
        run(&folder, &failing).fails(3, &["probably not the readings"]);
        run(&folder, &format!("{failing} --output o")).fails(3, &["probably not"]);
    }
    assert!(!folder.path().join("o").exists());
    let json = run(&folder, "read r.families --serials s.csv --format json");
    let whole: serde_json::Value = serde_json::from_str(json.text()).unwrap();
    let warning = whole["warnings"][0].as_str().unwrap();
    assert!(told[1].ends_with("(reading 1)") && warning.contains(told[1]));
    let page = run(&folder, "page --result r.families --serials s.csv");
    assert!(page.text().contains("probably not the readings"));
}

/// This exit code and nothing on standard output, or families; the reason stands behind the refusal's number.
fn assert_read_or_refused(folder: &Folder, file: &[u8]) -> bool {
    folder.write("damaged", file);
    let read = run(folder, "read damaged --output o");
    match read.code {
        0 => {
            fs::remove_file(folder.path().join("o")).unwrap();
            true
        }
        _ => {
            read.fails(1, &["damaged: refused 10: no result file: "]);
            assert!(!read.errors.contains("does not hold together"), "{read:?}");
            assert!(!folder.path().join("o").exists());
            false
        }
    }
}

#[test]
fn every_cut_is_refused() {
    let folder = p1("result_cut");
    let file = file(&folder);
    assert!(assert_read_or_refused(&folder, &file));
    for length in 0..file.len() {
        assert!(!assert_read_or_refused(&folder, &file[..length]));
    }
    for start in 1..file.len() {
        assert!(!assert_read_or_refused(&folder, &file[start..]));
    }
    let longer = [&file[..], &[0]].concat();
    assert!(!assert_read_or_refused(&folder, &longer));
    let longer = [&[0], &file[..]].concat();
    assert!(!assert_read_or_refused(&folder, &longer));
    assert!(!assert_read_or_refused(&folder, &file.repeat(2)));
}

/// A mean may be any bits; of the rest a single byte can be changed in one place alone, the first family's end.
#[test]
fn every_changed_byte_is_read_or_refused() {
    let folder = p1("result_changed");
    let file = file(&folder);
    for at in 0..file.len() {
        for change in [1, 0x80, 0xff] {
            let mut changed = file.clone();
            changed[at] ^= change;
            let is_free = (12..20).contains(&at) || (at == 8 && change == 1);
            let read = assert_read_or_refused(&folder, &changed);
            assert_eq!(read, is_free, "byte {at} changed by {change}");
        }
    }
}

/// P1's file with one byte changed: what is said of it.
#[test]
fn a_refusal_says_what_a_look_at_the_file_shows() {
    let folder = p1("result_refused");
    let sound = file(&folder);
    for (at, byte, words) in [
        (33, 17, "the number of rows is 4356; it goes from 0 to 4096"),
        (36, 0, "readings in a row is 0; it goes from 1 to 64"),
        (40, 5, "the number of families is 5; it goes from 1 to 4"),
        (24, 9, "the ends start at byte 9; 4 rows in 2 families have"),
        (
            36,
            2,
            "it has 44 bytes; 4 rows of 2 readings in 2 families take 52",
        ),
        (0, 4, "row 4 is listed; it has 4 rows, from 0 on"),
        (0, 3, "row 3 is listed twice"),
        (8, 0, "family 0 goes from 0 to 0 in the row numbers"),
        (10, 2, "family 1 goes from 2 to 2 in the row numbers"),
        (10, 3, "the last family ends at 3; it has 4 rows"),
    ] {
        let mut file = sound.clone();
        file[at] = byte;
        folder.write("damaged", file);
        let told = ["damaged: refused 10: no result file: ", words];
        for command in ["read damaged", "page --result damaged --serials r.csv"] {
            run(&folder, command).fails(1, &told);
        }
    }
    folder.write("damaged", "");
    run(&folder, "read damaged").fails(1, &["it has 0 bytes; the trailer alone has 24"]);
    run(&folder, "read none.families").fails(4, &["none.families"]);
    run(&folder, "read .").fails(4, &[".: "]);
}

/// A file that has no end is read up to where no result file goes.
#[test]
fn a_file_of_any_length_is_refused() {
    let folder = Folder::new("result_endless");
    run(&folder, "read /dev/zero").fails(1, &["refused 10: ", "more than 1064984 bytes"]);
}

#[test]
fn nothing_is_written_where_the_grouping_is_refused() {
    let folder = p1("result_old");
    let old = file(&folder);
    let refused = format!("group r.csv {SETTINGS} --budget 0 --result");
    for name in ["r.families", "new.families"] {
        run(&folder, &format!("{refused} {name}")).fails(1, &["refused 7"]);
    }
    let group = "group r.csv --limit 4 --seed 1";
    let means = format!("{group} --result r.families --means none/m.csv");
    run(&folder, &means).fails(4, &["none/m.csv"]);
    run(&folder, &format!("{group} --result none/r --output o")).fails(4, &["none/r"]);
    folder.write("s.csv", "serial,low\nA,x\n");
    run(&folder, "group s.csv --result r.families").fails(3, &["s.csv"]);
    assert_eq!(file(&folder), old);
    let names = fs::read_dir(folder.path()).unwrap().count();
    assert_eq!(names, 3, "r.csv, s.csv and r.families");
    // And then it is.
    run(&folder, &format!("{group} --result r.families")).text();
    assert_ne!(file(&folder), old);
}

#[test]
fn no_file_is_written_over_another() {
    let folder = p1("result_over");
    let written = file(&folder);
    let group = format!("group r.csv {SETTINGS}");
    run(&folder, &format!("{group} --result ./r.csv")).fails(2, &["r.csv is read"]);
    for option in ["--output", "--means"] {
        let same = format!("{group} {option} o --result ./o");
        run(&folder, &same).fails(2, &[&format!("{option} and --result name the same file")]);
    }
    let read = "read r.families --serials r.csv";
    for option in ["--output", "--means"] {
        for over in ["r.families", "r.csv"] {
            let words = format!("{read} {option} {over}");
            run(&folder, &words).fails(2, &[&format!("{over} is read")]);
        }
    }
    run(&folder, &format!("{read} --output o --means o")).fails(2, &["same file"]);
    assert!(!folder.path().join("o").exists());
    assert_eq!(file(&folder), written);
    assert_eq!(fs::read_to_string(folder.path().join("r.csv")).unwrap(), P1);
}

#[test]
fn an_output_file_has_the_families() {
    let folder = p1("result_output");
    let read = "read r.families --serials r.csv";
    let printed = run(&folder, read);
    assert_eq!(run(&folder, &format!("{read} --output o")).text(), "");
    let output = fs::read_to_string(folder.path().join("o")).unwrap();
    assert_eq!(output, printed.text());
}

#[test]
fn no_meters_are_a_file_of_24_bytes() {
    let (folder, _) = grouped("result_none", "serial,low,high\n", "--seed 1");
    let words = [0u32, 0, 0, 0, 2, 0].map(u32::to_le_bytes).concat();
    assert_eq!(file(&folder), words);
    for serials in ["", "--serials r.csv --fail-on-warning"] {
        let read = run(&folder, &format!("read r.families {serials}"));
        assert_eq!(read.text(), "0 families, 0 meters\n");
    }
    let page = run(&folder, "page --result r.families --serials r.csv");
    assert!(page.text().contains("no families"));
    folder.write("r.csv", "serial,low\n");
    let words = "1 readings in a row; the result file has 2";
    run(&folder, "read r.families --serials r.csv").fails(3, &[words]);
}

/// Readings whose sum overflows, in a batch that is not split; and patterns that no sum has.
#[test]
fn means_that_are_no_numbers_are_read() {
    let (folder, _) = grouped(
        "result_infinite",
        "A,3e38,-3e38\nB,3e38,-2e38\n",
        "--seed 1",
    );
    let read = run(&folder, "read r.families --serials r.csv --fail-on-warning");
    assert!(read.text().contains("  mean inf -inf\n"), "{read:?}");

    let patterns = [0x7fc0_0001, 0xffc1_2345, 0x7f80_0001, 0xff80_0000];
    folder.write("r.families", made(2, 2, &[1, 2], &patterns));
    let read = run(&folder, "read r.families");
    assert!(
        read.text().contains("  mean NaN NaN\n  1@1/2\n"),
        "{read:?}"
    );
    let json = run(&folder, "read r.families --format json");
    let whole: serde_json::Value = serde_json::from_str(json.text()).unwrap();
    let means = serde_json::json!(["NaN", "-inf"]);
    assert_eq!(whole["families"][1]["mean"], means);
    let warned = run(&folder, "read r.families --serials r.csv");
    assert!(
        warned.errors.contains("family 0 is NaN in the file and 3"),
        "{warned:?}"
    );
}

/// As many families as meters, of the most readings; the same and a byte more is refused.
#[test]
fn the_largest_file_is_read() {
    let folder = Folder::new("result_largest");
    let ends: Vec<u16> = (1..=4_096).collect();
    let means: Vec<u32> = (0..4_096 * 64)
        .map(|at| (at as f32 / 64.0).to_bits())
        .collect();
    let mut file = made(4_096, 64, &ends, &means);
    assert_eq!(file.len(), 1_064_984);
    folder.write("r.families", &file);
    let read = run(&folder, "read r.families --format csv --means m.csv");
    let mut lines = read.text().lines().skip(1).enumerate();
    let family = |row: usize, line: &str| line.ends_with(&format!(",{}", 4_095 - row));
    assert!(lines.all(|(row, line)| family(row, line)));
    assert_eq!(read.text().lines().count(), 4_097);
    let means = fs::read_to_string(folder.path().join("m.csv")).unwrap();
    assert!(means.contains("\nfamily 4095,4095,4095.0156,"));
    file.push(0);
    folder.write("r.families", &file);
    run(&folder, "read r.families").fails(1, &["refused 10: ", "more than 1064984 bytes"]);
}
