//! `families page`: the structure of the page over whole runs.

use std::fs;

use crate::common::{Folder, Run};

fn page(folder: &Folder, csv: &str, words: &str) -> Run {
    folder.write("r.csv", csv);
    let mut all = vec!["page", "r.csv", "--seed", "1"];
    all.extend(words.split_whitespace());
    folder.run(&all)
}

/// Meters of three readings in some kinds, and each thirtieth out of kind.
fn readings(meters: usize) -> String {
    let mut csv = String::from("serial,low,mid,high\n");
    for meter in 0..meters {
        let kind = (meter % 5) as f32;
        let noise = ((meter * 37) % 101) as f32 / 1_000.0;
        let wild = if meter % 30 == 29 {
            ((meter * 7) % 13) as f32
        } else {
            0.0
        };
        let [low, mid, high] = [kind + noise, 2.0 * kind - noise, noise + wild];
        csv += &format!("<S{meter}>,{low},{mid},{high}\n");
    }
    csv
}

fn count(page: &str, text: &str) -> usize {
    page.matches(text).count()
}

#[test]
fn every_meter_has_its_curve_and_its_serial_once() {
    let folder = Folder::new("page_structure");
    for meters in [1, 40, 400] {
        let run = page(&folder, &readings(meters), "");
        let text = run.text();
        assert_eq!(count(text, "class=\"meter\""), meters);
        for meter in 0..meters {
            assert_eq!(count(text, &format!("&lt;S{meter}&gt;")), 1, "S{meter}");
        }
        assert!(!text.contains("<S") && !text.contains("<script") && !text.contains("http"));
    }
}

/// The families that the definition of `odd` names, worked out from what `group` gives in JSON.
fn odd_families(folder: &Folder) -> Vec<usize> {
    let words = ["group", "r.csv", "--seed", "1", "--format", "json"];
    let run = folder.run(&words);
    let whole: serde_json::Value = serde_json::from_str(run.text()).unwrap();
    let csv = fs::read_to_string(folder.path().join("r.csv")).unwrap();
    let rows: Vec<Vec<f64>> = csv
        .lines()
        .skip(1)
        .map(|line| {
            line.split(',')
                .skip(1)
                .map(|cell| cell.parse().unwrap())
                .collect()
        })
        .collect();
    let spreads: Vec<f64> = whole["families"]
        .as_array()
        .unwrap()
        .iter()
        .map(|family| {
            let meters = family["meters"].as_array().unwrap();
            let mean = family["mean"].as_array().unwrap();
            let squares = meters.iter().flat_map(|meter| {
                let row = &rows[meter["row"].as_u64().unwrap() as usize];
                row.iter()
                    .zip(mean)
                    .map(|(value, mean)| (value - mean.as_f64().unwrap()).powi(2))
            });
            (squares.sum::<f64>() / (meters.len() * mean.len()) as f64).sqrt()
        })
        .collect();
    let mut sorted = spreads.clone();
    sorted.sort_by(f64::total_cmp);
    let middle = sorted.len() / 2;
    let median = match sorted.len() % 2 {
        1 => sorted[middle],
        _ => (sorted[middle - 1] + sorted[middle]) / 2.0,
    };
    (0..spreads.len())
        .filter(|family| spreads[*family] > 2.0 * median)
        .collect()
}

#[test]
fn odd_families_are_those_of_the_definition() {
    let folder = Folder::new("page_odd");
    let run = page(&folder, &readings(400), "");
    let odd = odd_families(&folder);
    assert!(
        !odd.is_empty(),
        "readings without an odd family show nothing"
    );
    let text = run.text();
    assert_eq!(count(text, "class=\"family odd\""), odd.len());
    for family in odd {
        let section = format!("<section class=\"family odd\" id=\"family-{family}\"");
        assert_eq!(count(text, &section), 1, "{section}");
    }
}

#[test]
fn a_page_goes_to_its_file() {
    let folder = Folder::new("page_output");
    let run = page(&folder, &readings(40), "--output p.html --limit 9 --tray 8");
    assert_eq!(run.text(), "");
    let text = fs::read_to_string(folder.path().join("p.html")).unwrap();
    assert_eq!(
        text,
        page(&folder, &readings(40), "--limit 9 --tray 8").text()
    );
    assert!(text.starts_with("<!DOCTYPE html>"));
    page(&folder, &readings(40), "--output r.csv").fails(2, &["r.csv"]);
    page(&folder, &readings(40), "--output none/p.html").fails(4, &["none/p.html"]);
    page(&folder, &readings(50), "--output p.html --budget 0").fails(1, &["refused 7"]);
    page(&folder, "low\nx\n", "").fails(3, &["r.csv"]);
    page(&folder, &readings(1), "--format csv").fails(2, &["--format"]);
    assert_eq!(
        fs::read_to_string(folder.path().join("p.html")).unwrap(),
        text
    );
}

#[test]
fn a_page_without_meters_and_one_with_warnings_are_pages_too() {
    let folder = Folder::new("page_none");
    let none = page(&folder, "serial,low\n", "");
    assert_eq!(count(none.text(), "class=\"meter\""), 0);
    let warned = page(&folder, "1000.1\n1000.2\n1000.3\n", "");
    assert!(warned.text().contains("far from zero"), "{warned:?}");
}

/// The part of a page from its first family on.
fn sections(page: &str) -> &str {
    &page[page.find("<section class=\"family").unwrap()..]
}

#[test]
fn a_result_file_is_a_page_beside_its_readings() {
    let folder = Folder::new("page_result");
    folder.write("r.csv", readings(40));
    let group = "group r.csv --seed 1 --limit 9 --result r.families";
    folder.run(&group.split(' ').collect::<Vec<_>>()).text();
    let grouped = page(&folder, &readings(40), "--limit 9 --tray 8");
    let words = "page --result r.families --serials r.csv --tray 8 --fail-on-warning";
    let words: Vec<&str> = words.split(' ').collect();
    let run = folder.run(&words);
    let text = run.text();
    let told = "families: r.csv: a header, serial numbers from <S0>, 40 rows of 3 readings\n";
    assert_eq!(run.errors, told);
    let file = "<p class=\"file\">families of the result file r.families, readings of r.csv</p>";
    assert_eq!(count(text, file), 1);
    // Sections are those of the grouping's page, but for what is said of the limit.
    let plain = grouped.text().replace(", at the limit<", "<");
    assert_eq!(sections(text), sections(&plain));
    for word in ["splits", "unplaced", "seed", "limit", "budget"] {
        assert_eq!(count(text, &format!("<dt>{word}")), 0, "{word}");
    }
    let sizes = text.split("<span>").skip(1);
    let sizes: Vec<usize> = sizes
        .map(|rest| rest.split('<').next().unwrap().parse().unwrap())
        .collect();
    let largest = *sizes.iter().max().unwrap();
    let full = format!("a full bar is the largest family of {largest} meters.");
    assert_eq!(count(text, &full), 1);
    let full = sizes.iter().filter(|size| **size == largest).count();
    assert_eq!(count(text, "style=\"width:100%\""), full);

    let output: Vec<&str> = words
        .iter()
        .copied()
        .chain(["--output", "p.html"])
        .collect();
    assert_eq!(folder.run(&output).text(), "");
    let page = fs::read_to_string(folder.path().join("p.html")).unwrap();
    assert_eq!(page, text);
    for over in ["r.csv", "r.families"] {
        let output: Vec<&str> = words.iter().copied().chain(["--output", over]).collect();
        folder.run(&output).fails(2, &[over, "not written over"]);
    }
}

#[test]
fn a_result_file_takes_no_settings_and_needs_its_readings() {
    let folder = Folder::new("page_result_usage");
    let fails = |line: &str, words: &[&str]| {
        let line: Vec<&str> = line.split(' ').collect();
        folder.run(&line).fails(2, words);
    };
    for setting in [
        "r.csv",
        "--limit 40",
        "--branching 4",
        "--weight 0.25",
        "--budget 8192",
        "--seed 1",
        "--draws 256",
        "--allow-unplaced",
        "--spherical",
    ] {
        let line = format!("page --result r.families --serials r.csv {setting}");
        fails(&line, &["--result", "cannot be used with"]);
    }
    fails("page --result r.families", &["--serials <READINGS.csv>"]);
    fails(
        "page r.csv --serials r.csv",
        &["--serials", "cannot be used with"],
    );
    fails("page --serials r.csv", &["--result <FILE>"]);
    fails("page --tray 8", &["<READINGS.csv>"]);
}
