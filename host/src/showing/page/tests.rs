//! What the page promises, checked on small reports with hand-made numbers.

use super::html;
use crate::answers::draws::Draws;
use crate::answers::report::tests::grouped;
use crate::answers::report::{Family, Grouped, Origin, Report};
use crate::answers::settings::Settings;
use crate::reading::table::Table;

/// A report of rows, grouped as listed, with the families' means made from them.
fn report(rows: &[&[f32]], groups: &[&[usize]]) -> Report {
    let readings = rows.first().map_or(0, |row| row.len());
    let mean = |group: &[usize], reading: usize| {
        let sum: f32 = group.iter().map(|&row| rows[row][reading]).sum();
        sum / group.len() as f32
    };
    let families = groups.iter().map(|&group| Family {
        rows: group.to_vec(),
        mean: (0..readings).map(|it| mean(group, it)).collect(),
    });
    Report {
        source: String::from("readings.csv"),
        origin: Origin::Grouped(Grouped {
            settings: Settings {
                limit: 4,
                branching: 3,
                weight: 0.5,
                budget: 77,
            },
            draws: Draws {
                seed: 987_654_321,
                count: 5555,
            },
            allow_unplaced: false,
            spherical: false,
            splits: 6,
            unplaced: 0,
        }),
        table: Table {
            rows: rows.len(),
            readings,
            values: rows.concat(),
            serials: Some((0..rows.len()).map(|row| format!("MF-{row}")).collect()),
            names: Some((0..readings).map(|it| format!("I{it}")).collect()),
        },
        tray: 2,
        families: families.collect(),
        warnings: vec![],
    }
}

fn sample() -> Report {
    let rows: [&[f32]; 5] = [
        &[0.1, 0.2, 0.3],
        &[-1.0, -0.5, 0.0],
        &[0.2, 0.3, 0.4],
        &[-1.1, -0.6, 0.1],
        &[0.0, 0.1, 0.2],
    ];
    report(&rows, &[&[0, 2, 4], &[3, 1]])
}

/// Families of two meters with one reading, so far from zero on both sides as each spread says.
fn with_spreads(spreads: &[f32]) -> Report {
    let values: Vec<[f32; 1]> = spreads.iter().flat_map(|&it| [[-it], [it]]).collect();
    let rows: Vec<&[f32]> = values.iter().map(|value| &value[..]).collect();
    let groups: Vec<[usize; 2]> = (0..spreads.len()).map(|it| [2 * it, 2 * it + 1]).collect();
    let groups: Vec<&[usize]> = groups.iter().map(|group| &group[..]).collect();
    report(&rows, &groups)
}

fn times(page: &str, part: &str) -> usize {
    page.matches(part).count()
}

/// What stands between quotes after each such beginning.
fn quoted<'a>(page: &'a str, beginning: &'a str) -> impl Iterator<Item = &'a str> {
    let after = page.split(beginning).skip(1);
    after.map(|rest| rest.split('"').next().unwrap_or(rest))
}

/// The part of a page from a family's section to the end of this section.
fn part(page: &str, family: usize) -> &str {
    let start = page.find(&format!("id=\"family-{family}\"")).unwrap();
    let end = page[start..].find("</section>").unwrap();
    &page[start..start + end]
}

/// Fails where the page needs anything else, or a drawing has anything but numbers in it.
fn check_page(page: &str) {
    assert!(page.starts_with("<!DOCTYPE html>\n<html lang=\"en\">"));
    assert!(page.ends_with("</html>\n"));
    for foreign in [
        "<script", "http", "<link", "<img", "@import", "url(", "src=",
    ] {
        assert!(!page.contains(foreign), "{foreign}");
    }
    for attribute in [" points=\"", " d=\"", " x=\"", " y=\"", "width:"] {
        for drawn in quoted(page, attribute).filter(|drawn| !drawn.contains(';')) {
            let spaced = drawn.replace(['M', 'h', 'v', ',', '%'], " ");
            for number in spaced.split_whitespace() {
                check_coordinate(number);
            }
        }
    }
}

fn check_coordinate(number: &str) {
    let digits = number.replacen('.', "", 1);
    assert!(digits.bytes().all(|it| it.is_ascii_digit()), "{number}");
    let decimals = number.split_once('.').map_or(0, |(_, after)| after.len());
    assert!(decimals <= 1, "{number}");
    assert!(
        number.parse::<f64>().is_ok_and(|it| it <= 1000.0),
        "{number}"
    );
}

/// The second half of each pair of coordinates.
fn heights(points: &str) -> Vec<f64> {
    let pairs = points.split(' ').filter_map(|pair| pair.split_once(','));
    pairs.map(|(_, y)| y.parse().unwrap()).collect()
}

#[test]
fn each_meter_has_one_curve_and_each_family_one_mean() {
    let page = html(&sample());
    check_page(&page);
    assert_eq!(times(&page, "class=\"meter\""), 5);
    assert_eq!(times(&page, "class=\"mean\""), 2);
    assert_eq!(times(&page, "<section class=\"family"), 2);
    assert_eq!(times(part(&page, 0), "class=\"meter\""), 3);
    assert_eq!(times(part(&page, 1), "class=\"meter\""), 2);
    for points in quoted(&page, "points=\"") {
        assert_eq!(heights(points).len(), 3, "{points}");
    }
}

#[test]
fn curves_follow_the_readings() {
    let page = html(&sample());
    let curves: Vec<Vec<f64>> = quoted(part(&page, 1), "points=\"").map(heights).collect();
    // Row 3 comes first, and the mean last; what is greater stands higher.
    let [third, first, mean] = &curves[..] else {
        panic!("{curves:?}");
    };
    assert!(third[0] > first[0] && third[1] > first[1] && third[2] < first[2]);
    assert!(first[0] > first[1] && first[1] > first[2]);
    for reading in 0..3 {
        let between = (third[reading] + first[reading]) / 2.0;
        assert!((mean[reading] - between).abs() <= 0.11);
    }
}

#[test]
fn all_families_have_one_scale() {
    let page = html(&sample());
    let labels = |family| {
        let after = part(&page, family).split("<g class=\"values\">").nth(1);
        after.and_then(|rest| rest.split("</g>").next()).unwrap()
    };
    assert_eq!(labels(0), labels(1));
    assert!(labels(0).contains(">-0.5</text>"));
    assert_eq!(times(&page, "class=\"zero\""), 2);
    assert!(page.contains("same vertical scale"));
}

#[test]
fn no_zero_line_where_zero_is_out_of_range() {
    let page = html(&report(&[&[5.0, 6.0], &[5.5, 7.0]], &[&[0, 1]]));
    check_page(&page);
    assert_eq!(times(&page, "class=\"zero\""), 0);
}

#[test]
fn each_serial_stands_once_with_its_place() {
    let mut report = sample();
    let serials = ["A<1>", "A<1", "B&C", "MF-1", "MF-10"];
    report.table.serials = Some(serials.map(String::from).to_vec());
    let page = html(&report);
    let lines = [
        (0, "A&lt;1&gt;", 1, 1),
        (0, "B&amp;C", 2, 1),
        (0, "MF-10", 3, 1),
        (1, "MF-1", 2, 2),
        (1, "A&lt;1", 1, 2),
    ];
    for (family, serial, tray, place) in lines {
        let cell = format!("<td>{serial}</td>");
        assert_eq!(times(&page, &cell), 1, "{serial}");
        let line = format!("<tr>{cell}<td>{tray}</td><td>{place}</td>");
        assert!(part(&page, family).contains(&line), "{serial}");
    }
    // MF-10 and A<1> have the shorter ones in them.
    assert_eq!(times(&page, "MF-1"), 2);
    assert_eq!(times(&page, "MF-10"), 1);
    assert_eq!(times(&page, "A&lt;1"), 2);
    assert_eq!(times(&page, "A&lt;1&gt;"), 1);
    assert_eq!(times(&page, "B&amp;C"), 1);
    assert_eq!(times(&page, ">serial</th>"), 2);
}

#[test]
fn meters_stand_in_the_familys_order() {
    let page = html(&sample());
    let family = part(&page, 1);
    assert!(family.find("MF-3").unwrap() < family.find("MF-1").unwrap());
}

#[test]
fn rows_stand_for_missing_serials_and_numbers_for_missing_names() {
    let mut report = sample();
    report.table.serials = None;
    report.table.names = None;
    let page = html(&report);
    check_page(&page);
    assert_eq!(times(&page, ">serial</th>"), 0);
    assert_eq!(times(&page, ">row</th>"), 2);
    assert!(part(&page, 1).contains("<tr><td>3</td><td>2</td><td>2</td>"));
    assert!(part(&page, 0).contains("<dt>1</dt><dd>0.1"));
    assert!(part(&page, 0).contains(">3</text>"));
}

#[test]
fn odd_families_are_those_above_twice_the_median() {
    // With each list its median, by hand.
    let lists: [(&[f32], f32); 7] = [
        (&[1.0, 2.0, 3.0, 4.0, 9.0], 3.0),
        (&[7.0, 1.0, 2.0, 4.0], 3.0),
        (&[5.5, 1.0, 2.0, 4.0], 3.0),
        (&[1.0, 2.0, 1.0], 1.0),
        (&[1.0, 2.5, 1.0, 8.0, 1.0], 1.0),
        (&[0.0, 0.0, 0.25], 0.0),
        (&[6.0], 6.0),
    ];
    for (spreads, median) in lists {
        let page = html(&with_spreads(spreads));
        check_page(&page);
        let odd: Vec<usize> = (0..spreads.len())
            .filter(|&family| spreads[family] > 2.0 * median)
            .collect();
        assert_eq!(times(&page, "<section class=\"family odd\""), odd.len());
        assert_eq!(times(&page, " odd\""), odd.len());
        assert_eq!(times(&page, "\"odd"), 0);
        assert_eq!(times(&page, ">odd: spread "), odd.len());
        assert_eq!(times(&page, "class=\"notable\""), odd.len());
        for family in odd {
            assert!(page.contains(&format!("class=\"family odd\" id=\"family-{family}\"")));
        }
    }
}

#[test]
fn spreads_are_shown() {
    let page = html(&with_spreads(&[1.0, 2.5, 1.0]));
    assert!(part(&page, 0).contains(">spread 1.00<"));
    assert!(part(&page, 1).contains(">odd: spread 2.50, median 1.00<"));
    // Each of the two meters is as far off as the family.
    assert_eq!(times(part(&page, 1), "<td>2.50</td>"), 2);
}

#[test]
fn everything_from_the_file_is_escaped() {
    let hostile = "<b>&\"'</b>";
    let safe = "&lt;b&gt;&amp;&quot;&#39;&lt;/b&gt;";
    let mut report = sample();
    report.source = String::from(hostile);
    report.warnings = vec![String::from(hostile)];
    report.table.names = Some(vec![String::from(hostile); 3]);
    report.table.serials = Some(vec![String::from(hostile); 5]);
    let page = html(&report);
    check_page(&page);
    assert_eq!(times(&page, hostile), 0);
    assert_eq!(times(&page, "</b>&"), 0);
    // Twice the file, one warning, five serials, and three names in two charts and two lists.
    assert_eq!(times(&page, safe), 2 + 1 + 5 + 3 * 2 * 2);
}

#[test]
fn head_tells_the_result_and_the_settings() {
    let page = html(&sample());
    let facts = [
        ("meters", "5"),
        ("families", "2"),
        ("splits", "6"),
        ("limit", "4"),
        ("branching", "3"),
        ("weight", "0.5"),
        ("budget", "77"),
        ("seed", "987654321"),
        ("draws", "5555"),
    ];
    for (name, value) in facts {
        let fact = format!("<dt>{name}</dt><dd>{value}</dd>");
        assert!(page.contains(&fact), "{fact}");
    }
    assert_eq!(times(&page, "readings.csv"), 2);
}

#[test]
fn head_tells_that_families_go_by_shape_where_they_do() {
    let mut report = sample();
    let plain = html(&report);
    grouped(&mut report).spherical = true;
    let fact = "<div><dt>spherical</dt><dd>families by shape</dd></div>";
    let page = html(&report);
    assert_eq!(times(&page, fact), 1);
    assert_eq!(page.replace(fact, ""), plain);
}

#[test]
fn head_tells_of_unplaced_rows_as_summed_over_splits() {
    let mut report = sample();
    grouped(&mut report).unplaced = 41;
    let page = html(&report);
    check_page(&page);
    let fact = "<dt>unplaced rows, summed over splits</dt><dd>41</dd>";
    assert_eq!(times(&page, fact), 1);
    assert!(page.contains("<dt>meters</dt><dd>5</dd>"));
}

#[test]
fn warnings_stand_in_a_box_where_there_are_any() {
    let mut report = sample();
    assert_eq!(times(&html(&report), "class=\"warnings\""), 0);
    report.warnings = vec![String::from("one thing"), String::from("another")];
    let page = html(&report);
    assert_eq!(times(&page, "class=\"warnings\""), 1);
    assert!(page.contains("<li>one thing</li>\n<li>another</li>"));
}

#[test]
fn bars_are_sizes_against_the_limit() {
    let mut report = sample();
    let widths = |report: &Report| {
        let page = html(report);
        check_page(&page);
        assert_eq!(times(&page, "<a href=\"#family-1\" aria"), 1);
        quoted(&page, "style=\"width:").map(String::from).collect()
    };
    let full: Vec<String> = widths(&report);
    assert_eq!(full, ["75%", "50%"]);
    for (limit, expected) in [(3, "100%"), (2, "100%"), (0, "100%"), (4096, "0.1%")] {
        grouped(&mut report).settings.limit = limit;
        assert_eq!(widths(&report)[0], expected);
    }
    grouped(&mut report).settings.limit = 2;
    assert!(part(&html(&report), 0).contains("3 meters, over the limit of 2<"));
    assert!(part(&html(&report), 1).contains("2 meters, at the limit<"));
}

/// The page of a result file beside its readings.
fn of_result_file() -> Report {
    Report {
        source: String::from("r<.bin"),
        origin: Origin::Read {
            serials: Some(String::from("r&.csv")),
        },
        ..sample()
    }
}

#[test]
fn families_of_a_result_file_say_so_and_nothing_of_a_grouping() {
    let page = html(&of_result_file());
    check_page(&page);
    let files =
        "<p class=\"file\">families of the result file r&lt;.bin, readings of r&amp;.csv</p>";
    assert_eq!(times(&page, files), 1);
    assert_eq!(times(&page, "<title>Meter families: r&lt;.bin</title>"), 1);
    let facts: Vec<&str> = page
        .split("<dt>")
        .skip(1)
        .map(|rest| rest.split('<').next().unwrap())
        .filter(|name| !name.starts_with('I'))
        .collect();
    assert_eq!(facts, ["meters", "families", "meters to a tray"]);
    let (_, body) = page.split_once("<body>").unwrap();
    for word in ["limit", "split", "unplaced", "seed", "weight"] {
        assert!(!body.contains(word), "{word}");
    }
    assert_eq!(times(&page, "class=\"meter\""), 5);
}

#[test]
fn bars_of_a_result_file_are_sizes_against_the_largest() {
    let page = html(&of_result_file());
    let widths: Vec<&str> = quoted(&page, "style=\"width:").collect();
    assert_eq!(widths, ["100%", "66.7%"]);
    assert_eq!(
        times(&page, "a full bar is the largest family of 3 meters."),
        1
    );
    assert!(part(&page, 0).contains("<p>3 meters</p>"));
}

#[test]
fn means_give_back_their_values() {
    let mut report = sample();
    let means = [0.1f32 + 0.2, -1.0e-7, 16_777_216.0];
    report.families[0].mean = means.to_vec();
    let page = html(&report);
    let shown: Vec<f32> = part(&page, 0)
        .split("<dd>")
        .skip(1)
        .map(|rest| rest.split('<').next().unwrap().parse().unwrap())
        .collect();
    assert_eq!(shown, means);
}

#[test]
fn one_reading_is_a_line_to_see() {
    let page = html(&with_spreads(&[1.0, 2.0]));
    check_page(&page);
    assert_eq!(times(&page, "class=\"meter\""), 4);
    for points in quoted(&page, "points=\"") {
        let (left, right) = points.split_once(' ').unwrap();
        let (left, right) = (left.split_once(','), right.split_once(','));
        assert_ne!(left.unwrap().0, right.unwrap().0);
        assert_eq!(left.unwrap().1, right.unwrap().1);
    }
}

#[test]
fn equal_readings_are_drawn() {
    for value in [0.0, 0.25, -7.0e30, 1.0e-45] {
        let row: &[f32] = &[value; 4];
        let page = html(&report(&[row, row], &[&[0], &[1]]));
        check_page(&page);
        assert_eq!(times(&page, "class=\"meter\""), 2);
        assert_eq!(times(&page, " odd\""), 0);
    }
}

#[test]
fn no_meters_are_a_page_too() {
    let page = html(&report(&[], &[]));
    check_page(&page);
    assert_eq!(times(&page, "<section class=\"family"), 0);
    assert_eq!(times(&page, "class=\"meter\""), 0);
    assert!(page.contains("<dt>meters</dt><dd>0</dd>"));
    assert!(page.contains("no families"));
}

#[test]
fn huge_readings_stay_in_the_chart() {
    let (top, bottom) = (f32::MAX, f32::MIN);
    let rows: [&[f32]; 4] = [&[top, bottom], &[top, bottom], &[0.0, 1.0], &[0.5, 1.0]];
    // The first family's mean overflows.
    let mut report = report(&rows, &[&[0, 1], &[2], &[3]]);
    assert_eq!(report.families[0].mean[0], f32::INFINITY);
    let page = html(&report);
    check_page(&page);
    assert!(!page.contains("NaN"));
    assert_eq!(times(&page, " odd\""), 1);
    assert!(part(&page, 0).contains("odd: spread not finite, median 0<"));
    report.families[1].mean = vec![f32::NAN, 1.0];
    let page = html(&report);
    check_page(&page);
    assert!(!page.contains("NaN"));
    assert_eq!(times(&page, "class=\"mean\""), 3);
    assert_eq!(times(&page, " odd\""), 0);
}

#[test]
fn many_long_names_are_thinned_out() {
    let row: &[f32] = &[0.5; 64];
    let mut report = report(&[row, row], &[&[0, 1]]);
    let name = |reading| format!("current {reading} of sixty-four");
    report.table.names = Some((0..64).map(name).collect());
    let page = html(&report);
    check_page(&page);
    let names = page.split("<g class=\"names\">").nth(1).unwrap();
    let names = names.split("</g>").next().unwrap();
    let shown = times(names, "<text");
    assert!((3..10).contains(&shown), "{shown}");
    let places: Vec<f64> = quoted(names, " x=\"").map(|x| x.parse().unwrap()).collect();
    assert!(places.windows(2).all(|pair| pair[1] - pair[0] > 90.0));
    assert_eq!(times(&page, "<dt>current 63 of sixty-four</dt>"), 1);
}

#[test]
fn largest_page_has_a_few_megabytes() {
    let values: Vec<f32> = (0..4096 * 64)
        .map(|it| (it % 977) as f32 * -0.0137)
        .collect();
    let rows: Vec<&[f32]> = values.chunks(64).collect();
    let all: Vec<usize> = (0..4096).collect();
    let groups: Vec<&[usize]> = all.chunks(40).collect();
    let page = html(&report(&rows, &groups));
    assert_eq!(times(&page, "class=\"meter\""), 4096);
    assert!(page.len() < 5_000_000, "{}", page.len());
}
