//! Families as text, a few lines to each.

use std::fmt::Write;

use crate::answers::report::{Report, SPHERICAL, UNPLACED};

/// The first line is that of `families list`, with what is known of the grouping below; each meter stands with its tray and place.
pub fn families(report: &Report) -> String {
    let grouped = report.grouped();
    let splits = grouped.map(|grouped| grouped.splits);
    let mut text = summary(report.families.len(), report.meters(), splits);
    // Writing to a string does not fail.
    if let Some(grouped) = grouped {
        let _ = writeln!(text, "{UNPLACED}: {}", grouped.unplaced);
        if grouped.spherical {
            let _ = writeln!(text, "{}: {}", SPHERICAL.0, SPHERICAL.1);
        }
    }
    for (number, family) in report.families.iter().enumerate() {
        let mean: Vec<String> = family.mean.iter().map(f32::to_string).collect();
        let meters: Vec<String> = family.rows.iter().map(|row| meter(report, *row)).collect();
        let _ = writeln!(text, "family {number}, {} meters", family.rows.len());
        let _ = writeln!(text, "  mean {}", mean.join(" "));
        let _ = writeln!(text, "  {}", meters.join(" "));
    }
    text
}

/// How many there are of everything that is known.
pub fn summary(families: usize, meters: usize, splits: Option<u32>) -> String {
    let splits = splits.map(|splits| format!(", {splits} splits"));
    format!(
        "{families} families, {meters} meters{}\n",
        splits.unwrap_or_default()
    )
}

fn meter(report: &Report, row: usize) -> String {
    let place = report.place(row);
    format!("{}@{}/{}", report.table.name(row), place.tray, place.place)
}

#[cfg(test)]
mod tests {
    use super::*;
    use crate::answers::report::tests::{grouped, of_result_file, report};

    #[test]
    fn a_family_has_its_size_its_mean_and_its_meters() {
        assert_eq!(
            families(&report()),
            "2 families, 3 meters, 1 splits\n\
             unplaced rows, summed over splits: 0\n\
             family 0, 2 meters\n  mean 0.5 0.1\n  C@2/1 \"A 1\"@1/1\n\
             family 1, 1 meters\n  mean -0.25 3\n  B@1/2\n"
        );
    }

    #[test]
    fn families_of_a_result_file_have_nothing_of_a_grouping() {
        assert_eq!(
            families(&of_result_file()),
            "2 families, 3 meters\n\
             family 0, 2 meters\n  mean 0.5 0.1\n  2@2/1 0@1/1\n\
             family 1, 1 meters\n  mean -0.25 3\n  1@1/2\n"
        );
    }

    #[test]
    fn families_by_shape_say_so_and_others_say_nothing() {
        let mut report = report();
        let plain = families(&report);
        grouped(&mut report).spherical = true;
        let line = "splits: 0\nspherical: families by shape\nfamily 0, ";
        assert_eq!(
            families(&report),
            plain.replace("splits: 0\nfamily 0, ", line)
        );
        assert!(!plain.contains("spherical"));
    }

    #[test]
    fn unplaced_rows_have_a_line_of_their_own() {
        let mut report = report();
        grouped(&mut report).unplaced = 7;
        let second =
            "2 families, 3 meters, 1 splits\nunplaced rows, summed over splits: 7\nfamily 0, ";
        assert!(families(&report).starts_with(second));
    }
}
