//! Families as CSV: what a coefficient writer reads, and the means as a file of centroids.

use csv::Writer;

use crate::answers::report::Report;

/// One line for each meter in the order of the rows, so that a meter that is skipped shows.
pub fn meters(report: &Report) -> Vec<u8> {
    let mut family_of = vec![0; report.meters()];
    for (number, family) in report.families.iter().enumerate() {
        for row in &family.rows {
            family_of[*row] = number;
        }
    }
    let mut lines = vec![["serial", "row", "tray", "place", "family"].map(String::from)];
    for (row, family) in family_of.into_iter().enumerate() {
        let place = report.place(row);
        let serial = report.table.serial(row).unwrap_or_default();
        let [row, tray, place, family] =
            [row, place.tray, place.place, family].map(|n| n.to_string());
        lines.push([serial.to_string(), row, tray, place, family]);
    }
    written(lines)
}

/// One line for each family; the first column has names and not numbers, so that `--centroids` takes the file as it is.
pub fn means(report: &Report) -> Vec<u8> {
    let names = match &report.table.names {
        Some(names) => names.clone(),
        None => (1..=report.table.readings)
            .map(|n| format!("reading {n}"))
            .collect(),
    };
    let mut lines = vec![line("family".to_string(), names)];
    for (number, family) in report.families.iter().enumerate() {
        let mean = family.mean.iter().map(f32::to_string).collect();
        lines.push(line(format!("family {number}"), mean));
    }
    written(lines)
}

fn line(first: String, rest: Vec<String>) -> Vec<String> {
    [vec![first], rest].concat()
}

fn written<L: AsRef<[String]>>(lines: Vec<L>) -> Vec<u8> {
    let mut writer = Writer::from_writer(Vec::new());
    for line in lines {
        // Lines of one length, written to memory: nothing fails.
        writer.write_record(line.as_ref()).expect("a line of CSV");
    }
    writer.into_inner().expect("CSV in memory")
}

#[cfg(test)]
mod tests {
    use super::*;
    use crate::answers::report::tests::report;

    fn text(bytes: Vec<u8>) -> String {
        String::from_utf8(bytes).unwrap()
    }

    #[test]
    fn meters_stand_in_row_order_with_tray_place_and_family() {
        assert_eq!(
            text(meters(&report())),
            "serial,row,tray,place,family\nA 1,0,1,1,0\nB,1,1,2,1\nC,2,2,1,0\n"
        );
    }

    #[test]
    fn a_meter_without_serial_keeps_its_row() {
        let mut report = report();
        report.table.serials = None;
        assert!(text(meters(&report)).ends_with("\n,2,2,1,0\n"));
    }

    #[test]
    fn serials_are_quoted_where_they_must_be() {
        let mut report = report();
        report.table.serials = Some(vec!["a,\"b\"".into(), "B".into(), "C".into()]);
        assert!(text(meters(&report)).contains("\n\"a,\"\"b\"\"\",0,1,1,0\n"));
    }

    #[test]
    fn means_stand_under_the_names_of_the_readings() {
        let mut report = report();
        let lines = "\nfamily 0,0.5,0.1\nfamily 1,-0.25,3\n";
        assert_eq!(text(means(&report)), format!("family,low,high{lines}"));
        report.table.names = None;
        assert_eq!(
            text(means(&report)),
            format!("family,reading 1,reading 2{lines}")
        );
    }
}
