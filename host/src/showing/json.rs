//! Families as JSON: everything that is known, the engine's version too.

use serde::{Serialize, Serializer};

use crate::answers::report::{Grouped, Origin, Report};

#[derive(Serialize)]
struct Whole<'a> {
    program: Program,
    source: &'a str,
    meters: usize,
    readings: usize,
    reading_names: Option<&'a [String]>,
    #[serde(flatten)]
    origin: OriginKeys<'a>,
    warnings: &'a [String],
    families: Vec<Family<'a>>,
}

/// What is known of families by how they came about.
#[derive(Serialize)]
#[serde(untagged)]
enum OriginKeys<'a> {
    Grouped {
        settings: Settings,
        splits: u32,
        /// No number of meters: one counts in every split that does not place it.
        unplaced_rows_summed_over_splits: u32,
    },
    Read {
        serials_from: Option<&'a str>,
    },
}

#[derive(Serialize)]
struct Program {
    name: &'static str,
    version: &'static str,
    engine: &'static str,
}

#[derive(Serialize)]
struct Settings {
    limit: u32,
    branching: u32,
    weight: Float,
    budget: u32,
    /// As text, since many readers of JSON keep 53 bits of a number.
    seed: String,
    draws: usize,
    tray: usize,
    allow_unplaced: bool,
    spherical: bool,
}

#[derive(Serialize)]
struct Family<'a> {
    family: usize,
    size: usize,
    mean: Vec<Float>,
    meters: Vec<Meter<'a>>,
}

#[derive(Serialize)]
struct Meter<'a> {
    serial: Option<&'a str>,
    row: usize,
    tray: usize,
    place: usize,
}

/// The shortest number that gives the float back; JSON has none for what is not finite, which goes as text.
struct Float(f32);

impl Serialize for Float {
    fn serialize<S: Serializer>(&self, out: S) -> Result<S::Ok, S::Error> {
        match self.0.is_finite() {
            true => out.serialize_f32(self.0),
            false => out.serialize_str(&self.0.to_string()),
        }
    }
}

pub fn families(report: &Report) -> String {
    let families = report.families.iter().enumerate();
    let families = families.map(|(number, family)| Family {
        family: number,
        size: family.rows.len(),
        mean: family.mean.iter().copied().map(Float).collect(),
        meters: family.rows.iter().map(|row| meter(report, *row)).collect(),
    });
    let whole = Whole {
        program: Program {
            name: env!("CARGO_PKG_NAME"),
            version: env!("CARGO_PKG_VERSION"),
            engine: engine::VERSION,
        },
        source: &report.source,
        meters: report.meters(),
        readings: report.table.readings,
        reading_names: report.table.names.as_deref(),
        origin: origin(report),
        warnings: &report.warnings,
        families: families.collect(),
    };
    let mut text = serde_json::to_string_pretty(&whole).expect("names and numbers are JSON");
    text.push('\n');
    text
}

fn origin(report: &Report) -> OriginKeys<'_> {
    match &report.origin {
        Origin::Grouped(grouped) => OriginKeys::Grouped {
            settings: settings(grouped, report.tray),
            splits: grouped.splits,
            unplaced_rows_summed_over_splits: grouped.unplaced,
        },
        Origin::Read { serials } => OriginKeys::Read {
            serials_from: serials.as_deref(),
        },
    }
}

fn settings(grouped: &Grouped, tray: usize) -> Settings {
    let settings = grouped.settings;
    Settings {
        limit: settings.limit,
        branching: settings.branching,
        weight: Float(settings.weight),
        budget: settings.budget,
        seed: grouped.draws.seed.to_string(),
        draws: grouped.draws.count,
        tray,
        allow_unplaced: grouped.allow_unplaced,
        spherical: grouped.spherical,
    }
}

fn meter(report: &Report, row: usize) -> Meter<'_> {
    let place = report.place(row);
    Meter {
        serial: report.table.serial(row),
        row,
        tray: place.tray,
        place: place.place,
    }
}

#[cfg(test)]
mod tests {
    use super::*;
    use crate::answers::report::tests::{grouped, of_result_file, report};
    use serde_json::{json, Value};

    fn value(report: &Report) -> Value {
        serde_json::from_str(&families(report)).unwrap()
    }

    #[test]
    fn everything_is_there() {
        let value = value(&report());
        assert_eq!(value["program"]["name"], "families");
        assert_eq!(value["program"]["engine"], engine::VERSION);
        assert_eq!(value["reading_names"], json!(["low", "high"]));
        assert_eq!(
            value["settings"],
            json!({"limit": 2, "branching": 2, "weight": 0.25, "budget": 4,
                   "seed": "18446744073709551615", "draws": 3, "tray": 2,
                   "allow_unplaced": false, "spherical": false})
        );
        assert_eq!((&value["meters"], &value["splits"]), (&json!(3), &json!(1)));
        assert_eq!(value["unplaced_rows_summed_over_splits"], 0);
        assert_eq!(value["warnings"], json!(["look out"]));
        assert_eq!(
            value["families"][0]["meters"],
            json!([{"serial": "C", "row": 2, "tray": 2, "place": 1},
                   {"serial": "A 1", "row": 0, "tray": 1, "place": 1}])
        );
    }

    #[test]
    fn families_of_a_result_file_have_what_it_tells() {
        let mut report = of_result_file();
        let whole = value(&report);
        let keys: Vec<&String> = whole.as_object().unwrap().keys().collect();
        let known = [
            "families",
            "meters",
            "program",
            "reading_names",
            "readings",
            "serials_from",
            "source",
            "warnings",
        ];
        assert_eq!(keys, known);
        assert_eq!(
            (&whole["meters"], &whole["readings"]),
            (&json!(3), &json!(2))
        );
        assert_eq!(
            whole["families"][1],
            json!({"family": 1, "size": 1, "mean": [-0.25, 3.0],
                   "meters": [{"serial": null, "row": 1, "tray": 1, "place": 2}]})
        );
        let serials = Some("r.csv".to_string());
        report.origin = Origin::Read { serials };
        assert_eq!(value(&report)["serials_from"], "r.csv");
    }

    #[test]
    fn unplaced_rows_are_a_figure_of_their_own() {
        let mut report = report();
        let grouped = grouped(&mut report);
        (grouped.unplaced, grouped.allow_unplaced) = (7, true);
        let value = value(&report);
        assert_eq!(value["unplaced_rows_summed_over_splits"], 7);
        assert_eq!(value["settings"]["allow_unplaced"], true);
        assert_eq!(value["meters"], 3);
    }

    #[test]
    fn families_by_shape_are_told_by_a_setting() {
        let mut report = report();
        grouped(&mut report).spherical = true;
        assert_eq!(value(&report)["settings"]["spherical"], true);
    }

    #[test]
    fn floats_are_short_and_what_is_not_finite_is_text() {
        let mut report = report();
        report.families[1].mean = vec![f32::INFINITY, 3.0];
        let text = families(&report);
        assert!(text.contains("0.1\n"), "{text}");
        assert_eq!(value(&report)["families"][1]["mean"], json!(["inf", 3.0]));
    }

    #[test]
    fn a_table_without_names_has_nulls() {
        let mut report = report();
        (report.table.names, report.table.serials) = (None, None);
        let value = value(&report);
        assert_eq!(value["reading_names"], Value::Null);
        assert_eq!(value["families"][0]["meters"][0]["serial"], Value::Null);
    }
}
