//! Families as one HTML file that needs nothing else, to look at, to print and to keep beside the readings.

mod chart;
mod overview;
mod scale;
mod section;
mod spread;
#[cfg(test)]
mod tests;
mod text;

use self::chart::Chart;
use self::spread::Spreads;
use self::text::escape;
use crate::answers::report::{Origin, Report, SPHERICAL, UNPLACED};

/// The whole page.
pub fn html(report: &Report) -> String {
    let spreads = Spreads::of(report);
    let chart = Chart::of(report);
    let mut page = head(report);
    page += &warnings(report);
    page += &overview::overview(report, &spreads);
    for number in 0..report.families.len() {
        page += &section::section(report, &chart, &spreads, number);
    }
    page + "</main>\n</body>\n</html>\n"
}

fn head(report: &Report) -> String {
    format!(
        "<!DOCTYPE html>\n<html lang=\"en\">\n<head>\n<meta charset=\"utf-8\">\n\
         <meta name=\"viewport\" content=\"width=device-width, initial-scale=1\">\n\
         <meta name=\"color-scheme\" content=\"light dark\">\n\
         <title>Meter families: {file}</title>\n<style>\n{}</style>\n</head>\n\
         <body>\n<main>\n<header class=\"top\">\n<h1>Meter families</h1>\n\
         <p class=\"file\">{}</p>\n{}{}</header>\n",
        include_str!("page/page.css"),
        origin(report),
        result(report),
        settings(report),
        file = escape(&report.source),
    )
}

/// Which files the page is of; families that were read are not mistaken for a new grouping.
fn origin(report: &Report) -> String {
    let source = escape(&report.source);
    match &report.origin {
        Origin::Grouped(_) => source,
        Origin::Read { serials: None } => format!("families of the result file {source}"),
        Origin::Read {
            serials: Some(readings),
        } => format!(
            "families of the result file {source}, readings of {}",
            escape(readings)
        ),
    }
}

fn result(report: &Report) -> String {
    let mut shown = vec![
        ("meters", report.meters().to_string()),
        ("families", report.families.len().to_string()),
    ];
    if let Some(grouped) = report.grouped() {
        shown.push(("splits", grouped.splits.to_string()));
        shown.push((UNPLACED, grouped.unplaced.to_string()));
    }
    facts(&shown)
}

fn settings(report: &Report) -> String {
    let mut shown = Vec::new();
    if let Some(grouped) = report.grouped() {
        shown.extend([
            ("limit", grouped.settings.limit.to_string()),
            ("branching", grouped.settings.branching.to_string()),
            ("weight", grouped.settings.weight.to_string()),
            ("budget", grouped.settings.budget.to_string()),
            ("seed", grouped.draws.seed.to_string()),
            ("draws", grouped.draws.count.to_string()),
        ]);
    }
    shown.push(("meters to a tray", report.tray.to_string()));
    if report.grouped().is_some_and(|grouped| grouped.spherical) {
        shown.push((SPHERICAL.0, SPHERICAL.1.to_string()));
    }
    facts(&shown)
}

fn facts(facts: &[(&str, String)]) -> String {
    let items: String = facts
        .iter()
        .map(|(name, value)| format!("<div><dt>{name}</dt><dd>{value}</dd></div>"))
        .collect();
    format!("<dl class=\"facts\">{items}</dl>\n")
}

fn warnings(report: &Report) -> String {
    if report.warnings.is_empty() {
        return String::new();
    }
    let items: String = report
        .warnings
        .iter()
        .map(|warning| format!("<li>{}</li>\n", escape(warning)))
        .collect();
    format!("<section class=\"warnings\">\n<h2>Warnings</h2>\n<ul>\n{items}</ul>\n</section>\n")
}
