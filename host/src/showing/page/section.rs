//! A family's section: its chart, its mean to copy, and which meters to take from which tray.

use super::chart::{name, Chart};
use super::spread::{distance, Spreads};
use super::text::{count, escape, exact, short};
use crate::answers::report::{Family, Report};

/// The section of a family by its number.
pub fn section(report: &Report, chart: &Chart, spreads: &Spreads, number: usize) -> String {
    let family = &report.families[number];
    let class = if spreads.is_odd(number) {
        "family odd"
    } else {
        "family"
    };
    format!(
        "<section class=\"{class}\" id=\"family-{number}\">\n{}<div class=\"shape\">\n{}{}</div>\n\
         {}</section>\n",
        heading(report, spreads, number),
        chart.draw(number, family),
        mean(report, family),
        meters(report, number)
    )
}

fn heading(report: &Report, spreads: &Spreads, number: usize) -> String {
    let size = report.families[number].rows.len();
    let full = match report.limit() {
        Some(limit) if size == limit => String::from(", at the limit"),
        Some(limit) if size > limit => format!(", over the limit of {limit}"),
        _ => String::new(),
    };
    let spread = short(spreads.each[number]);
    let verdict = match spreads.median {
        Some(median) if spreads.is_odd(number) => {
            format!("odd: spread {spread}, median {}", short(median))
        }
        _ => format!("spread {spread}"),
    };
    format!(
        "<header><h2>Family {number}</h2> <p>{}{full}</p> <p class=\"spread\">{verdict}</p> \
         <a href=\"#overview\">Overview</a></header>\n",
        count(size, "meter", "meters")
    )
}

/// The values that a coefficient set is made from.
fn mean(report: &Report, family: &Family) -> String {
    let table = &report.table;
    let values: String = family
        .mean
        .iter()
        .take(table.readings)
        .enumerate()
        .map(|(reading, &value)| {
            format!(
                "<div><dt>{}</dt><dd>{}</dd></div>",
                escape(&name(table, reading)),
                exact(value)
            )
        })
        .collect();
    format!("<h3>Mean</h3>\n<dl class=\"numbers\">{values}</dl>\n")
}

/// The family's meters in its order, each with how far it is from the mean.
fn meters(report: &Report, number: usize) -> String {
    let family = &report.families[number];
    let serials = report.table.serials.as_ref();
    let lines: String = family
        .rows
        .iter()
        .map(|&row| {
            let meter = serials.map_or_else(|| row.to_string(), |serials| escape(&serials[row]));
            let place = report.place(row);
            let off = short(distance(&[row], family, &report.table));
            format!(
                "<tr><td>{meter}</td><td>{}</td><td>{}</td><td>{off}</td></tr>\n",
                place.tray, place.place
            )
        })
        .collect();
    let whose = if serials.is_some() { "serial" } else { "row" };
    format!(
        "<div class=\"list\" tabindex=\"0\" role=\"region\" aria-label=\"Meters of family \
         {number}\">\n<table>\n<thead><tr><th scope=\"col\">{whose}</th><th scope=\"col\">tray</th>\
         <th scope=\"col\">place</th><th scope=\"col\">off mean</th></tr></thead>\n\
         <tbody>\n{lines}</tbody>\n</table>\n</div>\n"
    )
}
