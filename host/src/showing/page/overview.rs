//! The overview: which families there are, how full they are, and which of them to look at first.

use super::spread::Spreads;
use super::text::{count, short};
use crate::answers::report::{Family, Report};

/// Bars of all families' sizes, each a way to its family's section.
pub fn overview(report: &Report, spreads: &Spreads) -> String {
    let families = &report.families;
    if families.is_empty() {
        return String::from(
            "<section class=\"overview\" id=\"overview\">\n<h2>Overview</h2>\n\
             <p>There are no meters, and so no families.</p>\n</section>\n",
        );
    }
    let full = Full::of(report);
    let bars: String = families
        .iter()
        .enumerate()
        .map(|(number, family)| bar(number, family, &full, spreads.is_odd(number)))
        .collect();
    format!(
        "<section class=\"overview\" id=\"overview\">\n<h2>Overview</h2>\n{}{}\
         <p class=\"key\">Meters in each family; a full bar is {} of {}.</p>\n\
         <ol class=\"bars\">\n{bars}</ol>\n</section>\n",
        odd_families(spreads),
        how_to_read(report),
        full.what,
        count(full.meters, "meter", "meters"),
    )
}

/// The meters of a full bar: the limit, or the largest family where no limit is known.
struct Full {
    meters: usize,
    what: &'static str,
    is_limit: bool,
}

impl Full {
    fn of(report: &Report) -> Full {
        let sizes = report.families.iter().map(|family| family.rows.len());
        match report.limit() {
            Some(limit) => Full {
                meters: limit,
                what: "the limit",
                is_limit: true,
            },
            None => Full {
                meters: sizes.max().unwrap_or(0),
                what: "the largest family",
                is_limit: false,
            },
        }
    }
}

/// Which families to look at first, and why.
fn odd_families(spreads: &Spreads) -> String {
    let odd = spreads.odd();
    let links: Vec<String> = odd
        .iter()
        .map(|number| format!("<a href=\"#family-{number}\">{number}</a>"))
        .collect();
    let found = match links.len() {
        0 => String::from("No family is odd."),
        1 => format!("<strong>1 odd family:</strong> {}.", links[0]),
        many => format!(
            "<strong>{many} odd families:</strong> {}.",
            links.join(", ")
        ),
    };
    let median = spreads.median.map(short).unwrap_or_default();
    format!(
        "<p>{found} A family's spread is the root mean square difference of its meters' readings \
         from its mean; \u{201c}off mean\u{201d} is the same of one meter alone. A family is odd \
         where its spread is above twice the median spread, which is {median}.</p>\n"
    )
}

fn how_to_read(report: &Report) -> String {
    let zero = match report.table.serials {
        Some(_) => "Families",
        None => "Families and rows",
    };
    let one = match report.table.names {
        Some(_) => "trays and places",
        None => "trays, places and readings",
    };
    format!(
        "<p>All charts have the same vertical scale, so families can be compared by eye: thin \
         lines are meters, the thick line is their mean. {zero} are counted from 0, {one} \
         from 1.</p>\n"
    )
}

fn bar(number: usize, family: &Family, full: &Full, odd: bool) -> String {
    let (size, meters) = (family.rows.len(), full.meters);
    let over = size > meters;
    let percent = if size >= meters {
        100.0
    } else {
        (1000.0 * size as f64 / meters as f64).round() / 10.0
    };
    let held = match full.is_limit {
        true => format!("{size} of {meters} meters"),
        false => count(size, "meter", "meters"),
    };
    let (class, kind) = if odd {
        (" class=\"notable\"", "Odd family")
    } else {
        ("", "Family")
    };
    let words = match (odd, over) {
        (true, true) => "odd, over",
        (true, false) => "odd",
        (false, true) => "over",
        (false, false) => "",
    };
    format!(
        "<li><a{class} href=\"#family-{number}\" aria-label=\"{kind} {number}: {held}\">\
         <b>{number}</b><i><i style=\"width:{percent}%\"></i></i>\
         <span>{size}</span><em>{words}</em></a></li>\n"
    )
}
