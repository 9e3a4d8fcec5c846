//! Which column holds serial numbers: told by its header or by cells that are no numbers, and never guessed where it could be readings.

use std::collections::HashSet;

use super::decimal;

/// What the caller says of the first column.
#[derive(Clone, Copy, Debug, PartialEq, Eq)]
pub enum Asked {
    /// The file has to tell.
    Nothing,
    Serials,
    Readings,
}

/// What the first column holds.
#[derive(Clone, Copy, Debug, PartialEq, Eq)]
pub enum Holds {
    Serials,
    Readings,
    /// Distinct whole numbers, which could be either.
    Unclear,
    /// Whole numbers below a first line that starts with something else: a header by another name, or a serial?
    Headed,
}

/// The headers that name serial numbers, in small letters.
const NAMES: [&str; 6] = ["serial", "serial number", "sn", "meter", "meter no", "id"];

/// A header that says that its column holds serial numbers; `Meter_No.` is `meter no`.
pub fn is_serial_name(cell: &str) -> bool {
    let words = cell.split(|c: char| c.is_whitespace() || "._-".contains(c));
    let words: Vec<String> = words
        .filter(|word| !word.is_empty())
        .map(str::to_lowercase)
        .collect();
    NAMES.contains(&words.join(" ").as_str())
}

/// What a column holds by its cells alone; `below_header` says that the first of them is known to be no header.
pub fn told_by_cells(cells: &[&str], below_header: bool) -> Holds {
    let (numbers, others): (Vec<&str>, Vec<&str>) =
        cells.iter().partition(|cell| decimal::is_number(cell));
    if numbers.is_empty() {
        return match others.is_empty() {
            true => Holds::Readings,
            false => Holds::Serials,
        };
    }
    let distinct: HashSet<&&str> = numbers.iter().collect();
    if distinct.len() < numbers.len() || !numbers.iter().all(|number| is_whole(number)) {
        return Holds::Readings;
    }
    let others = others.iter().filter(|cell| !cell.is_empty()).count();
    match others {
        0 => Holds::Unclear,
        1 if !below_header && !decimal::is_number(cells[0]) => Holds::Headed,
        _ => Holds::Serials,
    }
}

/// Digits alone, as serial numbers are written.
fn is_whole(text: &str) -> bool {
    text.chars().all(|character| character.is_ascii_digit())
}

#[cfg(test)]
mod tests {
    use super::*;

    #[test]
    fn serials_are_known_by_their_header_in_any_case() {
        for name in [
            "serial",
            "SERIAL",
            "Serial Number",
            "SN",
            "Meter",
            "Meter No",
            "meter_no",
            "Meter  No.",
            "Id",
        ] {
            assert!(is_serial_name(name), "{name}");
        }
        for name in ["", "low", "0.05 Ib", "meters", "no", "idle", "kind"] {
            assert!(!is_serial_name(name), "{name}");
        }
    }

    #[test]
    fn cells_tell_where_they_can() {
        for (cells, holds) in [
            (&["A1", "A2"][..], Holds::Serials),
            (&["1001", "10A2", "B3"], Holds::Serials),
            (&["1001", "10A2", "1003"], Holds::Serials),
            (&["1001", "1002"], Holds::Unclear),
            (&["7"], Holds::Unclear),
            (&["1001", "", "1003"], Holds::Unclear),
            (&["A1", "1002", "1003"], Holds::Headed),
            (&["0.1", "0.2"], Holds::Readings),
            (&["1", "2.0"], Holds::Readings),
            (&["1", "-2"], Holds::Readings),
            (&["3", "3"], Holds::Readings),
            (&["0.1", "o.1", "0.3"], Holds::Readings),
            (&["1", "nan"], Holds::Readings),
            (&[], Holds::Readings),
        ] {
            assert_eq!(told_by_cells(cells, false), holds, "{cells:?}");
        }
        assert_eq!(told_by_cells(&["A1", "1002"], true), Holds::Serials);
    }
}
