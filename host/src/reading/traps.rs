//! What spreadsheets put into CSV files that is no reading, each told by its name and with what to do.

use super::decimal::is_number;

/// UTF-16, by the mark in front or by the zero bytes between plain letters.
pub fn encoding(bytes: &[u8]) -> Option<&'static str> {
    let marked = bytes.starts_with(b"\xff\xfe") || bytes.starts_with(b"\xfe\xff");
    let front = &bytes[..bytes.len().min(4)];
    (marked || front.contains(&0))
        .then_some("the text is UTF-16 (\"Unicode text\"); save it as CSV UTF-8")
}

/// A first line of cells that are not separated by commas.
pub fn separator(first: &str) -> Option<&'static str> {
    let split_by = |separator: char| first.contains(separator) && !first.contains(',');
    if split_by(';') {
        Some(SEMICOLONS)
    } else if split_by('\t') {
        Some("cells are separated by tabs; save the file with commas")
    } else {
        None
    }
}

const SEMICOLONS: &str =
    "cells are separated by `;`; save the file with commas between cells and decimal points in numbers";

/// What a cell that is no number looks like.
pub fn cell(cell: &str) -> &'static str {
    let decimal_comma = || cell.matches(',').count() == 1 && is_number(&cell.replace(',', "."));
    if cell.is_empty() {
        "an empty cell; a meter without this reading has to be left out"
    } else if cell.contains(';') {
        "not a number: it holds a `;`; save the file with commas between cells and decimal points in numbers"
    } else if cell.ends_with('%') {
        "not a number: it has a percent sign; write the number alone, in percent for every meter"
    } else if cell.contains('\u{2212}') {
        "not a number: its minus is the sign U+2212; write the plain `-`"
    } else if decimal_comma() {
        "not a number: it has a decimal comma; write a decimal point"
    } else {
        "not a number"
    }
}

/// Shown where the last cell of every line is empty.
pub const EMPTY_COLUMN: &str =
    "the last column is empty in every line; delete it (a spreadsheet keeps columns that once were used)";

#[cfg(test)]
mod tests {
    use super::*;

    #[test]
    fn utf16_is_known_with_and_without_its_mark() {
        for bytes in [
            &b"\xff\xfe1\0"[..],
            b"\xfe\xff\0001",
            b"1\0,\0",
            b"\0001\0,",
        ] {
            assert!(encoding(bytes).is_some(), "{bytes:?}");
        }
        for bytes in [&b""[..], b"1,2", b"\xef\xbb\xbf1"] {
            assert!(encoding(bytes).is_none(), "{bytes:?}");
        }
    }

    #[test]
    fn other_separators_are_known_where_no_comma_is() {
        assert!(separator("serial;low;high").unwrap().contains("`;`"));
        assert!(separator("serial\tlow").unwrap().contains("tabs"));
        for line in ["serial", "serial,low;high", "a,\tb"] {
            assert_eq!(separator(line), None, "{line}");
        }
    }

    #[test]
    fn cells_are_named_by_their_trap() {
        for (text, word) in [
            ("", "empty"),
            ("1;0", "`;`"),
            ("0.5%", "percent"),
            ("0.5 %", "percent"),
            ("\u{2212}0.5", "U+2212"),
            ("0,5", "decimal comma"),
            ("-1,25", "decimal comma"),
            ("o.5", "not a number"),
            ("1,2,3", "not a number"),
        ] {
            assert!(cell(text).contains(word), "{text}: {}", cell(text));
        }
        assert_eq!(cell("1,2,3"), "not a number");
    }
}
