//! Comma-separated text taken apart into lines of cells; what the cells mean is no matter here.

use std::fmt;

use csv::{ReaderBuilder, Terminator, Trim};

use super::traps;

/// A cell of a file, both counted from 1.
#[derive(Clone, Copy, Debug, PartialEq, Eq)]
pub struct Place {
    pub line: usize,
    pub column: usize,
}

#[derive(Clone, Debug, PartialEq, Eq)]
pub struct Fault {
    pub place: Place,
    pub what: String,
}

impl Fault {
    pub fn new(line: usize, column: usize, what: impl Into<String>) -> Self {
        Self {
            place: Place { line, column },
            what: what.into(),
        }
    }
}

impl fmt::Display for Fault {
    fn fmt(&self, out: &mut fmt::Formatter) -> fmt::Result {
        let Place { line, column } = self.place;
        write!(out, "line {line} column {column}: {}", self.what)
    }
}

/// Blanks around a cell do not belong to it.
const BLANKS: [char; 2] = [' ', '\t'];

/// What stands for bytes that are no UTF-8.
const REPLACED: char = '\u{fffd}';

/// The cells of every line; line i of the file is at i − 1, since only the last line may be blank.
pub fn lines(bytes: &[u8]) -> Result<Vec<Vec<String>>, Fault> {
    if let Some(what) = traps::encoding(bytes) {
        return Err(Fault::new(1, 1, what));
    }
    let text = String::from_utf8_lossy(bytes);
    // Spreadsheets put this mark in front of UTF-8.
    let text = text.strip_prefix('\u{feff}').unwrap_or(&text);
    let mut lines: Vec<&str> = text.split('\n').map(without_return).collect();
    // What follows the last line's end is no line; before it one blank line is allowed.
    if lines.last() == Some(&"") {
        lines.pop();
    }
    if lines.last().is_some_and(|line| is_blank(line)) {
        lines.pop();
    }
    if let Some(what) = lines.first().and_then(|first| traps::separator(first)) {
        return Err(Fault::new(1, 1, what));
    }
    let numbered = lines.into_iter().zip(1..);
    numbered.map(|(line, number)| cells(line, number)).collect()
}

fn without_return(line: &str) -> &str {
    line.strip_suffix('\r').unwrap_or(line)
}

fn is_blank(line: &str) -> bool {
    line.trim_matches(BLANKS).is_empty()
}

/// One line at a time: a quoted cell that went on in the next line would be a quote that somebody forgot.
fn cells(line: &str, number: usize) -> Result<Vec<String>, Fault> {
    if is_blank(line) {
        return Err(Fault::new(number, 1, "a blank line before the last"));
    }
    check_quotes(line).map_err(|(column, what)| Fault::new(number, column, what))?;
    let mut reader = ReaderBuilder::new()
        .has_headers(false)
        .trim(Trim::All)
        // A return inside a line would else end the record, and what follows it would be lost.
        .terminator(Terminator::Any(b'\n'))
        .from_reader(line.as_bytes());
    let record = reader.records().next();
    let record = record.transpose().map_err(|error| {
        // The text is UTF-8 and a line of any width is taken, so the library has nothing to object to.
        Fault::new(number, 1, error.to_string())
    })?;
    let found: Vec<String> = record.iter().flatten().map(String::from).collect();
    let unprintable = |cell: &String| cell.chars().any(|c| c.is_control() || c == REPLACED);
    match found.iter().position(unprintable) {
        None => Ok(found),
        Some(at) => {
            let what = "a character that is not printable UTF-8 text";
            Err(Fault::new(number, at + 1, what))
        }
    }
}

/// The library takes any quotes for something; here a quote opens a cell, is doubled in it, or closes it.
fn check_quotes(line: &str) -> Result<(), (usize, &'static str)> {
    let mut column = 1;
    let mut rest = line;
    loop {
        let after = match rest.strip_prefix('"') {
            Some(inside) => after_quoted(inside).map_err(|what| (column, what))?,
            None => &rest[rest.find(',').unwrap_or(rest.len())..],
        };
        let cell = &rest[..rest.len() - after.len()];
        if !cell.starts_with('"') && cell.contains('"') {
            return Err((column, "a quote inside a cell that does not start with one"));
        }
        match after.strip_prefix(',') {
            Some(next) => rest = next,
            None => return Ok(()),
        }
        column += 1;
    }
}

/// From the comma after a quoted cell on, or nothing at the line's end; `inside` starts after the opening quote.
fn after_quoted(inside: &str) -> Result<&str, &'static str> {
    let mut rest = inside;
    loop {
        let (_, after) = rest
            .split_once('"')
            .ok_or("a quote that is not closed in its line")?;
        match after.strip_prefix('"') {
            Some(more) => rest = more,
            None => {
                let after = after.trim_start_matches(BLANKS);
                return match after.is_empty() || after.starts_with(',') {
                    true => Ok(after),
                    false => Err("text after a closing quote"),
                };
            }
        }
    }
}

#[cfg(test)]
mod tests {
    use super::*;

    fn read(text: &str) -> Vec<Vec<String>> {
        lines(text.as_bytes()).unwrap()
    }

    fn fault(bytes: &[u8]) -> (usize, usize) {
        let place = lines(bytes).unwrap_err().place;
        (place.line, place.column)
    }

    #[test]
    fn both_line_ends_and_one_blank_last_line_are_taken() {
        let cells = [["a", "1"], ["b", "2"]];
        for text in [
            "a,1\nb,2",
            "a,1\nb,2\n",
            "a,1\r\nb,2\r\n",
            "a,1\nb,2\n\n",
            "a,1\r\nb,2\r\n \t\r\n",
            "\u{feff}a, 1 \n\tb,2\n",
        ] {
            assert_eq!(read(text), cells, "{text:?}");
        }
    }

    #[test]
    fn an_empty_file_has_no_lines() {
        for text in ["", "\n", "\r\n", "\u{feff}"] {
            assert!(read(text).is_empty(), "{text:?}");
        }
    }

    #[test]
    fn quotes_keep_commas_and_doubled_quotes() {
        let cells = [["a,\"b\"", "1", "", "c"]];
        assert_eq!(read("\"a,\"\"b\"\"\" , 1,\"\",\"c\""), cells);
        assert_eq!(read("\" a,\"\"b\"\"\",1,, c \t"), cells);
    }

    #[test]
    fn empty_cells_are_cells() {
        assert_eq!(read("a,,\n"), [["a", "", ""]]);
        assert_eq!(read("\"\"\n"), [[""]]);
    }

    #[test]
    fn faults_tell_line_and_column() {
        assert_eq!(fault(b"a,1\n\nb,2\n"), (2, 1));
        assert_eq!(fault(b"a,1\nb,2\n\n\n"), (3, 1));
        assert_eq!(fault(b"a,1\nb,\"2\nc,3\n"), (2, 2));
        assert_eq!(fault(b"a,1\nb,\"2"), (2, 2));
        assert_eq!(fault(b"a,1\n\"b\"x,2\n"), (2, 1));
        assert_eq!(fault(b"a,1,2\"3\n"), (1, 3));
        assert_eq!(fault(b"a,1, \"3\"\n"), (1, 3));
        assert_eq!(fault(b"\"a\"\"\",\"b\"\"\",\"c\n"), (1, 3));
    }

    #[test]
    fn what_is_no_printable_text_is_a_fault() {
        assert_eq!(fault(b"a,1\n\"b,\",\xff\n"), (2, 2));
        assert_eq!(fault(b"a,1\nb\x1b,2\n"), (2, 1));
        assert_eq!(fault(b"a,1\rb,2\r"), (1, 2));
    }

    #[test]
    fn a_file_of_another_kind_is_named() {
        assert!(lines(b"\xff\xfea\0,\0")
            .unwrap_err()
            .what
            .contains("UTF-16"));
        assert!(lines(b"serial;low\nA;0,1\n")
            .unwrap_err()
            .what
            .contains("`;`"));
    }
}
