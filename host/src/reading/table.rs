//! Rows of readings from a CSV file, with the serial numbers of the meters if the file has them.

use std::collections::HashMap;

use super::cells::{self, Fault};
use super::column::{self, Asked, Holds};
use super::decimal::{self, Words};
use super::source::Source;
use super::traps;
use crate::failure::Failure;

pub const MAX_ROWS: usize = 4_096;
pub const MAX_READINGS: usize = 64;

/// How a file is to be read where its text does not say.
#[derive(Clone, Copy, Debug)]
pub struct Rules {
    /// What the caller says that the first column holds.
    pub first_column: Asked,
    /// The options by which a caller says so: that it holds names, and that it holds readings.
    pub options: [&'static str; 2],
    pub words: Words,
}

#[derive(Clone, Debug, PartialEq)]
pub struct Table {
    pub rows: usize,
    /// Readings in a row; 0 only where the file is empty.
    pub readings: usize,
    /// Row after row; none where the rows were not read.
    pub values: Vec<f32>,
    pub serials: Option<Vec<String>>,
    /// What the header calls each reading, where there is a header.
    pub names: Option<Vec<String>>,
}

impl Table {
    pub fn read(bytes: &[u8], rules: Rules) -> Result<Self, Fault> {
        let lines = cells::lines(bytes)?;
        let Some(first) = lines.first() else {
            return Ok(Self::unread(0, 0));
        };
        check_last_column(&lines)?;
        let header = is_header(first);
        let rows = &lines[header as usize..];
        let with_serials = with_serials(first, rows, header, rules)?;
        check_shape(&lines, header, with_serials)?;

        let mut values = Vec::new();
        for (row, line) in rows.iter().zip(1 + header as usize..) {
            read_row(row, line, with_serials, rules, &mut values)?;
        }
        let serials = with_serials
            .then(|| read_serials(rows, header))
            .transpose()?;
        Ok(Self {
            rows: rows.len(),
            readings: first.len() - with_serials as usize,
            values,
            serials,
            names: header.then(|| first[with_serials as usize..].to_vec()),
        })
    }

    /// The table of a file, whose name stands before every fault.
    pub fn of(source: &Source, rules: Rules) -> Result<Self, Failure> {
        Self::read(&source.read()?, rules).map_err(|fault| Failure::input(source, fault))
    }

    /// Rows of which no more is known than how many there are, and of how many readings.
    pub fn unread(rows: usize, readings: usize) -> Self {
        Self {
            rows,
            readings,
            values: Vec::new(),
            serials: None,
            names: None,
        }
    }

    /// The readings of a row that the file has.
    pub fn row(&self, row: usize) -> &[f32] {
        &self.values[row * self.readings..][..self.readings]
    }

    pub fn serial(&self, row: usize) -> Option<&str> {
        let serials = self.serials.as_ref()?;
        Some(&serials[row])
    }

    /// What a row is called: its serial, or its number from 0 as in the listing.
    pub fn name(&self, row: usize) -> String {
        match self.serial(row) {
            Some(serial) => printed(serial),
            None => row.to_string(),
        }
    }

    /// A fault found later in a reading that was read well.
    pub fn fault(&self, row: usize, reading: usize, what: String) -> Fault {
        let line = 1 + self.names.is_some() as usize + row;
        let column = 1 + self.serials.is_some() as usize + reading;
        Fault::new(line, column, what)
    }

    /// How the file was understood, so that nobody loses a row to a header unseen.
    pub fn told(&self) -> String {
        let header = match self.names {
            Some(_) => "a header",
            None => "no header",
        };
        let serials = match &self.serials {
            None => "no serial numbers".to_string(),
            Some(serials) => match serials.first() {
                None => "serial numbers".to_string(),
                Some(first) => format!("serial numbers from {}", printed(first)),
            },
        };
        format!(
            "{header}, {serials}, {} rows of {} readings",
            self.rows, self.readings
        )
    }
}

/// In quotes, as in the file, where the serial could be taken for two.
pub fn printed(serial: &str) -> String {
    let parts = |character: char| character.is_whitespace() || ",:\"".contains(character);
    if serial.contains(parts) {
        format!("\"{}\"", serial.replace('"', "\"\""))
    } else {
        serial.to_string()
    }
}

/// Beside a name of serial numbers in front, only names throughout: a first row with one good reading is no header.
fn is_header(first: &[String]) -> bool {
    let is_name = |cell: &String| !cell.is_empty() && !decimal::is_number(cell);
    column::is_serial_name(&first[0]) || first.iter().all(is_name)
}

/// Whether the first column holds serial numbers; what could be either is asked back, with its first cells.
fn with_serials(
    first: &[String],
    rows: &[Vec<String>],
    header: bool,
    rules: Rules,
) -> Result<bool, Fault> {
    match rules.first_column {
        Asked::Serials => return Ok(true),
        Asked::Readings => return Ok(false),
        Asked::Nothing => {}
    }
    if header && column::is_serial_name(&first[0]) {
        return Ok(true);
    }
    let cells: Vec<&str> = rows.iter().map(|row| row[0].as_str()).collect();
    // A column alone holds readings, since without them there is nothing to group.
    match column::told_by_cells(&cells, header) {
        Holds::Readings => Ok(false),
        Holds::Serials => Ok(true),
        Holds::Unclear | Holds::Headed if first.len() == 1 => Ok(false),
        Holds::Unclear => Err(unclear(&cells, header, rules)),
        Holds::Headed => {
            let what = format!(
                "`{}` stands over whole numbers; a header of serial numbers is called `serial`, a header of readings has no number in it",
                cells[0]
            );
            Err(Fault::new(1, 1, what))
        }
    }
}

fn unclear(cells: &[&str], header: bool, rules: Rules) -> Fault {
    let shown: Vec<String> = cells.iter().take(3).map(|c| format!("`{c}`")).collect();
    let more = if cells.len() > 3 { " .." } else { "" };
    let [names, readings] = rules.options;
    let what = format!(
        "{}{more} could be names or readings; give {names} if they are serial numbers or names, {readings} if they are readings",
        shown.join(" ")
    );
    Fault::new(1 + header as usize, 1, what)
}

/// A column that nobody sees in a spreadsheet would make every row one reading too long.
fn check_last_column(lines: &[Vec<String>]) -> Result<(), Fault> {
    let width = lines[0].len();
    let is_empty = |cells: &Vec<String>| cells.len() == width && cells[width - 1].is_empty();
    match width > 1 && lines.iter().all(is_empty) {
        true => Err(Fault::new(1, width, traps::EMPTY_COLUMN)),
        false => Ok(()),
    }
}

fn check_shape(lines: &[Vec<String>], header: bool, with_serials: bool) -> Result<(), Fault> {
    let width = lines[0].len();
    let before = with_serials as usize;
    if width == before {
        return Err(Fault::new(1, width + 1, "no reading beside the serial"));
    }
    if width - before > MAX_READINGS {
        let what = format!("more than {MAX_READINGS} readings in a row");
        return Err(Fault::new(1, before + MAX_READINGS + 1, what));
    }
    for (cells, line) in lines.iter().zip(1..) {
        if cells.len() != width {
            let column = cells.len().min(width) + 1;
            let what = format!("{} cells where line 1 has {width}", cells.len());
            return Err(Fault::new(line, column, what));
        }
    }
    if lines.len() - header as usize > MAX_ROWS {
        let what = format!("more than {MAX_ROWS} rows");
        return Err(Fault::new(MAX_ROWS + header as usize + 1, 1, what));
    }
    Ok(())
}

/// Puts the readings of one row behind those before it.
fn read_row(
    row: &[String],
    line: usize,
    with_serials: bool,
    rules: Rules,
    values: &mut Vec<f32>,
) -> Result<(), Fault> {
    for (cell, column) in row.iter().zip(1..).skip(with_serials as usize) {
        let value = decimal::float(cell, rules.words).map_err(|what| {
            let hint = match column == 1 && rules.first_column == Asked::Nothing {
                true => format!("; {} if this column holds names", rules.options[0]),
                false => String::new(),
            };
            Fault::new(line, column, format!("`{cell}` is {what}{hint}"))
        })?;
        values.push(value);
    }
    Ok(())
}

/// Each serial once: two meters under one serial would get one curve twice.
fn read_serials(rows: &[Vec<String>], header: bool) -> Result<Vec<String>, Fault> {
    let mut lines: HashMap<&str, usize> = HashMap::new();
    for (row, line) in rows.iter().zip(1 + header as usize..) {
        let serial = row[0].as_str();
        if serial.is_empty() {
            return Err(Fault::new(line, 1, "an empty serial"));
        }
        if let Some(before) = lines.insert(serial, line) {
            let what = format!("serial `{serial}` stands on line {before} already");
            return Err(Fault::new(line, 1, what));
        }
    }
    Ok(rows.iter().map(|row| row[0].clone()).collect())
}

#[cfg(test)]
pub mod tests {
    use super::*;

    /// Rows of so many readings, without names or serials.
    pub fn table(readings: usize, values: &[f32]) -> Table {
        Table {
            rows: values.len() / readings,
            readings,
            values: values.to_vec(),
            serials: None,
            names: None,
        }
    }

    const PLAIN: Rules = Rules {
        first_column: Asked::Nothing,
        options: ["--serial-column", "--no-serials"],
        words: Words::NotTaken,
    };

    fn asked(first_column: Asked) -> Rules {
        Rules {
            first_column,
            ..PLAIN
        }
    }

    fn read(text: &str) -> Table {
        Table::read(text.as_bytes(), PLAIN).unwrap()
    }

    fn fault(text: &str) -> (usize, usize, String) {
        let fault = Table::read(text.as_bytes(), PLAIN).unwrap_err();
        (fault.place.line, fault.place.column, fault.what)
    }

    fn place(text: &str) -> (usize, usize) {
        let (line, column, _) = fault(text);
        (line, column)
    }

    #[test]
    fn numbers_alone_are_readings() {
        let table = read("1.5,2\n3,4\n");
        assert_eq!((table.rows, table.readings), (2, 2));
        assert_eq!(table.values, [1.5, 2.0, 3.0, 4.0]);
        assert_eq!(table.row(1), [3.0, 4.0]);
        assert_eq!((&table.serials, &table.names), (&None, &None));
        assert_eq!(table.name(1), "1");
    }

    #[test]
    fn a_column_of_other_texts_is_serials() {
        let table = read("A1,2\nA2,4\n");
        assert_eq!((table.readings, &table.names), (1, &None));
        assert_eq!(table.serials.unwrap(), ["A1", "A2"]);
    }

    #[test]
    fn a_header_called_serial_makes_numbers_serials() {
        for name in ["SERIAL", "Meter No", "id"] {
            let table = read(&format!("{name},5,10\n1001,0.1,0.2\n1002,0.3,0.4\n"));
            assert_eq!(table.serials.unwrap(), ["1001", "1002"]);
            assert_eq!(table.values, [0.1, 0.2, 0.3, 0.4]);
            assert_eq!(table.names.unwrap(), ["5", "10"]);
        }
    }

    #[test]
    fn whole_numbers_in_front_are_asked_back() {
        for text in [
            "1001,0.1\n1002,0.2\n1003,0.1\n1004,0.3\n",
            "Nr,low\n1001,0.1\n1002,0.2\n1003,0.1\n1004,0.3\n",
        ] {
            let (line, column, what) = fault(text);
            assert_eq!((line, column), (1 + text.starts_with('N') as usize, 1));
            for word in ["`1001` `1002` `1003` ..", "--serial-column", "--no-serials"] {
                assert!(what.contains(word), "{what}");
            }
        }
        assert_eq!(place("Nr,5,10\n1001,0.1,0.2\n1002,0.3,0.4\n"), (1, 1));
        assert_eq!(place("5,0.1\n"), (1, 1));
    }

    #[test]
    fn decimals_repeats_and_a_column_alone_are_readings() {
        for text in ["1.5,2\n2,4\n", "3,1\n3,2\n", "-1,1\n2,2\n", "0\n1\n10\n"] {
            assert_eq!(read(text).serials, None, "{text}");
        }
    }

    #[test]
    fn the_caller_says_what_the_first_column_holds() {
        let text = b"1001,0.1\n1002,0.2\n";
        let table = Table::read(text, asked(Asked::Serials)).unwrap();
        assert_eq!(table.serials.unwrap(), ["1001", "1002"]);
        let table = Table::read(text, asked(Asked::Readings)).unwrap();
        assert_eq!(table.values, [1001.0, 0.1, 1002.0, 0.2]);
        let table = Table::read(b"Meter,low\n1001,0.1\n", asked(Asked::Readings)).unwrap();
        assert_eq!((table.rows, table.values), (1, vec![1001.0, 0.1]));
    }

    #[test]
    fn a_header_of_names_is_left_out() {
        let table = read("low,high\n1.5,2\n");
        assert_eq!((table.rows, table.serials), (1, None));
        assert_eq!(table.names.unwrap(), ["low", "high"]);
        let named = read("kind,low\nA1,2\n");
        assert_eq!(named.serials.unwrap(), ["A1"]);
        assert_eq!(named.names.unwrap(), ["low"]);
    }

    #[test]
    fn a_first_row_with_a_bad_reading_is_no_header() {
        assert_eq!(place("A1,x,2\nA2,1,2\n"), (1, 2));
        assert_eq!(place("A1,,\nA2,1,2\n"), (1, 2));
        assert_eq!(place("A1,nan,inf\nA2,1,2\n"), (1, 2));
    }

    #[test]
    fn one_odd_first_cell_makes_no_serial_column() {
        let (line, column, what) = fault("0.1,2\no.1,2\n0.3,2\n");
        assert_eq!((line, column), (2, 1));
        assert!(what.contains("--serial-column"), "{what}");
    }

    #[test]
    fn a_file_may_have_no_rows() {
        let empty = read("");
        assert_eq!((empty.rows, empty.readings), (0, 0));
        let header = read("serial,low,high\n");
        assert_eq!((header.rows, header.readings), (0, 2));
        assert_eq!(header.serials, Some(vec![]));
    }

    #[test]
    fn rows_have_as_many_cells_as_the_first_line() {
        assert_eq!(place("1.5,2\n3\n"), (2, 2));
        assert_eq!(place("1.5,2\n3,4,5\n"), (2, 3));
        assert_eq!(place("serial,low\nA1,1,2\n"), (2, 3));
        assert_eq!(place("serial\nA1\n"), (1, 2));
    }

    #[test]
    fn readings_must_be_finite() {
        assert_eq!(place("1.5,2\n3,nan\n"), (2, 2));
        assert_eq!(place("1,2\ninf,4\n"), (2, 1));
        assert_eq!(place("serial,low\nA1,1e39\n"), (2, 2));
        assert_eq!(place("1.5,2\n3,\n"), (2, 2));
    }

    #[test]
    fn words_are_taken_where_the_rules_say_so() {
        let rules = Rules {
            words: Words::Taken,
            ..PLAIN
        };
        let table = Table::read(b"nan,2\n", rules).unwrap();
        assert!(table.values[0].is_nan());
    }

    #[test]
    fn a_serial_is_not_empty_and_stands_once() {
        let (line, column, what) = fault("serial,low\nA1,1\nA2,1\n\"A1\",2\n");
        assert_eq!((line, column), (4, 1));
        assert!(what.contains("line 2"), "{what}");
        assert_eq!(place("serial,low\nA1,1\n,1\n"), (3, 1));
    }

    #[test]
    fn rows_and_readings_have_their_most() {
        let wide = |cells: usize| vec!["0.5"; cells].join(",");
        assert_eq!(read(&wide(64)).readings, 64);
        assert_eq!(place(&wide(65)), (1, 65));
        assert_eq!(place(&format!("A1,{}", wide(65))), (1, 66));
        assert_eq!(read(&"1\n".repeat(4_096)).rows, 4_096);
        assert_eq!(place(&"1\n".repeat(4_097)), (4_097, 1));
        assert_eq!(place(&format!("low\n{}", "1\n".repeat(4_097))), (4_098, 1));
    }

    #[test]
    fn a_later_fault_finds_its_cell() {
        let place = read("serial,low,high\nA1,1,2\n")
            .fault(0, 1, String::new())
            .place;
        assert_eq!((place.line, place.column), (2, 3));
        let place = read("1.5,2\n").fault(0, 0, String::new()).place;
        assert_eq!((place.line, place.column), (1, 1));
    }

    #[test]
    fn a_serial_that_could_be_two_is_printed_in_quotes() {
        let table = read("serial,low\n\"A \"\"1\"\"\",1\nA-2,1\n");
        assert_eq!(table.name(0), "\"A \"\"1\"\"\"");
        assert_eq!(table.name(1), "A-2");
    }

    #[test]
    fn an_empty_last_column_is_named() {
        let (line, column, what) = fault("serial,low,\nA,1,\nB,2,\n");
        assert_eq!((line, column), (1, 3));
        assert!(what.contains("delete"), "{what}");
        let (line, column, what) = fault("serial,low,high\nA,1,\nB,2,\n");
        assert_eq!((line, column), (2, 3));
        assert!(what.contains("empty cell"), "{what}");
    }

    #[test]
    fn it_is_told_how_the_file_was_understood() {
        let told = read("serial,low\nA 1,1\nB,2\n").told();
        assert_eq!(
            told,
            "a header, serial numbers from \"A 1\", 2 rows of 1 readings"
        );
        let told = read("0.5,2\n").told();
        assert_eq!(told, "no header, no serial numbers, 1 rows of 2 readings");
    }
}
