//! Tables as people keep them: a first line with the columns' names; `,`, `;` or TAB between fields; quotes; a byte order
//! mark; blank lines. And tables as they are written.

use std::fs;
use std::path::Path;

/// A table that was read.
#[derive(Debug)]
pub struct Sheet {
    name: String,
    columns: Vec<String>,
    rows: Vec<Row>,
}

#[derive(Debug)]
struct Row {
    /// The line of the file on which it begins.
    line: usize,
    fields: Vec<String>,
}

/// A field of a row, under one of the names that its column may have.
#[derive(Clone, Copy)]
pub struct Cell<'a> {
    file: &'a str,
    line: usize,
    column: &'a str,
    text: &'a str,
}

impl Sheet {
    pub fn read(path: &Path) -> Result<Sheet, String> {
        let name = path.display().to_string();
        let bytes = fs::read(path).map_err(|error| format!("{name}: {error}"))?;
        Sheet::of(name, &decoded(&bytes))
    }

    pub fn of(name: impl Into<String>, text: &str) -> Result<Sheet, String> {
        let (name, text) = (name.into(), text.trim_start_matches('\u{feff}'));
        let mut rows = split(text, separator(text)).into_iter();
        let head = rows
            .next()
            .ok_or_else(|| format!("{name}: there is nothing in it"))?;
        let columns: Vec<String> = head.fields.iter().map(|name| name.to_lowercase()).collect();
        for (at, column) in columns.iter().enumerate() {
            if !column.is_empty() && columns[..at].contains(column) {
                return Err(format!(
                    "{name}, line {}: two columns are named {column}",
                    head.line
                ));
            }
        }
        let rows: Vec<Row> = rows.collect();
        let is_longer = |row: &&Row| {
            row.fields
                .iter()
                .skip(columns.len())
                .any(|field| !field.is_empty())
        };
        if let Some(row) = rows.iter().find(is_longer) {
            let (line, fields, names) = (row.line, row.fields.len(), columns.len());
            return Err(format!(
                "{name}, line {line}: {fields} fields, and the first line names {names}"
            ));
        }
        Ok(Sheet {
            name,
            columns,
            rows,
        })
    }

    /// Every row, read by a function that asks for its cells.
    pub fn map<T>(&self, read: impl FnMut(Cells) -> Result<T, String>) -> Result<Vec<T>, String> {
        let cells = |row| Cells { sheet: self, row };
        self.rows.iter().map(cells).map(read).collect()
    }

    /// An error unless there is a column of one of these names.
    pub fn needs(&self, names: &[&str]) -> Result<(), String> {
        match self.column(names) {
            Some(_) => Ok(()),
            None => Err(format!(
                "{}, line 1: there is no column {}; its columns are {}",
                self.name,
                names.join(" or "),
                self.columns.join(", ")
            )),
        }
    }

    fn column(&self, names: &[&str]) -> Option<usize> {
        self.columns
            .iter()
            .position(|column| names.contains(&column.as_str()))
    }
}

/// The cells of one row.
pub struct Cells<'a> {
    sheet: &'a Sheet,
    row: &'a Row,
}

impl<'a> Cells<'a> {
    /// The cell under one of these names, if there is such a column and something stands there.
    pub fn some(&self, names: &[&str]) -> Option<Cell<'a>> {
        let at = self.sheet.column(names)?;
        let text = self.row.fields.get(at).map_or("", String::as_str);
        let cell = self.cell(&self.sheet.columns[at], text);
        (!text.is_empty()).then_some(cell)
    }

    /// The cell under one of these names, empty or not.
    pub fn one(&self, names: &'a [&'a str]) -> Cell<'a> {
        self.some(names).unwrap_or_else(|| self.cell(names[0], ""))
    }

    fn cell(&self, column: &'a str, text: &'a str) -> Cell<'a> {
        Cell {
            file: &self.sheet.name,
            line: self.row.line,
            column,
            text,
        }
    }
}

impl Cell<'_> {
    pub fn text(&self) -> &str {
        self.text
    }

    pub fn line(&self) -> usize {
        self.line
    }

    /// What stands here is not what is allowed.
    pub fn wrong(&self, allowed: impl std::fmt::Display) -> String {
        let Cell {
            file,
            line,
            column,
            text,
        } = self;
        let stands = match text.is_empty() {
            true => "nothing stands there".to_string(),
            false => format!("{text:?} stands there"),
        };
        format!("{file}, line {line}, column {column}: {stands}, and allowed is {allowed}")
    }

    /// A whole number from `low` to `high`.
    pub fn whole(&self, low: i64, high: i64) -> Result<i64, String> {
        let number = self
            .text
            .parse()
            .ok()
            .filter(|number| (low..=high).contains(number));
        number.ok_or_else(|| self.wrong(format_args!("a whole number from {low} to {high}")))
    }

    /// A number with a decimal point or comma, or without, so many times as large and rounded: from `low` to `high`.
    pub fn scaled(&self, scale: i64, low: i64, high: i64) -> Result<i64, String> {
        let number = self.text.replace(',', ".").parse::<f64>().ok();
        let scaled = number.map(|number| (scale as f64 * number).round());
        let scaled = scaled.filter(|number| (low as f64..=high as f64).contains(number));
        let shown = |number| number as f64 / scale as f64;
        scaled.map(|number| number as i64).ok_or_else(|| {
            self.wrong(format_args!(
                "a number from {} to {}",
                shown(low),
                shown(high)
            ))
        })
    }
}

/// The text of a file: UTF-8, or the UTF-16 in which spreadsheets write "Unicode text". What is neither, as a name in some older
/// code, does no harm in a column that is not read.
fn decoded(bytes: &[u8]) -> String {
    let pairs = |number: fn([u8; 2]) -> u16| -> String {
        let pairs = bytes[2..].chunks_exact(2);
        let numbers: Vec<u16> = pairs.map(|pair| number([pair[0], pair[1]])).collect();
        String::from_utf16_lossy(&numbers)
    };
    match bytes {
        [0xff, 0xfe, ..] => pairs(u16::from_le_bytes),
        [0xfe, 0xff, ..] => pairs(u16::from_be_bytes),
        _ => String::from_utf8_lossy(bytes).into_owned(),
    }
}

/// The separator that stands most often in the first line.
fn separator(text: &str) -> char {
    let head = text
        .lines()
        .find(|line| !line.trim().is_empty())
        .unwrap_or("");
    let times = |sign: &char| head.chars().filter(|other| other == sign).count();
    [',', ';', '\t']
        .into_iter()
        .max_by_key(times)
        .filter(|sign| times(sign) > 0)
        .unwrap_or(',')
}

/// The rows of a text that are not blank. A field in quotes may hold separators, line ends and doubled quotes.
fn split(text: &str, separator: char) -> Vec<Row> {
    let (mut rows, mut fields, mut field) = (Vec::new(), Vec::new(), String::new());
    let (mut line, mut began, mut is_quoted) = (1, 1, false);
    let mut signs = text.chars().chain(['\n']).peekable();
    while let Some(sign) = signs.next() {
        match sign {
            '"' if is_quoted && signs.peek() == Some(&'"') => field.extend(signs.next()),
            '"' if is_quoted || field.trim().is_empty() => is_quoted = !is_quoted,
            '\n' if !is_quoted || signs.peek().is_none() => {
                fields.push(std::mem::take(&mut field).trim().to_string());
                let fields = std::mem::take(&mut fields);
                if fields.iter().any(|field| !field.is_empty()) {
                    rows.push(Row {
                        line: began,
                        fields,
                    });
                }
                began = line + 1;
            }
            sign if sign == separator && !is_quoted => {
                fields.push(std::mem::take(&mut field).trim().to_string())
            }
            sign => field.push(sign),
        }
        line += usize::from(sign == '\n');
    }
    rows
}

/// A row as it is written: a field in quotes where it has to be.
pub fn written(fields: &[String]) -> String {
    let field = |field: &String| match field.contains([',', '"', '\r', '\n']) {
        true => format!("\"{}\"", field.replace('"', "\"\"")),
        false => field.clone(),
    };
    let fields: Vec<String> = fields.iter().map(field).collect();
    fields.join(",") + "\n"
}

#[cfg(test)]
mod tests {
    use super::*;

    fn cells(text: &str) -> Vec<Vec<String>> {
        let sheet = Sheet::of("t.csv", text).expect("a table");
        sheet.rows.iter().map(|row| row.fields.clone()).collect()
    }

    #[test]
    fn separators_marks_quotes_and_blank_lines() {
        let wanted = [["7", "1,9"], ["8", "2.0"]];
        for text in [
            "cow;flow\n7;1,9\n8;2.0\n",
            "\u{feff}Cow\tFlow\r\n7\t1,9\r\n\r\n8\t2.0",
            "cow , flow\n7,\"1,9\"\n\n,\n\"8\" , 2.0\n\n",
        ] {
            assert_eq!(cells(text), wanted);
        }
        assert_eq!(
            cells("a,b\n\"x\ny\",\"say \"\"moo\"\"\"\n"),
            [["x\ny", "say \"moo\""]]
        );
    }

    #[test]
    fn files_in_other_codes() {
        let text = "cow\tname\n7\tB\u{e4}rbel\n";
        let with_mark: Vec<u16> = format!("\u{feff}{text}").encode_utf16().collect();
        let little: Vec<u8> = with_mark
            .iter()
            .flat_map(|number| number.to_le_bytes())
            .collect();
        let big: Vec<u8> = with_mark
            .iter()
            .flat_map(|number| number.to_be_bytes())
            .collect();
        assert_eq!(
            (decoded(&little), decoded(&big)),
            (text.to_string(), text.to_string())
        );
        assert_eq!(decoded(text.as_bytes()), text);
        assert_eq!(cells(&decoded(b"cow,name\n7,B\xe4rbel\n"))[0][0], "7");
    }

    #[test]
    fn errors_say_where_what_and_what_is_allowed() {
        let sheet = Sheet::of("t.csv", "cow;flow\n\n7;fast\n8\n").expect("a table");
        let flow = |cells: Cells| cells.one(&["flow"]).scaled(10, 1, 255);
        assert_eq!(
            sheet.map(flow).expect_err("no number"),
            "t.csv, line 3, column flow: \"fast\" stands there, and allowed is a number from 0.1 to 25.5"
        );
        let sheet = Sheet::of("t.csv", "cow;flow\n\"7\n\";1,9\n8\n").expect("a table");
        assert_eq!(
            sheet.map(flow).expect_err("nothing there"),
            "t.csv, line 4, column flow: nothing stands there, and allowed is a number from 0.1 to 25.5"
        );
        assert_eq!(
            sheet
                .needs(&["minute", "time"])
                .expect_err("no such column"),
            "t.csv, line 1: there is no column minute or time; its columns are cow, flow"
        );
        let long = Sheet::of("t.csv", "cow\n7\n8,9\n").expect_err("longer than the first line");
        assert_eq!(long, "t.csv, line 3: 2 fields, and the first line names 1");
        let twice = Sheet::of("t.csv", "cow,COW\n").expect_err("one name twice");
        assert_eq!(twice, "t.csv, line 1: two columns are named cow");
    }

    #[test]
    fn what_is_written_can_be_read() {
        let fields = ["WAITS 3, OR 4", "say \"moo\"", "two\r\nlines", ""].map(String::from);
        let text = written(&["a", "b", "c", "d"].map(String::from)) + &written(&fields);
        assert_eq!(cells(&text), [fields]);
    }
}
