//! The lines of a page, one after the other, as its bytes have them.

use std::fmt;

const CR: u8 = 13;
const ERASES: u8 = b'_';
const NUMBER_MOST: u16 = 32_767;
const LINE_MOST: usize = 72;
const PAGE: std::ops::RangeInclusive<usize> = 2..=4096;

/// A line of the page.
#[derive(Clone, Debug, PartialEq, Eq)]
pub struct Line {
    /// Where its record begins.
    pub at: usize,
    pub number: u16,
    pub text: String,
}

impl Line {
    /// The line as it is typed.
    pub fn typed(&self) -> String {
        format!("{}{}", self.number, self.text)
    }
}

/// What is wrong with a page, and at which byte.
#[derive(Clone, Debug, PartialEq, Eq)]
pub struct Fault {
    pub at: usize,
    pub what: String,
}

impl fmt::Display for Fault {
    fn fmt(&self, out: &mut fmt::Formatter) -> fmt::Result {
        write!(out, "at {}: {}", self.at, self.what)
    }
}

fn fault<T>(at: usize, what: impl Into<String>) -> Result<T, Fault> {
    let what = what.into();
    Err(Fault { at, what })
}

/// The lines up to the end mark. Numbers rise, but a number may stand again in the next line.
pub fn lines(page: &[u8]) -> Result<Vec<Line>, Fault> {
    if !PAGE.contains(&page.len()) {
        return fault(
            0,
            format!("a page has 2 to 4,096 bytes, and these are {}", page.len()),
        );
    }
    let (mut lines, mut at) = (Vec::<Line>::new(), 0);
    loop {
        match page[at..] {
            [255, 255, ..] => return Ok(lines),
            [high, low, len, ..] => {
                let line = line(page, at, u16::from_be_bytes([high, low]), len.into())?;
                if let Some(before) = lines.last().filter(|before| before.number > line.number) {
                    return fault(
                        at,
                        format!("line {} stands behind line {}", line.number, before.number),
                    );
                }
                lines.push(line);
                at += usize::from(len);
            }
            _ => return fault(at, "the page ends here, without the end mark 255 255"),
        }
    }
}

fn line(page: &[u8], at: usize, number: u16, len: usize) -> Result<Line, Fault> {
    if number > NUMBER_MOST {
        let what = format!("{number} is no line number: the highest is {NUMBER_MOST}");
        return fault(at, what);
    }
    let Some(record) = page.get(at..at + len).filter(|record| record.len() > 4) else {
        let what = format!("{len} cannot be the length of line {number}");
        return fault(at + 2, what);
    };
    let text = text(record).map_err(|(place, what)| Fault {
        at: at + place,
        what: format!("line {number}: {what}"),
    })?;
    let line = Line { at, number, text };
    match line.typed().len() {
        kept if kept > LINE_MOST => {
            let what = format!("line {number} has {kept} bytes, and {LINE_MOST} are the most");
            fault(at, what)
        }
        _ => Ok(line),
    }
}

/// The text of a record, or what is wrong with it and at which of its bytes.
fn text(record: &[u8]) -> Result<String, (usize, String)> {
    let end = record.len() - 1;
    let text = &record[3..end];
    let is_text = |byte: &u8| (32..127).contains(byte) && *byte != ERASES;
    if let Some(place) = text.iter().position(|byte| !is_text(byte)) {
        return Err((
            3 + place,
            format!("byte {} cannot stand in a line", text[place]),
        ));
    }
    if record[end] != CR {
        return Err((
            end,
            format!("it ends in byte {}, and not in CR (13)", record[end]),
        ));
    }
    match text[0].is_ascii_digit() {
        true => Err((3, "its text begins with a digit".to_string())),
        false => Ok(text.iter().map(|byte| char::from(*byte)).collect()),
    }
}
