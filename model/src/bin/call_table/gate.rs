//! All that the calls of a case are lent, kept from one to the next, and the row of what a call leaves.

use std::fmt::Write as _;

use model::case::Call;
use model::{continue_run, load, save, take_line};
use model::{Answer, ForStack, Lent, Pause, Place, PlaceStack, Record};

#[derive(Clone, Debug, Default, PartialEq, Eq)]
pub struct Gate {
    pub page: Vec<u8>,
    pub memory: Vec<u8>,
    pub input: Vec<u8>,
    pub output: Vec<u8>,
    pub input_position: u32,
    pub output_position: u32,
    pub record: Record,
    pub table: Vec<u16>,
}

/// Which call is made, with its sense byte and budget, and whether the table is lent to it.
#[derive(Clone, Copy, Debug, PartialEq, Eq)]
pub struct Numbers {
    pub call: Call,
    pub sense: u8,
    pub budget: u32,
    pub tabled: bool,
}

/// How many of the bytes that a call wrote a row has, and of the table's numbers.
const SHOWN: usize = 40;
const TABLE_SHOWN: usize = 12;

impl Gate {
    /// Makes a call, and takes over the positions that it leaves.
    pub fn call(&mut self, numbers: Numbers) -> Answer {
        let lent = Lent {
            page: &mut self.page,
            memory: &mut self.memory,
            input: &self.input,
            output: &mut self.output,
            input_position: self.input_position,
            output_position: self.output_position,
            sense: numbers.sense,
            budget: numbers.budget,
            table: numbers.tabled.then_some(&mut self.table),
        };
        let answer = match numbers.call {
            Call::Line => take_line(&mut self.record, lent),
            Call::Continue => continue_run(&mut self.record, lent),
            Call::Save => save(&self.record, lent),
            Call::Load => load(&mut self.record, lent, &self.input),
        };
        self.input_position = answer.input_position;
        self.output_position = answer.output_position;
        answer
    }

    /// The row of a call that wrote from this position on.
    pub fn row(&self, answer: &Answer, from: u32) -> String {
        let record = &self.record;
        let line = answer.line.map_or("-".to_string(), |line| line.to_string());
        let mut row = format!("{} {line}", answer.stop.number());
        show(&mut row, [answer.steps, answer.column]);
        show(&mut row, [answer.input_position, answer.output_position]);
        show(&mut row, [u16::from(record.flags), pause(record.paused)]);
        places(&mut row, &record.gosubs);
        places(&mut row, &record.dos);
        fors(&mut row, &record.fors);
        row += " /";
        show(&mut row, record.variables.map(|value| value as u16));
        row += " /";
        let lent = [&self.page, &self.memory, &self.output];
        show(&mut row, lent.map(|bytes| sum(bytes.iter().copied())));
        row += " /";
        show(&mut row, self.written(from, answer.output_position));
        row += " /";
        let table = self.table.iter().flat_map(|number| number.to_be_bytes());
        show(&mut row, [sum(table)]);
        show(&mut row, self.table.iter().take(TABLE_SHOWN));
        row.push('\n');
        row
    }

    fn written(&self, from: u32, to: u32) -> impl Iterator<Item = &u8> {
        let written = self.output.get(from as usize..to as usize);
        written.unwrap_or_default().iter().take(SHOWN)
    }
}

/// The number of a pause, which a place above 65,533 has none of.
pub fn pause(pause: Option<Pause>) -> u16 {
    match pause {
        None => 0,
        Some(Pause::Start) => 1,
        Some(Pause::After(place)) => place.0 + 2,
    }
}

pub fn pause_of(number: u16) -> Option<Pause> {
    match number {
        0 => None,
        1 => Some(Pause::Start),
        _ => Some(Pause::After(Place(number - 2))),
    }
}

/// The bytes as one number, the first byte highest: what is left of it by 16,777,213, a prime.
fn sum(bytes: impl Iterator<Item = u8>) -> u32 {
    bytes.fold(0, |sum, byte| (sum * 256 + u32::from(byte)) % 16_777_213)
}

/// Adds numbers, a space before each.
fn show<T: std::fmt::Display>(row: &mut String, numbers: impl IntoIterator<Item = T>) {
    for number in numbers {
        let _ = write!(row, " {number}");
    }
}

fn places(row: &mut String, stack: &PlaceStack) {
    *row += " /";
    show(row, [stack.depth]);
    show(row, stack.places.map(|place| place.0));
}

fn fors(row: &mut String, stack: &ForStack) {
    *row += " /";
    show(row, [stack.depth]);
    for entry in &stack.entries {
        let (limit, step) = (entry.limit as u16, entry.step as u16);
        show(row, [entry.variable.into(), limit, step, entry.place.0]);
    }
}
