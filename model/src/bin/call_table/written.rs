//! What a written case is made of.

use model::case::Call;
use model::page::{read_page, END_MARK};
use model::table::walk;
use model::typing::CR;
use model::{Answer, ForEntry, Pause, Place, Record};

use crate::gate::{Gate, Numbers};

/// A case: what is lent, and the calls that are made with it, one after the other.
#[derive(Clone, Debug)]
pub struct Written {
    pub name: String,
    pub gate: Gate,
    pub calls: Vec<Numbers>,
    /// Is the table lent to the calls that are made from now on?
    pub lending: bool,
    /// The stop and the column that the documents give each of the calls.
    pub answers: Vec<(u8, u32)>,
}

/// What stands behind the end mark and behind the memory's strings, what an output is filled with, what dead slots hold, and
/// what a table holds past the last line: a call that touches one of them shows it.
const BEHIND: u8 = 171;
const NO_TEXT: u8 = 7;
const UNWRITTEN: u8 = b'.';
const DEAD: Place = Place(999);
const PAST: u16 = 777;

const PAGE: usize = 160;
const MEMORY: usize = 32;
const OUTPUT: usize = 80;

/// The budget of a call that has enough, and the sense byte: bit 5, and bits that no one may see.
pub const ENOUGH: u32 = 60;
const SENSE: u8 = 0b1010_1010;

/// The page of a program: each line is a number and what follows its last digit. Nothing is checked.
pub fn page_of(lines: &[&str]) -> Vec<u8> {
    let mut page = Vec::new();
    for line in lines {
        let text = line.trim_start_matches(|digit: char| digit.is_ascii_digit());
        let number: u16 = line[..line.len() - text.len()].parse().expect("a number");
        page.extend(number.to_be_bytes());
        page.push(text.len() as u8 + 4);
        page.extend(text.bytes());
        page.push(CR);
    }
    page.extend(END_MARK);
    page
}

/// A record with something of everything, that fits the page: variables, flags, stacks that are not empty if the page has
/// a place, and a pause.
fn lived_in(page: &[u8]) -> Record {
    let program = read_page(page).expect("a good page");
    let mut record = Record {
        variables: std::array::from_fn(|at| 7 * at as i16 + 3),
        flags: 5,
        paused: Some(Pause::Start),
        ..Record::default()
    };
    record.variables[25] = -1;
    record.gosubs.places = [DEAD; 8];
    record.dos.places = [DEAD; 8];
    record.fors.entries = [ForEntry {
        variable: 77,
        limit: -2,
        step: 300,
        place: DEAD,
    }; 4];
    if let (Some(first), Some(last)) = (program.steps.first(), program.steps.last()) {
        record.gosubs.push(last.place);
        record.dos.push(first.place);
        record.fors.push(ForEntry {
            variable: 8,
            limit: 20,
            step: 2,
            place: first.place,
        });
        record.paused = Some(Pause::After(first.place));
    }
    record.gosubs.push(Place::IMMEDIATE);
    record
}

/// A program in a page, a lived-in record, a memory with a string at 0 and bytes without a CR from 5 on, and an output.
/// No position is 0. Nothing is typed, and no call is made.
pub fn on(name: &str, program: &[&str]) -> Written {
    let mut page = page_of(program);
    page.resize(page.len().max(PAGE), BEHIND);
    let mut memory = b"MILK\rHAY".to_vec();
    memory.resize(MEMORY, NO_TEXT);
    let gate = Gate {
        record: lived_in(&page),
        page,
        memory,
        input: b"!".to_vec(),
        output: vec![UNWRITTEN; OUTPUT],
        input_position: 1,
        output_position: 2,
        table: Vec::new(),
    };
    Written {
        name: name.to_string(),
        gate,
        calls: Vec::new(),
        lending: false,
        answers: Vec::new(),
    }
}

/// The same with a record as it is before anything was done, but for what dead slots hold.
pub fn fresh(name: &str, program: &[&str]) -> Written {
    on(name, program).with(|gate| {
        gate.record.clear();
        gate.record.flags = 0;
        gate.record.paused = None;
    })
}

impl Written {
    /// Changes anything.
    pub fn with(mut self, change: impl FnOnce(&mut Gate)) -> Written {
        change(&mut self.gate);
        self
    }

    /// Puts these bytes behind the input.
    pub fn input(self, bytes: impl AsRef<[u8]>) -> Written {
        self.with(|gate| gate.input.extend(bytes.as_ref()))
    }

    /// Puts typed lines and replies there, a CR behind each.
    pub fn lines(self, lines: &[&str]) -> Written {
        let lines: String = lines.iter().map(|line| format!("{line}\r")).collect();
        self.input(lines)
    }

    /// Makes the page this long: from its end bytes are taken, or put there.
    pub fn page(self, length: usize) -> Written {
        self.with(|gate| gate.page.resize(length, BEHIND))
    }

    /// Leaves so much room in the output.
    pub fn room(self, room: usize) -> Written {
        self.with(|gate| gate.output.truncate(gate.output_position as usize + room))
    }

    /// Makes a table of so many numbers that describes the page, and lends it from now on.
    pub fn table(self, length: usize) -> Written {
        let case = self.with(|gate| {
            gate.table = walk(&gate.page);
            gate.table.resize(length, PAST);
        });
        case.lending(true)
    }

    /// Lends the table from now on, or does not.
    pub fn lending(mut self, lending: bool) -> Written {
        self.lending = lending;
        self
    }

    /// Has the run paused at the program's start.
    pub fn paused(self) -> Written {
        self.with(|gate| gate.record.paused = Some(Pause::Start))
    }

    /// The sense byte of all the calls.
    pub fn sense(mut self, sense: u8) -> Written {
        self.calls.iter_mut().for_each(|call| call.sense = sense);
        self
    }

    /// The budget of all the calls.
    pub fn budget(mut self, budget: u32) -> Written {
        self.calls.iter_mut().for_each(|call| call.budget = budget);
        self
    }

    fn calls(mut self, call: Call, budget: u32, answer: (u8, u32)) -> Written {
        self.calls.push(Numbers {
            call,
            sense: SENSE,
            budget,
            tabled: self.lending,
        });
        self.answers.push(answer);
        self
    }

    /// Takes a typed line, which stops so.
    pub fn types(self, stop: u8) -> Written {
        self.types_in(ENOUGH, stop)
    }

    pub fn types_in(self, budget: u32, stop: u8) -> Written {
        self.calls(Call::Line, budget, (stop, 0))
    }

    /// Takes a typed line without the table.
    pub fn types_without(self, stop: u8) -> Written {
        self.lending(false).types(stop).lending(true)
    }

    /// Takes a typed line that has no reading, or is over-long, with this column.
    pub fn refused_at(self, column: u32) -> Written {
        self.calls(Call::Line, ENOUGH, (5, column))
    }

    /// Continues the run, which stops so.
    pub fn goes_on(self, stop: u8) -> Written {
        self.goes_on_in(ENOUGH, stop)
    }

    pub fn goes_on_in(self, budget: u32, stop: u8) -> Written {
        self.calls(Call::Continue, budget, (stop, 0))
    }

    /// Saves the rule set, and stops so.
    pub fn saves(self, stop: u8) -> Written {
        self.calls(Call::Save, ENOUGH, (stop, 0))
    }

    /// Loads the input, and stops so.
    pub fn loads(self, stop: u8) -> Written {
        self.calls(Call::Load, ENOUGH, (stop, 0))
    }

    /// The same under a longer name.
    pub fn named(mut self, addition: &str) -> Written {
        self.name += addition;
        self
    }

    /// Each call with the answer that the model gives it.
    pub fn outcomes(&self) -> Vec<(Call, Answer)> {
        let mut gate = self.gate.clone();
        let outcome = |&numbers: &Numbers| (numbers.call, gate.call(numbers));
        self.calls.iter().map(outcome).collect()
    }
}
