//! The two calls of the controller that type and run.

use crate::column::column;
use crate::line::{read_line, Command, LineNumber, TypedLine};
use crate::machine::{Ending, Flow, Machine};
use crate::page::{delete, read_page, store, Program, END_MARK};
use crate::record::{Place, Record};
use crate::stop::Stop;
use crate::table::{describes, refill, TABLE_LEAST};
use crate::tree::{StatementId, Tree};
use crate::typing::{gather, CR, LF};

/// What a call is lent beside the session record.
pub struct Lent<'a> {
    pub page: &'a mut [u8],
    pub memory: &'a mut [u8],
    pub input: &'a [u8],
    pub output: &'a mut [u8],
    pub input_position: u32,
    pub output_position: u32,
    pub sense: u8,
    pub budget: u32,
    /// The table of line places, where one is lent.
    pub table: Option<&'a mut [u16]>,
}

/// What a call answers.
#[derive(Clone, Copy, Debug, PartialEq, Eq)]
pub struct Answer {
    pub stop: Stop,
    pub line: Option<u16>,
    pub steps: u32,
    /// How far a line without a reading could have gone on to one; 0 where the
    /// stop is another.
    pub column: u32,
    pub input_position: u32,
    pub output_position: u32,
}

/// Takes one typed line from the input and does what it says.
pub fn take_line(record: &mut Record, mut lent: Lent) -> Answer {
    let program = match checked(record, &lent) {
        Ok(program) => program,
        Err(stop) => return lent.answer(Ending::plain(stop, 0)),
    };
    let Some(gathered) = gather(lent.input, lent.input_position as usize) else {
        return lent.answer(Ending::plain(Stop::NoCr, 0));
    };
    lent.input_position = gathered.after as u32;
    record.paused = None;
    let mut tree = Tree::default();
    let line = match gathered.over_long {
        true => None,
        false => read_line(&mut tree, gathered.kept()),
    };
    let ending = match line {
        None => return lent.no_reading(column(&gathered)),
        Some(TypedLine::Blank) => Ending::plain(Stop::Done, 0),
        Some(TypedLine::Delete(number)) => lent.delete(record, &program, number),
        Some(TypedLine::Store(number, text)) => lent.store(record, &program, number, text),
        Some(TypedLine::Command(command)) => lent.command(record, &program, command),
        Some(TypedLine::Statement(id)) => lent.immediate(record, &program, &tree, id),
    };
    lent.answer(ending)
}

/// Goes on with a paused run.
pub fn continue_run(record: &mut Record, mut lent: Lent) -> Answer {
    let program = match checked(record, &lent) {
        Ok(program) => program,
        Err(stop) => return lent.answer(Ending::plain(stop, 0)),
    };
    let start = record.paused.take().and_then(|pause| program.resume(pause));
    let ending = match start {
        None => Ending::plain(Stop::Done, 0),
        Some(start) => lent.run(record, &program, start),
    };
    lent.answer(ending)
}

/// The refusals of both calls, in their order, and the page as a program.
fn checked(record: &Record, lent: &Lent) -> Result<Program, Stop> {
    if !lent.in_range() {
        return Err(Stop::OutOfRange);
    }
    let program = read_page(lent.page).ok_or(Stop::BadPage)?;
    if !lent.table().is_none_or(|table| describes(table, lent.page)) {
        return Err(Stop::BadTable);
    }
    match record.fits(&program) {
        true => Ok(program),
        false => Err(Stop::BadRecord),
    }
}

impl Lent<'_> {
    fn table(&self) -> Option<&[u16]> {
        self.table.as_deref()
    }

    fn in_range(&self) -> bool {
        self.page_and_memory_in_range()
            && self.input.len() <= 65_535
            && self.input_position as usize <= self.input.len()
            && self.output_in_range()
            && self.budget <= 65_535
            && self.table_in_range()
    }

    pub(crate) fn page_and_memory_in_range(&self) -> bool {
        (2..=4096).contains(&self.page.len()) && self.memory.len() <= 4096
    }

    pub(crate) fn output_in_range(&self) -> bool {
        self.output.len() <= 65_535 && self.output_position as usize <= self.output.len()
    }

    pub(crate) fn table_in_range(&self) -> bool {
        self.table().is_none_or(|table| table.len() >= TABLE_LEAST)
    }

    pub(crate) fn answer(&self, ending: Ending) -> Answer {
        Answer {
            stop: ending.stop,
            line: ending.line,
            steps: ending.steps,
            column: 0,
            input_position: self.input_position,
            output_position: self.output_position,
        }
    }

    fn no_reading(&self, column: u32) -> Answer {
        Answer {
            column,
            ..self.answer(Ending::plain(Stop::NoReading, 0))
        }
    }

    fn delete(&mut self, record: &mut Record, program: &Program, number: LineNumber) -> Ending {
        match delete(self.page, program, number) {
            true => self.edited(record),
            false => Ending::plain(Stop::Done, 0),
        }
    }

    fn store(
        &mut self,
        record: &mut Record,
        program: &Program,
        number: LineNumber,
        text: &[u8],
    ) -> Ending {
        match store(self.page, program, number, text) {
            true => self.edited(record),
            false => Ending::plain(Stop::PageFull, 0),
        }
    }

    /// What an edit does beside the page: the stacks are cleared, and a lent
    /// table becomes what a fresh walk gives.
    fn edited(&mut self, record: &mut Record) -> Ending {
        record.clear_stacks();
        if let Some(table) = &mut self.table {
            refill(table, self.page);
        }
        Ending::plain(Stop::Done, 0)
    }

    fn command(&mut self, record: &mut Record, program: &Program, command: Command) -> Ending {
        match command {
            Command::New => {
                self.page[..END_MARK.len()].copy_from_slice(&END_MARK);
                self.edited(record)
            }
            Command::Clear => {
                record.clear();
                Ending::plain(Stop::Done, 0)
            }
            Command::Run => {
                record.clear();
                self.run(record, program, 0)
            }
            Command::List(from) => self.list(record, program, from),
        }
    }

    /// Each line is one output item; those already out stay.
    fn list(&mut self, record: &mut Record, program: &Program, from: LineNumber) -> Ending {
        let listed = &program.lines[program.lines_before(from)..];
        let mut items = Vec::with_capacity(listed.len());
        for line in listed {
            let mut item = line.number.0.to_string().into_bytes();
            item.extend_from_slice(line.text(self.page));
            item.extend_from_slice(&[CR, LF]);
            items.push(item);
        }
        let stop = self.with_machine(record, program, |machine| {
            items.iter().try_for_each(|item| machine.put(item))
        });
        Ending::plain(stop.err().unwrap_or(Stop::Done), 0)
    }

    /// Runs the statement of an immediate line, and the program from where it
    /// leads, if it leads there. The statement itself is not counted.
    fn immediate(
        &mut self,
        record: &mut Record,
        program: &Program,
        tree: &Tree,
        id: StatementId,
    ) -> Ending {
        if tree.needs_program(id) {
            return Ending::plain(Stop::NotImmediate, 0);
        }
        let flow = self.with_machine(record, program, |machine| {
            machine.execute(tree, id, Place::IMMEDIATE)
        });
        match flow {
            Err(stop) => Ending::plain(stop, 0),
            Ok(Flow::To(start)) => self.run(record, program, start),
            Ok(Flow::On | Flow::NextLine | Flow::Finished) => Ending::plain(Stop::Done, 0),
        }
    }

    fn run(&mut self, record: &mut Record, program: &Program, start: usize) -> Ending {
        let budget = self.budget;
        self.with_machine(record, program, |machine| machine.run(start, budget))
    }

    /// Lets a machine work on what is lent and takes over its positions.
    fn with_machine<T>(
        &mut self,
        record: &mut Record,
        program: &Program,
        work: impl FnOnce(&mut Machine) -> T,
    ) -> T {
        let mut machine = Machine {
            program,
            record,
            memory: self.memory,
            input: self.input,
            output: self.output,
            input_position: self.input_position as usize,
            output_position: self.output_position as usize,
            sense: self.sense,
        };
        let result = work(&mut machine);
        // In range: neither position passes its length, at most 65,535.
        let positions = (machine.input_position, machine.output_position);
        self.input_position = positions.0 as u32;
        self.output_position = positions.1 as u32;
        result
    }
}
