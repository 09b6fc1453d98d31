//! The saved form, which carries program, variables and memory to another box,
//! and the calls that write one and take one.
//!
//! A form is one byte 1; one byte 26 and the variables; a line count and the
//! records as in the page; a byte count and the memory. Counts and variables
//! have two bytes, the high one first.

use crate::calls::{Answer, Lent};
use crate::machine::Ending;
use crate::page::{read_page, Program, END_MARK};
use crate::record::Record;
use crate::stop::Stop;
use crate::table::refill;
use crate::value::Value;

/// The number of the one form there is.
const FORM: u8 = 1;

const VARIABLES: u8 = 26;

/// Writes the box's form to the output.
pub fn save(record: &Record, mut lent: Lent) -> Answer {
    let stop = write(record, &mut lent);
    lent.answer(Ending::plain(stop.err().unwrap_or(Stop::Done), 0))
}

/// Takes a form whole. A call that is refused changes nothing.
pub fn load(record: &mut Record, lent: Lent, form: &[u8]) -> Answer {
    let answer = |stop| lent.answer(Ending::plain(stop, 0));
    match carried(&lent, form) {
        Err(stop) => answer(stop),
        Ok(carried) => {
            let done = answer(Stop::Done);
            carried.put(record, lent);
            done
        }
    }
}

fn write(record: &Record, lent: &mut Lent) -> Result<(), Stop> {
    if !(lent.page_and_memory_in_range() && lent.output_in_range()) {
        return Err(Stop::OutOfRange);
    }
    let program = read_page(lent.page).ok_or(Stop::BadPage)?;
    if !record.fits(&program) {
        return Err(Stop::BadRecord);
    }
    let form = form(record, &program, lent);
    let room = &mut lent.output[lent.output_position as usize..];
    let item = room.get_mut(..form.len()).ok_or(Stop::OutputFull)?;
    item.copy_from_slice(&form);
    // In range: the form fits an output of at most 65,535 bytes.
    lent.output_position += form.len() as u32;
    Ok(())
}

fn form(record: &Record, program: &Program, lent: &Lent) -> Vec<u8> {
    let mut form = vec![FORM, VARIABLES];
    let two = |form: &mut Vec<u8>, number: u16| form.extend(number.to_be_bytes());
    for variable in record.variables {
        two(&mut form, variable as u16);
    }
    two(&mut form, program.lines.len() as u16);
    form.extend(&lent.page[..program.used() - END_MARK.len()]);
    two(&mut form, lent.memory.len() as u16);
    form.extend(lent.memory.iter());
    form
}

/// What a form carries.
struct Carried<'a> {
    variables: [Value; VARIABLES as usize],
    records: &'a [u8],
    memory: &'a [u8],
}

/// The refusals of a load in their order, and what is loaded past them.
fn carried<'a>(lent: &Lent, form: &'a [u8]) -> Result<Carried<'a>, Stop> {
    if !(lent.page_and_memory_in_range() && lent.table_in_range()) {
        return Err(Stop::OutOfRange);
    }
    let Some((&FORM, behind)) = form.split_first() else {
        return Err(Stop::OtherForm);
    };
    let carried = Carried::read(behind).ok_or(Stop::BadForm)?;
    if carried.memory.len() != lent.memory.len() {
        return Err(Stop::OtherMemory);
    }
    if carried.records.len() + END_MARK.len() > lent.page.len() {
        return Err(Stop::PageFull);
    }
    Ok(carried)
}

/// Takes so many bytes from the front.
fn take<'a>(rest: &mut &'a [u8], length: usize) -> Option<&'a [u8]> {
    let taken = rest.get(..length)?;
    *rest = &rest[length..];
    Some(taken)
}

fn take_two(rest: &mut &[u8]) -> Option<u16> {
    let two = take(rest, 2)?;
    Some(u16::from_be_bytes([two[0], two[1]]))
}

/// So many records by their length bytes, whatever else they are.
fn take_records<'a>(rest: &mut &'a [u8], count: u16) -> Option<&'a [u8]> {
    let mut length = 0;
    for _ in 0..count {
        length += usize::from(*rest.get(length + 2)?);
    }
    take(rest, length)
}

/// Do these bytes, with an end mark behind them, make a good page of so many
/// lines that has no end mark before that?
fn are_records(records: &[u8], count: u16) -> bool {
    let page = [records, &END_MARK].concat();
    read_page(&page).is_some_and(|program| {
        program.used() == page.len() && program.lines.len() == usize::from(count)
    })
}

impl<'a> Carried<'a> {
    /// All behind the form's number; `None` if counts, records or length are
    /// wrong.
    fn read(mut rest: &'a [u8]) -> Option<Carried<'a>> {
        let mut variables = [0; VARIABLES as usize];
        if take(&mut rest, 1)? != [VARIABLES] {
            return None;
        }
        for variable in &mut variables {
            *variable = take_two(&mut rest)? as Value;
        }
        let count = take_two(&mut rest)?;
        let records = take_records(&mut rest, count)?;
        let length = take_two(&mut rest)?;
        let sound = are_records(records, count) && rest.len() == usize::from(length);
        sound.then_some(Carried {
            variables,
            records,
            memory: rest,
        })
    }

    /// The stacks are emptied, a pause is ended, and bits 0 to 2 of the flags
    /// are kept. Bytes behind the end mark stay, and a lent table is made true.
    fn put(&self, record: &mut Record, lent: Lent) {
        let end = self.records.len();
        lent.page[..end].copy_from_slice(self.records);
        lent.page[end..end + END_MARK.len()].copy_from_slice(&END_MARK);
        lent.memory.copy_from_slice(self.memory);
        record.variables = self.variables;
        record.clear_stacks();
        record.paused = None;
        record.flags &= 7;
        if let Some(table) = lent.table {
            refill(table, lent.page);
        }
    }
}
