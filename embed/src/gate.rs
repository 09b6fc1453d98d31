//! The linked library: the only file with unsafe code.
//!
//! Each call hands over pointers and lengths of slices that the borrow checker keeps apart, and a record of which every
//! bit pattern is one. The library asks for no more, reads and writes within what is lent, and keeps no pointer. What is
//! out of range, such as a position past its slice, is refused by the library itself.

#![allow(unsafe_code)]

use crate::answer::{Answer, Call, NO_LINE};
use crate::record::Record;
use crate::stop::Stop;

/// What a call is lent beside the record.
pub struct Lent<'a> {
    /// The program: 2 to 4,096 bytes.
    pub page: &'a mut [u8],
    /// What `@` and `$` reach: 0 to 4,096 bytes.
    pub memory: &'a mut [u8],
    /// Is read: 0 to 65,535 bytes.
    pub input: &'a [u8],
    /// Is written: 0 to 65,535 bytes.
    pub output: &'a mut [u8],
    /// The table of line places, where one is lent: at least [`TABLE_LEAST`](crate::TABLE_LEAST) numbers.
    pub table: Option<&'a mut [u16]>,
}

/// `nibl_size` of `include/nibl.h`.
type Size = u64;

/// `nibl_call` of `include/nibl.h`.
#[repr(C)]
#[derive(Default)]
pub(crate) struct Given {
    pub(crate) inpos: Size,
    pub(crate) outpos: Size,
    pub(crate) sense: u8,
    pub(crate) budget: Size,
    pub(crate) tabled: u8,
}

/// `nibl_answer` of `include/nibl.h`.
#[repr(C)]
#[derive(Default)]
pub(crate) struct Written {
    pub(crate) stop: u8,
    pub(crate) line: u16,
    pub(crate) steps: u16,
    pub(crate) inpos: Size,
    pub(crate) outpos: Size,
    pub(crate) column: u16,
}

impl Written {
    fn answer(&self) -> Answer {
        Answer {
            stop: Stop::of(self.stop).expect("a proved call answers with a stop number"),
            line: (self.line != NO_LINE).then_some(self.line),
            steps: self.steps,
            // Within the lengths, or as they came.
            inpos: self.inpos as usize,
            outpos: self.outpos as usize,
            column: self.column,
        }
    }
}

/// Declares the library's calls, which have one signature. In the archive their names end with the interface's number.
macro_rules! entries {
    ($($name:ident)*: $parameters:tt) => {
        type Entry = unsafe extern "C" fn $parameters;
        extern "C" {
            $(
                #[link_name = concat!(stringify!($name), "_", env!("NIBL_VERSION"))]
                fn $name $parameters;
            )*
        }
    };
}

entries!(nibl_take_line nibl_continue_run nibl_save nibl_load: (
    record: *mut Record,
    page: *mut u8,
    page_len: Size,
    memory: *mut u8,
    memory_len: Size,
    input: *const u8,
    input_len: Size,
    output: *mut u8,
    output_len: Size,
    call: *const Given,
    answer: *mut Written,
    table: *mut u16,
    table_len: Size,
));

extern "C" {
    static nibl_version: u32;
}

/// The interface's number, as the archive has it that is linked: `NIBL_VERSION` of `include/nibl.h`.
pub fn version() -> u32 {
    // SAFETY: a constant of the archive, which nothing writes.
    unsafe { nibl_version }
}

impl Given {
    fn of(call: Call, lent: &Lent) -> Given {
        Given {
            inpos: call.inpos as Size,
            outpos: call.outpos as Size,
            sense: call.sense,
            budget: call.budget as Size,
            tabled: lent.table.is_some().into(),
        }
    }
}

fn make(entry: Entry, record: &mut Record, given: Given, lent: Lent) -> Answer {
    let table = lent.table.unwrap_or_default();
    let mut written = Written::default();
    // SAFETY: the pointers are of live, disjoint slices and structs in C's layout, which the library uses within their
    // lengths and only until it returns; it asks nothing of what they hold.
    unsafe {
        entry(
            record,
            lent.page.as_mut_ptr(),
            lent.page.len() as Size,
            lent.memory.as_mut_ptr(),
            lent.memory.len() as Size,
            lent.input.as_ptr(),
            lent.input.len() as Size,
            lent.output.as_mut_ptr(),
            lent.output.len() as Size,
            &given,
            &mut written,
            table.as_mut_ptr(),
            table.len() as Size,
        );
    }
    written.answer()
}

/// Takes one typed line, for a host that keeps what it lends apart:
/// see [`Controller::take_line`](crate::Controller::take_line).
pub fn take_line(record: &mut Record, lent: Lent, call: Call) -> Answer {
    make(nibl_take_line, record, Given::of(call, &lent), lent)
}

/// Goes on with a paused run, for a host that keeps what it lends apart:
/// see [`Controller::continue_run`](crate::Controller::continue_run).
pub fn continue_run(record: &mut Record, lent: Lent, call: Call) -> Answer {
    make(nibl_continue_run, record, Given::of(call, &lent), lent)
}

/// Saves the rule set to the output, for a host that keeps what it lends apart: see [`Controller::save`](crate::Controller::save). Of
/// the call's numbers `outpos` alone is looked at; the input and a table are not.
pub fn save(record: &mut Record, lent: Lent, call: Call) -> Answer {
    make(nibl_save, record, Given::of(call, &lent), lent)
}

/// Loads a saved form, which is the input, whole, for a host that keeps what it lends apart: see
/// [`Controller::load`](crate::Controller::load). The output and the call's numbers are not looked at.
pub fn load(record: &mut Record, lent: Lent, call: Call) -> Answer {
    make(nibl_load, record, Given::of(call, &lent), lent)
}

/// Bytes of the longest saved form: of a full page and the longest memory.
pub const SAVED_MOST: usize = 8248;

#[cfg(test)]
mod tests {
    use std::string::ToString;

    use super::*;

    #[test]
    fn the_archive_has_the_number_that_its_calls_are_linked_by() {
        assert_eq!(version().to_string(), env!("NIBL_VERSION"));
    }

    #[test]
    fn a_table_is_lent_by_any_number_but_0() {
        let stop = |entry: Entry, tabled| {
            let mut table = [7; 3];
            let lent = Lent {
                page: &mut [255, 255],
                memory: &mut [],
                input: b"NEW\r",
                output: &mut [],
                table: Some(&mut table),
            };
            let given = Given {
                tabled,
                ..Given::of(Call::default(), &lent)
            };
            let answer = make(entry, &mut Record::fresh(), given, lent);
            assert_eq!(table, [7; 3]);
            answer.stop
        };
        let calls: [(Entry, Stop); 3] = [
            (nibl_take_line, Stop::Done),
            (nibl_continue_run, Stop::Done),
            (nibl_load, Stop::OtherForm),
        ];
        for (entry, unlent) in calls {
            assert_eq!(stop(entry, 0), unlent);
            for tabled in 1..=255 {
                assert_eq!(stop(entry, tabled), Stop::OutOfRange);
            }
        }
    }
}
