//! The numbers that a call is given, and what it answers.

use crate::stop::Stop;

/// The line that the library answers with where there is none.
pub const NO_LINE: u16 = 65535;

/// How many bytes of a typed line, or of a reply, are kept. It is the column of an over-long line.
pub const LINE_MOST: u16 = 72;

/// The bytes that LIST writes of the longest page, at most.
pub const LIST_MOST: usize = 6140;

/// The bytes of stack that are enough for a call: a thread that makes calls needs these, and its own.
pub const STACK: usize = 84 * 1024;

/// The numbers of a call.
#[derive(Clone, Copy, Debug, Default, PartialEq, Eq)]
pub struct Call {
    /// Where to read in the input: 0 to its length.
    pub inpos: usize,
    /// Where to write in the output: 0 to its length.
    pub outpos: usize,
    /// The sense byte, of which STAT reads bits 4 and 5.
    pub sense: u8,
    /// The steps that may run: 0 to 65,535.
    pub budget: usize,
}

impl Call {
    /// A call with these positions and this budget, and 0 for its sense byte.
    pub fn at(inpos: usize, outpos: usize, budget: usize) -> Call {
        Call {
            inpos,
            outpos,
            sense: 0,
            budget,
        }
    }
}

/// What a call answers.
#[derive(Clone, Copy, Debug, PartialEq, Eq)]
pub struct Answer {
    /// Why the call came back.
    pub stop: Stop,
    /// The line of the program statement that gave the stop.
    pub line: Option<u16>,
    /// The steps that ran, the one that stopped included.
    pub steps: u16,
    /// Where to read next.
    pub inpos: usize,
    /// The end of what was written.
    pub outpos: usize,
    /// Of a typed line that was refused with 5: so many bytes of it, as it was kept, could still be the front of a line
    /// with a reading. [`LINE_MOST`] for an over-long one, and 0 for every other stop.
    pub column: u16,
}
