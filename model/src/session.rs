//! The rule desk's session program.

use std::io::{self, Write};

use crate::calls::{take_line, Lent};
use crate::page::END_MARK;
use crate::record::Record;
use crate::stop::Stop;

/// How much of the standard input a session looks at.
pub const INPUT_LIMIT: usize = 65_535;

const PAGE: usize = 4096;
const MEMORY: usize = 1024;
const OUTPUT: usize = 8192;
const BUDGET: u32 = 10_000;

/// Takes typed lines from the input until no CR is left, and writes what each
/// put out and answered.
pub fn run_session(input: &[u8], sink: &mut impl Write) -> io::Result<()> {
    let input = &input[..input.len().min(INPUT_LIMIT)];
    let mut page = vec![0; PAGE];
    page[..END_MARK.len()].copy_from_slice(&END_MARK);
    let mut memory = vec![0; MEMORY];
    let mut record = Record::default();
    let mut input_position = 0;
    loop {
        let mut output = [0; OUTPUT];
        let lent = Lent {
            page: &mut page,
            memory: &mut memory,
            input,
            output: &mut output,
            input_position,
            output_position: 0,
            sense: 0,
            budget: BUDGET,
            table: None,
        };
        let answer = take_line(&mut record, lent);
        // An INPUT statement's 7 has a line number and is shown.
        if answer.stop == Stop::NoCr && answer.line.is_none() {
            return Ok(());
        }
        input_position = answer.input_position;
        sink.write_all(&output[..answer.output_position as usize])?;
        let line = answer.line.map_or("-".to_string(), |line| line.to_string());
        writeln!(sink, "{} {} {}", answer.stop.number(), line, answer.steps)?;
    }
}
