//! Writes what the model's calls leave of written cases, or writes the cases.
//!
//!     call_table <CASES     the name of each case, and a row for each of its calls
//!     call_table cases      the cases
//!     call_table stops      how often each stop comes up, in typed lines, continued runs, saves and loads
//!
//! The input has the number of cases, and then of each its name, after one byte for its length; the page, the memory,
//! the input, the output and the table of line places; where the first call reads and writes; the session record; and the
//! calls, after one byte for their number. The calls of a case are made one after the other, each on what the one before
//! left, from the positions that it answered.
//!
//! Lent bytes are their length, a byte that fills them, and those that stand before it, after their number; a table is the
//! same of numbers. A record has its 26 variables; its flags (a byte); its pause (0 for none, 1 for the program's start,
//! else a place + 2); and the stacks of GOSUB, DO and FOR, each with its depth and all its slots. A call is a kind (a byte:
//! 0 for a typed line, 1 for a continued run, 2 for a save, 3 for a load of the input), the sense byte, the budget, and a byte that is 0 where the table is not
//! lent. A number is two bytes, high first; a length of what is lent, a position and a budget are two such numbers.
//!
//! A row has the stop with its line, the steps, the column, both positions, the flags and the pause; the three stacks; the
//! variables; the sums of page, memory and output; the bytes that were written, at most the first 40; and the sum of the
//! table, lent or not, each number as two bytes, with its first numbers, at most 12.

#![forbid(unsafe_code)]

mod cases;
mod form;
mod gate;
#[cfg(test)]
mod tests;
mod written;

use std::io::{self, Read, Write};

use model::case::Call;
use model::Stop;

use cases::cases;
use form::Input;
use written::Written;

/// What the calls of these cases leave.
fn table(cases: Vec<Written>) -> String {
    let mut table = String::new();
    for mut case in cases {
        table += &case.name;
        table.push('\n');
        for &numbers in &case.calls {
            let from = case.gate.output_position;
            let answer = case.gate.call(numbers);
            table += &case.gate.row(&answer, from);
        }
    }
    table
}

/// How often each call of these cases answers with a stop.
fn count(cases: &[Written], call: Call, stop: Stop) -> usize {
    let outcomes = cases.iter().flat_map(Written::outcomes);
    outcomes
        .filter(|(made, answer)| *made == call && answer.stop == stop)
        .count()
}

/// A row for each stop: its number, and how often each call gives it.
fn counts(cases: &[Written]) -> String {
    let row = |&stop: &Stop| {
        let [line, run, save, load] = Call::ALL.map(|call| count(cases, call, stop));
        format!("{} {line} {run} {save} {load}\n", stop.number())
    };
    Stop::ALL.iter().map(row).collect()
}

fn main() -> io::Result<()> {
    let out = match std::env::args().nth(1).as_deref() {
        Some("cases") => form::bytes(&cases()),
        Some("stops") => counts(&cases()).into_bytes(),
        _ => {
            let mut input = Vec::new();
            io::stdin().read_to_end(&mut input)?;
            table(Input::new(input).cases()).into_bytes()
        }
    };
    io::stdout().write_all(&out)
}
