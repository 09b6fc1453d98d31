//! Writes random sessions, cases or lines to standard output, or damaged lines.
//!
//!     generate KIND SEED COUNT [small]
//!
//! The same arguments give the same bytes. `small` keeps pages at most 120
//! bytes and everything else short, for slow evaluators.
//!
//! - `sessions`: the raw input of one session of at least COUNT typed lines,
//!   for the standard input of a session program.
//! - `cases`: COUNT cases, one JSON object a line, for a case driver.
//! - `lines`: COUNT typed lines with the model's verdict, one JSON object a
//!   line: `text` the kept bytes (at most 72); `verdict` one of "blank",
//!   "delete", "store", "command", "statement" and "none" (no reading);
//!   `column` that of a line without a reading, else 0; `number` the line
//!   number of a deleted or stored line, else `null`; `ends` the position in
//!   `text` of each statement's ":" or of the end of the line, for "store" and
//!   "statement", else empty; `three` whether a statement is one that an
//!   immediate line may not hold.
//! - `damaged`: COUNT different lines that have no reading, good ones of each
//!   statement and command in turn after a slip, as cases that type them.

#![forbid(unsafe_code)]

use std::io::{self, BufWriter, Write};
use std::process::ExitCode;

use model::random::damage::{refused, typed};
use model::random::forms::any_case;
use model::random::lines::{kept, verdict};
use model::random::sessions::session;
use model::random::{Random, Size};

const USAGE: &str = "usage: generate sessions|cases|lines|damaged SEED COUNT [small]";

struct Order {
    kind: String,
    seed: u64,
    count: usize,
    size: Size,
}

fn order(arguments: &[String]) -> Option<Order> {
    let (size, plain) = match arguments {
        [plain @ .., last] if last == "small" => (Size::Small, plain),
        plain => (Size::Full, plain),
    };
    let [kind, seed, count] = plain else {
        return None;
    };
    let known = ["sessions", "cases", "lines", "damaged"].contains(&kind.as_str());
    known.then_some(Order {
        kind: kind.clone(),
        seed: seed.parse().ok()?,
        count: count.parse().ok()?,
        size,
    })
}

fn write(order: &Order) -> io::Result<()> {
    let mut random = Random::new(order.seed);
    let mut sink = BufWriter::new(io::stdout().lock());
    match order.kind.as_str() {
        "sessions" => sink.write_all(&session(&mut random, order.size, order.count))?,
        "damaged" => {
            for damaged in refused(&mut random, order.count) {
                writeln!(sink, "{}", typed(&damaged.line).write())?;
            }
        }
        "cases" => {
            for _ in 0..order.count {
                writeln!(sink, "{}", any_case(&mut random, order.size).write())?;
            }
        }
        _ => {
            for _ in 0..order.count {
                writeln!(sink, "{}", verdict(&kept(&mut random, order.size)))?;
            }
        }
    }
    sink.flush()
}

fn main() -> ExitCode {
    let arguments: Vec<String> = std::env::args().skip(1).collect();
    let Some(order) = order(&arguments) else {
        eprintln!("{USAGE}");
        return ExitCode::FAILURE;
    };
    match write(&order) {
        Ok(()) => ExitCode::SUCCESS,
        Err(error) => {
            eprintln!("{error}");
            ExitCode::FAILURE
        }
    }
}
