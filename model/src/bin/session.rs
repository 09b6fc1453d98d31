//! The session program: typed lines on standard input, output and answers on
//! standard output.

#![forbid(unsafe_code)]

use std::io::{self, BufWriter, Read, Write};

use model::session::{run_session, INPUT_LIMIT};

fn main() -> io::Result<()> {
    let mut input = Vec::new();
    io::stdin()
        .lock()
        .take(INPUT_LIMIT as u64)
        .read_to_end(&mut input)?;
    let mut sink = BufWriter::new(io::stdout().lock());
    run_session(&input, &mut sink)?;
    sink.flush()
}
