//! Document 01's session made by the desk, in slices of a few steps and with a repeated call for each reply to INPUT.
//! `tools/sessions` holds it to the model, byte for byte: slices and waits change no answer.

use std::collections::VecDeque;
use std::io::{self, stdin, stdout, Read, Write};

use nibl_terminal::desk::{Dealer, Desk, Reply};

/// How much of its input a session takes.
const LIMIT: usize = 65_535;
/// Few, so that most runs are cut.
const SLICE: u16 = 7;
const CR: u8 = 13;

/// The lines still to be typed, and what the present one has written.
struct Typed {
    lines: VecDeque<Vec<u8>>,
    written: Vec<u8>,
}

impl Dealer for Typed {
    fn show(&mut self, output: &[u8]) {
        self.written.extend(output);
    }

    fn reply(&mut self, _line: u16) -> Option<Vec<u8>> {
        self.lines.pop_front()
    }

    fn interrupts(&mut self) -> bool {
        false
    }
}

/// The lines that end in CR.
fn lines(input: &[u8]) -> VecDeque<Vec<u8>> {
    let whole = input.split_inclusive(|byte| *byte == CR);
    whole
        .filter_map(|line| line.strip_suffix(&[CR]).map(<[u8]>::to_vec))
        .collect()
}

fn answer(reply: &Reply) -> String {
    let line = reply.line.map_or("-".to_string(), |line| line.to_string());
    format!("{} {line} {}\n", reply.stop.number(), reply.steps)
}

fn main() -> io::Result<()> {
    let mut desk = Desk {
        slice: SLICE,
        ..Desk::default()
    };
    let mut input = Vec::new();
    stdin().take(LIMIT as u64).read_to_end(&mut input)?;
    let mut typed = Typed {
        lines: lines(&input),
        written: Vec::new(),
    };
    let mut out = stdout().lock();
    while let Some(line) = typed.lines.pop_front() {
        let reply = desk.take_line(&line, &mut typed);
        out.write_all(&typed.written)?;
        out.write_all(answer(&reply).as_bytes())?;
        typed.written.clear();
    }
    Ok(())
}
