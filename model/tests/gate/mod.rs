//! A gate to type at: everything a call is lent, kept between calls.

// Each test file uses the part it needs.
#![allow(dead_code)]

use model::page::read_page;
use model::{continue_run, take_line, Answer, Lent, Record};

pub struct Gate {
    pub page: Vec<u8>,
    pub memory: Vec<u8>,
    pub output_room: usize,
    pub sense: u8,
    pub budget: u32,
    pub record: Record,
    /// The table of line places, where one is lent.
    pub table: Option<Vec<u16>>,
}

/// What one call answered and put out.
#[derive(Debug, PartialEq, Eq)]
pub struct Reply {
    pub stop: u8,
    pub line: Option<u16>,
    pub steps: u32,
    pub column: u32,
    /// How many input bytes were taken.
    pub taken: u32,
    pub out: String,
}

impl Gate {
    /// A fresh session, with room to spare everywhere.
    pub fn new() -> Gate {
        let mut page = vec![0; 512];
        page[..2].fill(255);
        Gate {
            page,
            memory: vec![0; 64],
            output_room: 512,
            sense: 0,
            budget: 1000,
            record: Record::default(),
            table: None,
        }
    }

    /// A fresh session in which these lines have been stored.
    pub fn with(program: &[&str]) -> Gate {
        let mut gate = Gate::new();
        for line in program {
            assert_eq!(gate.stop(line), 0, "{line} is not stored");
        }
        gate
    }

    /// One call over this input, at position 0.
    pub fn call(&mut self, input: &[u8], call: fn(&mut Record, Lent) -> Answer) -> Reply {
        let mut output = vec![0; self.output_room];
        let lent = Lent {
            page: &mut self.page,
            memory: &mut self.memory,
            input,
            output: &mut output,
            input_position: 0,
            output_position: 0,
            sense: self.sense,
            budget: self.budget,
            table: self.table.as_deref_mut(),
        };
        let answer = call(&mut self.record, lent);
        output.truncate(answer.output_position as usize);
        Reply {
            stop: answer.stop.number(),
            line: answer.line,
            steps: answer.steps,
            column: answer.column,
            taken: answer.input_position,
            out: output.into_iter().map(char::from).collect(),
        }
    }

    /// Types a line; the CR is added.
    pub fn line(&mut self, typed: &str) -> Reply {
        self.feed(&[typed])
    }

    /// Types a line and has replies ready behind it, each with a CR.
    pub fn feed(&mut self, lines: &[&str]) -> Reply {
        let input: String = lines.iter().map(|line| format!("{line}\r")).collect();
        self.call(input.as_bytes(), take_line)
    }

    pub fn go_on(&mut self) -> Reply {
        self.call(b"", continue_run)
    }

    pub fn stop(&mut self, typed: &str) -> u8 {
        self.line(typed).stop
    }

    pub fn out(&mut self, typed: &str) -> String {
        let reply = self.line(typed);
        assert_eq!(reply.stop, 0, "{typed} stops: {reply:?}");
        reply.out
    }

    pub fn variable(&self, letter: char) -> i16 {
        self.record.variables[letter as usize - 'A' as usize]
    }

    /// The page up to its end mark.
    pub fn used(&self) -> &[u8] {
        let program = read_page(&self.page).expect("a sound page");
        &self.page[..program.used()]
    }

    pub fn is_sound(&self) -> bool {
        read_page(&self.page).is_some_and(|program| self.record.fits(&program))
    }
}

/// The stop of a line typed in a fresh session.
pub fn fresh_stop(typed: &str) -> u8 {
    Gate::new().stop(typed)
}

/// What a line typed in a fresh session prints, its CR LF taken off.
pub fn fresh_out(typed: &str) -> String {
    let out = Gate::new().out(typed);
    out.strip_suffix("\r\n").expect("a CR LF").to_string()
}

/// Stop, line and steps of a run of these lines.
pub fn run(program: &[&str]) -> (u8, Option<u16>, u32) {
    let reply = Gate::with(program).line("RUN");
    (reply.stop, reply.line, reply.steps)
}
