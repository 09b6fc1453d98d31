//! The written cases, in the order of the stops that a call looks for: those that both calls refuse, what a typed line
//! does, runs, calls that follow one another, all of these with a table of line places, and saves and loads.

mod carried;
mod chains;
mod lines;
mod refusals;
mod runs;
mod tables;

use model::{Pause, Place};

use crate::gate::Gate;
use crate::written::{fresh, on, Written};

pub fn cases() -> Vec<Written> {
    let chapters = [
        refusals::cases,
        lines::cases,
        runs::cases,
        chains::cases,
        tables::cases,
        carried::cases,
    ];
    chapters.iter().flat_map(|chapter| chapter()).collect()
}

/// Its second record stands at 8: the number, the length at 10, the text from 11 on, the CR at 17; at 18 the end mark.
const TWO: [&str; 2] = ["10 A=1", "20 REM X"];

/// Its places are 12, 16, 30, 34 and 45. At 28 is the ":" in the string, at 46 the end mark.
const FIVE: [&str; 3] = ["10 GOSUB 30:A=1", "20 PRINT \":\":END", "30 RETURN"];

type Change = fn(&mut Gate);

/// Refused by both calls, which change nothing: the second is made on what the first left. The typed line would do much.
fn refused(stop: u8, name: &str, program: &[&str], change: Change) -> Written {
    let case = on(name, program).lines(&["NEW"]).with(change);
    case.types(stop).goes_on(stop)
}

/// A typed line, in a lived-in session.
fn typed(stop: u8, name: &str, program: &[&str], line: &str) -> Written {
    on(name, program).lines(&[line]).types(stop)
}

/// The same, with the line for its name.
fn line(stop: u8, program: &[&str], line: &str) -> Written {
    typed(stop, &format!("typed {line}"), program, line)
}

/// The same with a line that has no reading, or is over-long.
fn wrong(column: u32, name: &str, program: &[&str], line: &str) -> Written {
    on(name, program).lines(&[line]).refused_at(column)
}

/// What a run stops with, what it shows, its program and its replies.
type Run = (u8, &'static str, &'static [&'static str], &'static str);

/// A program, continued from its start in a fresh session.
fn continued((stop, name, program, replies): Run) -> Written {
    fresh(name, program).paused().input(replies).goes_on(stop)
}

/// The same twice: by a typed GOTO, which keeps variables and stacks, and by a continued run. The first line is 10.
fn both((stop, name, program, replies): Run) -> [Written; 2] {
    let case = fresh(name, program).paused();
    let by_line = case.clone().named(", by a typed line").lines(&["GOTO 10"]);
    let by_run = case.named(", by a continued run");
    [
        by_line.input(replies).types(stop),
        by_run.input(replies).goes_on(stop),
    ]
}

/// Fills the stacks with the program's first place; on top of the GOSUBs is the immediate mark.
fn crowd(gate: &mut Gate) {
    let record = &mut gate.record;
    let place = record.dos.places[0];
    record.gosubs.places = [place; 8];
    record.gosubs.places[7] = Place::IMMEDIATE;
    record.gosubs.depth = 8;
    record.dos.places = [place; 8];
    record.dos.depth = 8;
    record.fors.entries = [record.fors.entries[0]; 4];
    record.fors.depth = 4;
}

/// Has the run paused after a place.
fn pause_after(place: u16) -> impl FnOnce(&mut Gate) {
    move |gate| gate.record.paused = Some(Pause::After(Place(place)))
}
