//! The library's record, numbers and answer as the model's, and back.

use model::case::Case;
use model::{Pause, Place, Stop};
use nibl::{NOWHERE, START};

fn places(stack: &model::PlaceStack) -> nibl::PlaceStack {
    nibl::PlaceStack {
        depth: stack.depth as u64,
        places: stack.places.map(|place| place.0),
    }
}

fn model_places(stack: &nibl::PlaceStack) -> model::PlaceStack {
    model::PlaceStack {
        depth: stack.depth as usize,
        places: stack.places.map(Place),
    }
}

fn fors(stack: &model::ForStack) -> nibl::ForStack {
    nibl::ForStack {
        depth: stack.depth as u64,
        entries: stack.entries.map(|entry| nibl::ForEntry {
            var: entry.variable,
            limit: entry.limit as u16,
            step: entry.step as u16,
            place: entry.place.0,
        }),
    }
}

fn model_fors(stack: &nibl::ForStack) -> model::ForStack {
    model::ForStack {
        depth: stack.depth as usize,
        entries: stack.entries.map(|entry| model::ForEntry {
            variable: entry.var,
            limit: entry.limit as i16,
            step: entry.step as i16,
            place: Place(entry.place),
        }),
    }
}

/// The library's record with the bits of the model's. The number of a pause has 16 bits, and that after the place p is
/// p + 2: those after the places 65,534 and 65,535, which no page has, come out as none and as the start.
pub fn nearest(record: &model::Record) -> nibl::Record {
    nibl::Record {
        vars: record.variables.map(|value| value as u16),
        flags: record.flags,
        gosubs: places(&record.gosubs),
        dos: places(&record.dos),
        fors: fors(&record.fors),
        paused: match record.paused {
            None => NOWHERE,
            Some(Pause::Start) => START,
            Some(Pause::After(place)) => place.0.wrapping_add(2),
        },
    }
}

/// The library's record that says the same, if one does.
pub fn record(record: &model::Record) -> Option<nibl::Record> {
    let near = nearest(record);
    (model_record(&near) == *record).then_some(near)
}

/// Every record of the library is one of the model's.
pub fn model_record(record: &nibl::Record) -> model::Record {
    model::Record {
        variables: record.vars.map(|value| value as i16),
        flags: record.flags,
        gosubs: model_places(&record.gosubs),
        dos: model_places(&record.dos),
        fors: model_fors(&record.fors),
        paused: match record.paused {
            NOWHERE => None,
            START => Some(Pause::Start),
            after => Some(Pause::After(Place(after - 2))),
        },
    }
}

/// A case's own numbers.
pub fn numbers(case: &Case) -> nibl::Call {
    nibl::Call {
        inpos: case.input_position as usize,
        outpos: case.output_position as usize,
        sense: case.sense,
        budget: case.budget as usize,
    }
}

/// Positions of a case have 32 bits, and those of an answer are within the lengths or as they came.
pub fn model_answer(answer: &nibl::Answer) -> model::Answer {
    let number = answer.stop.number();
    let stop = Stop::ALL.into_iter().find(|stop| stop.number() == number);
    model::Answer {
        stop: stop.expect("the model has every stop"),
        line: answer.line,
        steps: answer.steps.into(),
        input_position: answer.inpos as u32,
        output_position: answer.outpos as u32,
        column: answer.column.into(),
    }
}
