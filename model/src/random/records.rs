//! Session records that fit a page, and all the ways not to.

use super::Random;
use crate::page::{read_page, Program};
use crate::record::{ForEntry, Pause, Place, PlaceStack, Record};

/// Any place: mostly near the page, sometimes the mark or far out.
fn garbage_place(random: &mut Random) -> Place {
    match random.below(6) {
        0 => Place::IMMEDIATE,
        1 => Place(random.below(65_536) as u16),
        _ => Place(random.below(100) as u16),
    }
}

/// One of the program's places, if it has any.
fn true_place(random: &mut Random, program: &Program) -> Option<Place> {
    match program.steps.as_slice() {
        [] => None,
        steps => Some(random.pick(steps).place),
    }
}

fn garbage_entry(random: &mut Random) -> ForEntry {
    ForEntry {
        variable: random.byte(),
        limit: random.value(),
        step: random.value(),
        place: garbage_place(random),
    }
}

/// A depth: often none, sometimes full.
fn depth(random: &mut Random, most: usize) -> usize {
    match random.below(10) {
        0..=4 => 0,
        5..=7 => random.between(1, 2),
        8 => random.between(1, most),
        _ => most,
    }
}

fn places(random: &mut Random, program: &Program, mark: bool) -> PlaceStack {
    let mut stack = PlaceStack::default();
    if random.percent(50) {
        stack.places = [0; 8].map(|_| garbage_place(random));
    }
    for _ in 0..depth(random, 8) {
        let place = match mark && random.percent(25) {
            true => Some(Place::IMMEDIATE),
            false => true_place(random, program),
        };
        if let Some(place) = place {
            stack.push(place);
        }
    }
    stack
}

fn entry(random: &mut Random, place: Place) -> ForEntry {
    // The letters the programs use most come up most.
    let letters = [0, 1, 2, 8, 8, 8, 9, 13, 25];
    ForEntry {
        variable: *random.pick(&letters),
        limit: random.value(),
        step: random.value(),
        place,
    }
}

/// Where a run may pause in this program.
pub fn pause(random: &mut Random, program: &Program) -> Pause {
    match true_place(random, program) {
        Some(place) if random.percent(75) => Pause::After(place),
        _ => Pause::Start,
    }
}

/// A record that fits the program.
pub fn fitting(random: &mut Random, program: &Program) -> Record {
    let mut record = Record {
        variables: [0; 26].map(|_| random.value()),
        flags: random.below(8) as u8,
        gosubs: places(random, program, true),
        dos: places(random, program, false),
        ..Record::default()
    };
    if random.percent(50) {
        record.fors.entries = [0; 4].map(|_| garbage_entry(random));
    }
    for _ in 0..depth(random, 4) {
        if let Some(place) = true_place(random, program) {
            record.fors.push(entry(random, place));
        }
    }
    if random.percent(35) {
        record.paused = Some(pause(random, program));
    }
    record
}

/// Makes one field of the record garbage; by chance it may still fit.
pub fn spoil(random: &mut Random, record: &mut Record) {
    let wide = [
        5,
        8,
        9,
        10,
        200,
        255,
        256,
        65_535,
        1 << 32,
        (1 << 32) + 2,
        usize::MAX,
    ];
    match random.below(10) {
        0 => record.flags = random.byte(),
        1 => record.gosubs.depth = *random.pick(&wide),
        2 => record.dos.depth = *random.pick(&wide),
        3 => record.fors.depth = *random.pick(&wide),
        4 => record.gosubs.places[random.below(2)] = garbage_place(random),
        5 => record.dos.places[random.below(2)] = garbage_place(random),
        6 => record.fors.entries[random.below(2)].place = garbage_place(random),
        7 => record.fors.entries[0].variable = *random.pick(&[25, 26, 27, 255]),
        8 => record.paused = Some(Pause::After(garbage_place(random))),
        _ => {
            record.gosubs = PlaceStack {
                depth: random.below(10),
                places: [0; 8].map(|_| garbage_place(random)),
            }
        }
    }
}

/// Fills the stacks with places of the program, if it has any.
pub fn crowd(random: &mut Random, record: &mut Record, program: &Program) {
    if program.steps.is_empty() {
        return;
    }
    let mut place = |_| random.pick(&program.steps).place;
    for stack in [&mut record.gosubs, &mut record.dos] {
        stack.depth = 8;
        stack.places = [0; 8].map(&mut place);
    }
    let places = [0; 4].map(&mut place);
    record.fors.depth = 4;
    record.fors.entries = places.map(|place| ForEntry {
        variable: random.below(26) as u8,
        ..entry(random, place)
    });
}

/// Makes the record fit no page: its flags, a depth, or the variable of a FOR are out of range.
pub fn overdo(random: &mut Random, record: &mut Record, program: &Program) {
    let kind = random.below(5);
    if kind < 3 {
        crowd(random, record, program);
    }
    let deep = [9, 9, 10, 16, 255, 256, 264, 65_535];
    match kind {
        0 => record.gosubs.depth = *random.pick(&deep),
        1 => record.dos.depth = *random.pick(&deep),
        2 => record.fors.depth = *random.pick(&[5, 5, 6, 8, 255, 256, 260, 65_535]),
        3 => record.flags = *random.pick(&[8, 8, 9, 16, 32, 64, 128, 255]),
        _ => {
            let variable = *random.pick(&[26, 26, 27, 32, 65, 127, 128, 255]);
            live_for(random, record, program).variable = variable;
        }
    }
}

/// Puts a place into the record that is mostly none of the page's, whose length this is.
pub fn misplace(random: &mut Random, record: &mut Record, program: &Program, length: usize) {
    let beside = true_place(random, program).unwrap_or_default().0;
    let place = Place(match random.below(6) {
        0 => Place::IMMEDIATE.0,
        1 => random.below(65_536) as u16,
        2 => beside.wrapping_sub(1),
        3 => beside + 1,
        _ => random.below(length + 4) as u16,
    });
    match random.below(4) {
        0 => *live_place(random, &mut record.gosubs) = place,
        1 => *live_place(random, &mut record.dos) = place,
        2 => live_for(random, record, program).place = place,
        _ => record.paused = Some(Pause::After(place)),
    }
}

/// A slot in use; a stack that has none gets one.
fn live_place<'a>(random: &mut Random, stack: &'a mut PlaceStack) -> &'a mut Place {
    stack.depth = stack.depth.max(1);
    &mut stack.places[random.below(stack.depth)]
}

fn live_for<'a>(
    random: &mut Random,
    record: &'a mut Record,
    program: &Program,
) -> &'a mut ForEntry {
    if record.fors.depth == 0 {
        let place = true_place(random, program).unwrap_or_default();
        record.fors.push(entry(random, place));
    }
    &mut record.fors.entries[random.below(record.fors.depth)]
}

/// Any record for a page that may be bad itself.
pub fn any_record(random: &mut Random, page: &[u8]) -> Record {
    let program = read_page(page).unwrap_or_default();
    let mut record = match random.percent(25) {
        true => Record::default(),
        false => fitting(random, &program),
    };
    if random.percent(9) {
        spoil(random, &mut record);
    }
    record
}
