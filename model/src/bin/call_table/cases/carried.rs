//! Saves and loads: forms that are written, taken and refused. A load's form is the input, whole.

use model::random::forms::form_of;
use model::table::TABLE_LEAST;

use super::{Change, FIVE, TWO};
use crate::written::{on, page_of, Written};

pub fn cases() -> Vec<Written> {
    let chapters = [saves, refused_saves, loads, refused_loads, there_and_back];
    chapters.iter().flat_map(|chapter| chapter()).collect()
}

/// The form of this program with a memory of so many bytes 9, A=258 and Z=-2.
fn form(program: &[&str], memory: usize) -> Vec<u8> {
    let mut case = model::case::Case::typed(page_of(program), b"");
    case.memory = vec![9; memory];
    case.record.variables[0] = 258;
    case.record.variables[25] = -2;
    form_of(&case)
}

/// A box lived in that is lent these bytes for a form.
fn lent(name: &str, form: Vec<u8>) -> Written {
    on(name, &FIVE).with(|gate| gate.input = form)
}

/// The program of FIVE has 48 bytes with its end mark, and the memory 32: a form of 136 bytes.
fn saves() -> Vec<Written> {
    let wide = |name: &str, program: &[&str], room: usize| {
        on(name, program).with(|gate| gate.output.resize(2 + room, b'.'))
    };
    vec![
        wide("a save", &FIVE, 150).saves(0),
        wide("a save with just the room", &FIVE, 136).saves(0),
        wide("a save with a byte less", &FIVE, 135).saves(17),
        wide("a save of no program", &[], 90).saves(0),
        wide(
            "a save keeps a pause, and what it does not look at",
            &TWO,
            110,
        )
        .with(|gate| gate.input_position = 99)
        .saves(0)
        .budget(65_536),
        wide("a save twice", &[], 180).saves(0).saves(0),
    ]
}

#[rustfmt::skip]
const REFUSED_SAVES: [(u8, &str, Change); 7] = [
    (1, "a save of a page of 1", |gate| gate.page.truncate(1)),
    (1, "a save with a memory of 4,097", |gate| gate.memory.resize(4097, 0)),
    (1, "a save past the output", |gate| gate.output_position = 81),
    (18, "a save of a bad page", |gate| gate.page[0] = 128),
    (19, "a save of a record that does not fit", |gate| gate.record.flags = 8),
    (18, "a save's 18 before 19", |gate| { gate.page[0] = 128; gate.record.flags = 8; }),
    (19, "a save's 19 before 17", |gate| { gate.record.flags = 8; gate.output.truncate(2); }),
];

fn refused_saves() -> Vec<Written> {
    let refused =
        |(stop, name, change): (u8, &str, Change)| on(name, &FIVE).with(change).saves(stop);
    REFUSED_SAVES.map(refused).into_iter().collect()
}

fn loads() -> Vec<Written> {
    let garbage: Change = |gate| {
        gate.page.fill(1);
        gate.record.flags = 255;
        gate.record.dos.depth = 99;
    };
    vec![
        lent("a load", form(&TWO, 32)).loads(0),
        lent("a load over garbage", form(&TWO, 32))
            .with(garbage)
            .loads(0),
        lent("a load of no program", form(&[], 32)).loads(0),
        lent("a load into just the room", form(&TWO, 32))
            .page(20)
            .loads(0),
        lent("a load with a false table lent", form(&TWO, 32))
            .with(|gate| gate.table = vec![777; TABLE_LEAST])
            .lending(true)
            .loads(0),
        lent("a load with a table that is not lent", form(&TWO, 32))
            .with(|gate| gate.table = vec![777; 3])
            .loads(0),
        lent(
            "a load does not look at positions and output",
            form(&TWO, 32),
        )
        .with(|gate| (gate.input_position, gate.output_position) = (9999, 9999))
        .loads(0)
        .budget(65_536),
    ]
}

fn refused_loads() -> Vec<Written> {
    let sound = || form(&TWO, 32);
    let spoilt = |at: usize, byte: u8| {
        let mut form = sound();
        form[at] = byte;
        form
    };
    let short: Change = |gate| gate.table = vec![777; TABLE_LEAST - 1];
    let mut cases = vec![
        lent("a load into a page of 1", sound()).page(1).loads(1),
        lent("a load with a short table", sound())
            .with(short)
            .lending(true)
            .loads(1),
        lent("a load of nothing", vec![]).loads(22),
        lent("a load of form 2", spoilt(0, 2)).loads(22),
        lent("a load of a 1 alone", vec![1]).loads(23),
        lent("a load with another count of variables", spoilt(1, 25)).loads(23),
        lent("a load with a line fewer than it has", spoilt(55, 1)).loads(23),
        lent("a load with a line more than it has", spoilt(55, 3)).loads(23),
        lent("a load with a line that has no reading", spoilt(60, b'?')).loads(23),
        lent("a load with equal numbers", spoilt(65, 10)).loads(23),
        lent("a load of a form cut by a byte", sound()[..107].to_vec()).loads(23),
        lent(
            "a load of a form with a byte more",
            [sound(), vec![0]].concat(),
        )
        .loads(23),
        lent("a load with a memory of 31", form(&TWO, 31)).loads(24),
        lent("a load with a memory of 33", form(&TWO, 33)).loads(24),
        lent("a load into a page a byte too short", sound())
            .page(19)
            .loads(2),
        lent("a load's 24 before 2", form(&TWO, 31))
            .page(19)
            .loads(24),
    ];
    cases.push(lent("22 before 23", vec![2]).loads(22));
    cases
}

/// On what a load left, other calls go on.
fn there_and_back() -> Vec<Written> {
    vec![
        lent(
            "a load, a save and a listing",
            [form(&TWO, 32), b"LIST\r".to_vec()].concat(),
        )
        .with(|gate| {
            let end = gate.input.len() - 5;
            gate.input_position = end as u32;
            gate.output.resize(300, b'.');
        })
        .loads(23)
        .types(0),
        lent("a load, and a save of it", form(&TWO, 32))
            .with(|gate| gate.output.resize(300, b'.'))
            .loads(0)
            .saves(0),
        lent("a load ends a pause", form(&TWO, 32))
            .paused()
            .loads(0)
            .goes_on(0),
        lent(
            "a load makes a lent table true for the next call",
            form(&TWO, 32),
        )
        .with(|gate| gate.table = vec![5; TABLE_LEAST])
        .lending(true)
        .loads(0)
        .goes_on(0),
    ]
}
