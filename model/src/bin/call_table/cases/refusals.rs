//! The first refusals, of both calls: 1, 18 and 19. They change nothing. 26 is among the cases with a table.

use model::{ForEntry, Pause, Place};

use super::{pause_after, refused, typed, wrong, Change, FIVE, TWO};
use crate::gate::Gate;
use crate::written::{fresh, on, page_of, Written};

pub fn cases() -> Vec<Written> {
    let chapters = [
        out_of_range,
        at_the_limits,
        bad_pages,
        bad_records,
        one_before_another,
    ];
    chapters.iter().flat_map(|chapter| chapter()).collect()
}

const LOOP: [&str; 2] = ["10 A=A+1", "20 GOTO 10"];

#[rustfmt::skip]
const OUTSIDE: [(&str, Change); 10] = [
    ("a page of no byte", |gate| gate.page.clear()),
    ("a page of one byte", |gate| gate.page.truncate(1)),
    ("a page of 4,097 bytes", |gate| gate.page.resize(4097, 171)),
    ("a memory of 4,097 bytes", |gate| gate.memory.resize(4097, 7)),
    ("an input of 65,536 bytes", |gate| gate.input.resize(65_536, 13)),
    ("an output of 65,536 bytes", |gate| gate.output.resize(65_536, 46)),
    ("an input position past the length", |gate| gate.input_position = gate.input.len() as u32 + 1),
    ("the highest input position", |gate| gate.input_position = u32::MAX),
    ("an output position past the length", |gate| gate.output_position = gate.output.len() as u32 + 1),
    ("the highest output position", |gate| gate.output_position = u32::MAX),
];

fn out_of_range() -> Vec<Written> {
    let outside = OUTSIDE.map(|(name, change)| refused(1, name, &LOOP, change));
    let budgets = [
        refused(1, "a budget of 65,536", &LOOP, |_| {}).budget(65_536),
        refused(1, "the highest budget", &LOOP, |_| {}).budget(u32::MAX),
    ];
    outside.into_iter().chain(budgets).collect()
}

/// As small and as large as can be, and still no 1.
fn at_the_limits() -> Vec<Written> {
    let smallest = |gate: &mut Gate| {
        gate.page.truncate(2);
        gate.memory.clear();
        gate.input.clear();
        gate.output.clear();
        (gate.input_position, gate.output_position) = (0, 0);
    };
    let largest = |gate: &mut Gate| {
        gate.page.resize(4096, 171);
        gate.memory.resize(4096, 7);
        gate.input.resize(65_535, 13);
        gate.output.resize(65_535, 46);
        (gate.input_position, gate.output_position) = (65_534, 65_535);
    };
    let last_byte = ["10 @4095=65:A=@4095"];
    vec![
        on("the least of everything: no CR", &[])
            .with(smallest)
            .types(7)
            .goes_on(0)
            .budget(0),
        // The line's CR is the last byte; then the input is used up.
        on("the most of everything", &last_byte)
            .with(largest)
            .types(0)
            .goes_on(0)
            .types(7)
            .budget(65_535),
        on("the most of everything, paused", &last_byte)
            .with(largest)
            .paused()
            .goes_on(0)
            .budget(65_535),
        on("the last two bytes of the longest output", &LOOP)
            .with(largest)
            .with(|gate| {
                gate.input[1..13].copy_from_slice(b"PRINT \"AB\";\r");
                (gate.input_position, gate.output_position) = (1, 65_533);
            })
            .types(0),
        on("a memory of no byte", &["10 A=@0"])
            .with(|gate| gate.memory.clear())
            .paused()
            .goes_on(16),
        fresh("a budget of 65,535 is spent", &LOOP)
            .lines(&["GOTO 20"])
            .types(14)
            .goes_on(14)
            .budget(65_535),
    ]
}

#[rustfmt::skip]
const BAD_PAGES: [(&str, Change); 27] = [
    ("no end mark", |gate| gate.page.truncate(18)),
    ("half an end mark", |gate| gate.page.truncate(19)),
    ("an end mark with another second byte", |gate| gate.page[19] = 254),
    ("a line number above 32,767", |gate| gate.page[8] = 128),
    ("two lines of one number", |gate| gate.page[9] = 10),
    ("line numbers that fall", |gate| gate.page[9] = 9),
    ("a record's length of 0", |gate| gate.page[10] = 0),
    ("a record's length of 3", |gate| gate.page[10] = 3),
    ("a record without a text", |gate| gate.page[8..14].copy_from_slice(&[0, 20, 4, 13, 255, 255])),
    ("a record's length one short", |gate| gate.page[10] = 9),
    ("a record's length one long", |gate| gate.page[10] = 11),
    ("a record past the page's end", |gate| gate.page[10] = 255),
    ("a record cut off behind its length", |gate| gate.page.truncate(11)),
    ("no CR at a record's end", |gate| gate.page[17] = 10),
    ("a CR within a text", |gate| gate.page[16] = 13),
    ("byte 95 in a text", |gate| gate.page[16] = 95),
    ("byte 127 in a text", |gate| gate.page[16] = 127),
    ("a text that begins with a digit", |gate| gate.page[11] = b'7'),
    ("a text without a reading", |gate| gate.page[13] = b'A'),
    ("a text of spaces", |gate| gate.page[11..17].fill(b' ')),
    ("a command for a text", |gate| gate.page = page_of(&["20 NEW"])),
    ("a command with more behind it for a text", |gate| gate.page = page_of(&["20NEWA=1"])),
    ("a text with a letter before a keyword", |gate| gate.page = page_of(&["10PRINTA", "20A=AANDB"])),
    ("a text with a keyword behind an IF's letter", |gate| gate.page = page_of(&["10REMARK", "20IFADO"])),
    ("a text with TO and P written together", |gate| gate.page = page_of(&["20 FOR I=1TOP"])),
    ("a text with a part of a keyword", |gate| gate.page = page_of(&["20 PRIN"])),
    ("73 bytes of number and text", |gate| gate.page = page_of(&[&format!("10 REM {}", "X".repeat(66))])),
];

fn bad_pages() -> Vec<Written> {
    let bad = BAD_PAGES.map(|(name, change)| refused(18, name, &TWO, change));
    let longest = format!("10 REM {}", "X".repeat(65));
    let together = [
        "10FORI=1TO2:PRINTI;:NEXTI",
        "20IFNOTI=0GOTOX",
        "30REMARK:END",
    ];
    let good = [
        fresh("words written together in a page", &together).lines(&["RUN"]),
        fresh("72 bytes of number and text", &[&longest]).lines(&["RUN"]),
        fresh("an end mark before the page's end", &TWO)
            .lines(&["RUN"])
            .with(|gate| gate.page[8..10].fill(255)),
        fresh("line numbers 0 and 32,767", &["0A=1", "32767B=2"]).lines(&["RUN"]),
    ];
    let good = good.map(|case| case.types(0).goes_on(0));
    bad.into_iter().chain(good).collect()
}

/// Fills the stacks. Every slot fits; the pause is after the last place.
fn full(gate: &mut Gate) {
    let places = [12, 16, 30, 34, 45, 12, 16, 30].map(Place);
    let record = &mut gate.record;
    record.gosubs.places = places;
    record.gosubs.places[5] = Place::IMMEDIATE;
    record.gosubs.depth = 8;
    record.dos.places = places;
    record.dos.depth = 8;
    record.fors.entries = std::array::from_fn(|at| ForEntry {
        variable: [0, 25, 8, 8][at],
        limit: at as i16 - 2,
        step: -1,
        place: places[at],
    });
    record.fors.depth = 4;
    record.paused = Some(Pause::After(Place(45)));
}

#[rustfmt::skip]
const BAD_RECORDS: [(&str, Change); 25] = [
    ("flags of 8", |gate| gate.record.flags = 8),
    ("nine GOSUBs", |gate| gate.record.gosubs.depth = 9),
    ("200 GOSUBs", |gate| gate.record.gosubs.depth = 200),
    ("65,535 GOSUBs", |gate| gate.record.gosubs.depth = 65_535),
    ("nine DOs", |gate| gate.record.dos.depth = 9),
    ("65,535 DOs", |gate| gate.record.dos.depth = 65_535),
    ("five FORs", |gate| gate.record.fors.depth = 5),
    ("200 FORs", |gate| gate.record.fors.depth = 200),
    ("the oldest GOSUB at no place", |gate| gate.record.gosubs.places[0] = Place(0)),
    ("the newest GOSUB at no place", |gate| gate.record.gosubs.places[7] = Place(17)),
    ("a GOSUB at the \":\" in a string", |gate| gate.record.gosubs.places[2] = Place(28)),
    ("a GOSUB at a line number", |gate| gate.record.gosubs.places[3] = Place(10)),
    ("a GOSUB at the end mark", |gate| gate.record.gosubs.places[4] = Place(46)),
    ("a GOSUB one below the immediate mark", |gate| gate.record.gosubs.places[5] = Place(65_534)),
    ("a DO at the immediate mark", |gate| gate.record.dos.places[0] = Place::IMMEDIATE),
    ("a DO before its place", |gate| gate.record.dos.places[3] = Place(33)),
    ("the newest DO past its place", |gate| gate.record.dos.places[7] = Place(31)),
    ("a FOR at the immediate mark", |gate| gate.record.fors.entries[1].place = Place::IMMEDIATE),
    ("a FOR past its place", |gate| gate.record.fors.entries[0].place = Place(13)),
    ("a FOR of variable 26", |gate| gate.record.fors.entries[3].variable = 26),
    ("a pause at no place", |gate| gate.record.paused = Some(Pause::After(Place(0)))),
    ("a pause at the \":\" in a string", |gate| gate.record.paused = Some(Pause::After(Place(28)))),
    ("a pause at a CR behind the end mark", |gate| {
        gate.page[50] = 13;
        gate.record.paused = Some(Pause::After(Place(50)));
    }),
    ("a pause at the end mark", |gate| gate.record.paused = Some(Pause::After(Place(46)))),
    ("the highest pause", |gate| gate.record.paused = Some(Pause::After(Place(65_533)))),
];

fn bad_records() -> Vec<Written> {
    let bad = |(name, spoil): (&str, Change)| {
        let case = on(name, &FIVE).lines(&["NEW"]).with(full).with(spoil);
        case.types(19).goes_on(19)
    };
    let good = [
        on("full stacks that fit", &FIVE).lines(&["REM"]).with(full),
        // Nothing is on the stacks, so no slot is looked at.
        fresh("slots that hold anything", &FIVE)
            .lines(&["REM"])
            .with(|gate| gate.record.flags = 7),
    ];
    let go_on = [
        on("full stacks and a pause after the last place", &FIVE)
            .with(full)
            .goes_on(0),
        // RETURN leads behind the newest GOSUB, to END.
        on("full stacks and a pause before RETURN", &FIVE)
            .with(full)
            .with(pause_after(34))
            .goes_on(20),
    ];
    let good = good.map(|case| case.types(0));
    let cases = BAD_RECORDS.into_iter().map(bad);
    cases.chain(good).chain(go_on).collect()
}

/// Two stops apply to each, and one comes first: 1, 18, 19, 7, 5, 3, 2; 26 is among the cases with a table.
fn one_before_another() -> Vec<Written> {
    let spoil_page: Change = |gate| gate.page[10] = 9;
    let spoil_record: Change = |gate| gate.record.flags = 8;
    let cut: Change = |gate| gate.input.truncate(4);
    vec![
        refused(1, "1 before 18", &TWO, spoil_page).budget(65_536),
        refused(1, "1 before 19", &TWO, spoil_record).budget(65_536),
        on("1 before 7", &TWO).types(1).budget(65_536),
        refused(18, "18 before 19", &TWO, |gate| {
            gate.page[10] = 9;
            gate.record.flags = 8;
        }),
        refused(18, "18 before 7", &TWO, spoil_page).with(cut),
        refused(19, "19 before 7", &TWO, spoil_record).with(cut),
        on("18 before 0, with nothing paused", &TWO)
            .with(spoil_page)
            .with(|gate| gate.record.paused = None)
            .goes_on(18),
        on("19 before 0, with nothing paused", &TWO)
            .with(spoil_record)
            .with(|gate| gate.record.paused = None)
            .goes_on(19),
        typed(19, "19 before 5", &TWO, "NONSENSE").with(spoil_record),
        on("7 before 5", &TWO).input("NONSENSE").types(7),
        wrong(3, "5 before 3", &TWO, "DO DO"),
        wrong(4, "5 before 2", &TWO, "30 NONSENSE").page(20),
        wrong(72, "over-long before 2", &TWO, &"30 A=1".repeat(13)).page(20),
        typed(3, "3 before what would run", &TWO, "IF 1/0 INPUT A"),
    ]
}
