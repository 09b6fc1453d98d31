//! Saved forms, sound ones and damaged ones of each kind; and lists of saves and loads, always the same ones, to hold
//! implementations to each other by.

use super::cases::{case, memory};
use super::pages::{program, render, Lines};
use super::{Random, Size};
use crate::case::{Call, Case};
use crate::page::END_MARK;
use crate::record::{Pause, Place};
use crate::stop::Stop;
use crate::table::TABLE_LEAST;

/// Where a form's records begin.
const RECORDS: usize = 56;

/// Bytes of the longest form.
const LONGEST: usize = 8248;

/// Spoils a form that is sound.
pub type Way = fn(random: &mut Random, form: &mut Vec<u8>);

/// Ways that spoil a form, if it has what they need.
#[rustfmt::skip]
pub const DAMAGED: [(&str, Way); 14] = [
    ("a byte changed", |random, form| { let at = random.below(form.len()); form[at] = random.byte(); }),
    ("a bit changed", |random, form| { let at = random.below(form.len()); form[at] ^= 1 << random.below(8); }),
    ("cut", |random, form| form.truncate(random.below(form.len()))),
    ("bytes added", |random, form| (0..random.between(1, 3)).for_each(|_| form.push(random.byte()))),
    ("a byte put in", |random, form| form.insert(random.below(form.len() + 1), random.byte())),
    ("a byte left out", |random, form| { form.remove(random.below(form.len())); }),
    ("another number", |random, form| form[0] = random.byte()),
    ("another count of variables", |random, form| form[1] = *random.pick(&[0, 25, 27, 52, 255])),
    ("a line more", |_, form| count_by(form, 1)),
    ("a line fewer", |_, form| count_by(form, u16::MAX)),
    ("the end mark carried", |_, form| { let end = records_end(form); form.splice(end..end, END_MARK); }),
    ("the first record twice", |_, form| { let first = form[RECORDS..records_end(form).min(RECORDS + 12)].to_vec(); form.splice(RECORDS..RECORDS, first); count_by(form, 1); }),
    ("a length byte one high", |_, form| if records_end(form) > RECORDS { form[RECORDS + 2] = form[RECORDS + 2].wrapping_add(1) }),
    ("a byte of memory more than counted", |_, form| form.push(0)),
];

fn count_by(form: &mut [u8], more: u16) {
    let count = u16::from_be_bytes([form[54], form[55]]).wrapping_add(more);
    form[54..RECORDS].copy_from_slice(&count.to_be_bytes());
}

/// Where the records of a sound form end.
fn records_end(form: &[u8]) -> usize {
    let count = u16::from_be_bytes([form[54], form[55]]);
    (0..count).fold(RECORDS, |at, _| at + usize::from(form[at + 2]))
}

/// What the model saves of a box; nothing if it refuses.
pub fn form_of(case: &Case) -> Vec<u8> {
    let mut saving = Case {
        call: Call::Save,
        output: vec![0; LONGEST],
        output_position: 0,
        ..case.clone()
    };
    let end = saving.run().output_position as usize;
    saving.output.truncate(end);
    saving.output
}

/// A box of a good page, with any variables and a memory of this length.
fn sender(random: &mut Random, size: Size, length: usize) -> Case {
    let lines = program(random, size, length);
    let mut case = Case::typed(render(&lines), b"");
    for variable in &mut case.record.variables {
        *variable = random.value();
    }
    case.memory = memory(random, size);
    case.memory.resize(length, 7);
    case
}

/// A form for a memory of this length, mostly: a sound one, or a damaged one.
pub fn any_form(random: &mut Random, size: Size, length: usize) -> Vec<u8> {
    let length = match random.below(12) {
        0 => length + random.between(1, 2),
        1 => length.saturating_sub(1),
        _ => length,
    };
    let mut form = form_of(&sender(random, size, length));
    match random.below(20) {
        0 => return Vec::new(),
        1 => return (0..random.below(90)).map(|_| random.byte()).collect(),
        _ => {}
    }
    // A memory that is too long is not saved.
    if !form.is_empty() && random.percent(45) {
        random.pick(&DAMAGED).1(random, &mut form);
    }
    form
}

/// A load over any page and record, with a table that may hold anything.
fn loading(random: &mut Random, size: Size) -> Case {
    let mut case = case(random, size);
    case.call = Call::Load;
    case.saved = any_form(random, size, case.memory.len());
    let needed = case.saved.len().saturating_sub(RECORDS + case.memory.len());
    if case.page.len() < needed && random.percent(80) {
        case.page.resize(needed.clamp(2, 4096), 171);
    } else if random.percent(12) {
        let most = case.page.len().min(needed.max(2));
        case.page.truncate(random.between(2.min(most), most));
    }
    if random.percent(40) {
        case.record.flags = random.byte();
    }
    case
}

/// A save with just the room, a byte less, or any.
fn saving(random: &mut Random, size: Size) -> Case {
    let mut case = case(random, size);
    case.call = Call::Save;
    let (used, length) = (random.below(4), form_of(&case).len());
    let room = match random.below(6) {
        0 => length.saturating_sub(1),
        1 => random.below(length + 1),
        2 => return case,
        _ => length + random.below(3),
    };
    case.output = (0..used + room).map(|_| random.byte()).collect();
    case.output_position = used as u32;
    case
}

/// A save or a load of any kind.
pub fn carrying(random: &mut Random, size: Size) -> Case {
    match random.percent(40) {
        true => saving(random, size),
        false => loading(random, size),
    }
}

/// A call of any kind.
pub fn any_case(random: &mut Random, size: Size) -> Case {
    match random.percent(20) {
        true => carrying(random, size),
        false => case(random, size),
    }
}

fn lines(lines: &[(u16, &str)]) -> Lines {
    let owned = lines.iter().map(|&(number, text)| (number, text.into()));
    owned.collect()
}

/// Boxes whose forms the lists are made from.
fn senders() -> Vec<Case> {
    let longest = format!("REM{}", "X".repeat(67));
    let programs = [
        lines(&[]),
        lines(&[(10, " END")]),
        lines(&[(0, "A=1:B=2"), (10, " IF A<B GOTO 0"), (32_767, "REM")]),
        lines(&[(10, &longest)]),
    ];
    let boxes = programs.iter().flat_map(|lines| {
        [vec![], vec![7, 255], vec![13; 40]].map(|memory| {
            let mut case = Case::typed(render(lines), b"");
            case.memory = memory;
            case.record.variables[0] = 258;
            case.record.variables[25] = -2;
            case
        })
    });
    boxes.collect()
}

/// A load of this form over a page of garbage, with an open GOSUB, a pause and too many flags, which it does not ask about.
fn over_garbage(page: usize, memory: usize, form: &[u8]) -> Case {
    let mut case = Case::typed(vec![1; page], b"?");
    case.call = Call::Load;
    case.memory = vec![9; memory];
    case.saved = form.to_vec();
    case.output = vec![5; 3];
    case.record.flags = 9;
    case.record.gosubs.push(Place::IMMEDIATE);
    case.record.paused = Some(Pause::After(Place(75)));
    case
}

/// A table that describes no page: its numbers are all 7, or it is too short.
fn false_table(length: usize) -> Option<Vec<u16>> {
    Some(vec![7; length])
}

/// Each form: into pages with just the room and with a byte less, with memories of its length and of others, with tables.
fn loads() -> Vec<Case> {
    let mut cases = Vec::new();
    for sender in senders() {
        let form = form_of(&sender);
        let (page, memory) = (sender.page.len(), sender.memory.len());
        for page in [page - 1, page, page + 9, 1, 4096, 4097] {
            for memory in [memory, memory + 1, memory.saturating_sub(1), 4097] {
                for table in [None, false_table(TABLE_LEAST), false_table(TABLE_LEAST - 1)] {
                    cases.push(Case {
                        table,
                        ..over_garbage(page, memory, &form)
                    });
                }
            }
        }
    }
    cases
}

/// Forms with each byte changed, in many ways or in all, each cut, and each byte added at each place.
fn spoilt() -> Vec<Case> {
    let mut cases = Vec::new();
    for (at, sender) in senders().iter().enumerate() {
        let form = form_of(sender);
        let mut load = |form: &[u8]| cases.push(over_garbage(90, sender.memory.len(), form));
        let every: Vec<u8> = (0..=255).collect();
        let values = if at % 5 == 1 {
            &every[..]
        } else {
            &[0, 1, 4, 13, 26, 27, 49, 95, 127, 255]
        };
        for place in 0..form.len() {
            load(&form[..place]);
            for &value in values {
                load(&[&form[..place], &[value], &form[place + 1..]].concat());
            }
            for value in [0, 1, 13, 32, 255] {
                load(&[&form[..place], &[value], &form[place..]].concat());
            }
        }
        load(&[&form[..], &[0]].concat());
    }
    cases
}

/// Saves of each box into each room up to a little more than its form needs, from the output's start and from behind it.
fn saves() -> Vec<Case> {
    let mut cases = Vec::new();
    for sender in senders() {
        let needed = form_of(&sender).len();
        for room in (0..needed + 2)
            .step_by(7)
            .chain([needed - 1, needed, needed + 1])
        {
            for used in [0, 3] {
                let mut case = sender.clone();
                case.call = Call::Save;
                case.output = vec![5; room + used];
                case.output_position = used as u32;
                cases.push(case);
            }
        }
    }
    cases
}

/// What is refused of a save beside everything else that may be: each case with the refusal that comes first, if there is
/// one. The order is 1, 18, 19, 17.
pub fn save_refusals() -> Vec<(Case, Option<Stop>)> {
    let sender = &senders()[4];
    let needed = form_of(sender).len();
    let cases = (0..32u8).map(|faults| {
        let [far, bad, unfit, narrow, paused] = [1, 2, 4, 8, 16].map(|bit| faults & bit != 0);
        let mut case = sender.clone();
        case.call = Call::Save;
        case.output = vec![5; needed - usize::from(narrow)];
        // What a save does not look at.
        (case.input_position, case.budget, case.table) = (9, 65_536, false_table(3));
        if far {
            case.memory = vec![0; 4097];
        }
        if bad {
            case.page[0] = 128;
        }
        if unfit {
            case.record.flags = 8;
        }
        if paused {
            case.record.paused = Some(Pause::Start);
        }
        let wrong = [
            (far, Stop::OutOfRange),
            (bad, Stop::BadPage),
            (unfit, Stop::BadRecord),
            (narrow, Stop::OutputFull),
        ];
        let first = wrong.into_iter().find(|(wrong, _)| *wrong);
        (case, first.map(|(_, stop)| stop))
    });
    cases.collect()
}

/// All of these cases.
pub fn written() -> Vec<Case> {
    let refusals = save_refusals().into_iter().map(|(case, _)| case);
    let all = loads().into_iter().chain(spoilt()).chain(saves());
    all.chain(refusals).collect()
}
