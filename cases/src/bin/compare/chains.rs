//! Random cases, each with calls that go on from what it left.

use model::case::{Call, Case};
use model::page::read_page;
use model::random::cases::{budget, case, input, memory};
use model::random::edits::{any_sequence, Sequence};
use model::random::faults::{FAULTY, SOUND};
use model::random::forms::carrying;
use model::random::pages::{any_page, program, render, Lines};
use model::random::records::{any_record, crowd, fitting, misplace, overdo};
use model::random::tables::any_table;
use model::random::texts::Setting;
use model::random::{Random, Size};
use model::table::TABLE_LEAST;
use model::{Answer, ForEntry, ForStack, Pause, Place, PlaceStack, Record, Stop};

use crate::trial::Trial;

/// Holds a trial, and hands back what it answered unless the two differ.
pub type Hold<'a> = dyn FnMut(&mut Trial) -> Option<Answer> + 'a;

/// A case of any kind, and perhaps some calls more.
pub fn chain(random: &mut Random, hold: &mut Hold) {
    match random.weighted(&[50, 14, 5, 12, 8, 3, 8, 12]) {
        0 => any(random, Size::Full, hold),
        1 => any(random, Size::Small, hold),
        2 => {
            let sequence = any_sequence(random);
            edits(random, sequence, hold);
        }
        3 => drop(hold(&mut fitted(random))),
        4 => drop(hold(&mut bits(random))),
        5 => drop(hold(&mut far(random))),
        6 => drop(hold(&mut gathered(random))),
        _ => carried(random, hold),
    }
}

/// A save or a load of any kind; and what a save wrote loaded by another box, which then saves it again.
fn carried(random: &mut Random, hold: &mut Hold) {
    let size = *random.pick(&[Size::Small, Size::Full]);
    let mut trial = Trial::new(carrying(random, size));
    let (call, from) = (trial.case.call, trial.case.output_position as usize);
    let Some(answer) = hold(&mut trial) else {
        return;
    };
    let mut other = Trial::new(carrying(random, size)).case;
    if call == Call::Save && answer.stop == Stop::Done {
        let form = trial.case.output[from..answer.output_position as usize].to_vec();
        other.call = Call::Load;
        other.memory.resize(trial.case.memory.len(), 0);
        other.saved = form;
        trial = Trial::new(other);
        if hold(&mut trial).is_none_or(|answer| answer.stop != Stop::Done) {
            return;
        }
    }
    // On what a load left any call goes on.
    let mut case = trial.case;
    case.call = *random.pick(&Call::ALL);
    hold(&mut Trial::new(case));
}

fn any(random: &mut Random, size: Size, hold: &mut Hold) {
    let mut trial = Trial::new(case(random, size));
    for _ in 0..random.between(1, 6) {
        match hold(&mut trial) {
            None => return,
            Some(answer) => trial = next(random, trial.case, size, &answer),
        }
    }
}

/// The next call of a host that may take what was written, type more, or have changed the page meanwhile.
fn next(random: &mut Random, mut case: Case, size: Size, answer: &Answer) -> Trial {
    let program = read_page(&case.page).unwrap_or_default();
    let numbers: Vec<u16> = program.lines.iter().map(|line| line.number.0).collect();
    let setting = Setting {
        size,
        lines: &numbers,
        memory: case.memory.len(),
    };
    let paused = case.record.paused.is_some();
    case.call = match paused && random.percent(80) {
        true => Call::Continue,
        false => Call::Line,
    };
    case.input_position = answer.input_position;
    case.output_position = answer.output_position;
    if random.percent(60) {
        (case.input, case.input_position) = input(random, setting, case.call);
    }
    if random.percent(60) {
        case.output_position = 0;
    }
    if random.percent(3) {
        let lines = program_of_two(random);
        case.page = any_page(random, size, &lines);
    }
    if answer.stop == Stop::BadTable || random.percent(15) {
        case.table = any_table(random, size, &case.page);
    }
    case.budget = budget(random, size);
    case.sense = random.byte();
    Trial::new(case)
}

/// Lines typed on one page until none is left, with a typed GOSUB open, which an edit closes.
pub fn edits(random: &mut Random, sequence: Sequence, hold: &mut Hold) {
    let mut record = Record::default();
    record.gosubs.push(Place::IMMEDIATE);
    let page = empty_page(random, sequence.length);
    let mut trial = Trial::new(Case {
        memory: vec![13; 8],
        output: vec![0; random.below(900)],
        budget: 3,
        record,
        table: sequence.table,
        ..Case::typed(page, &sequence.typed)
    });
    while let Some(answer) = hold(&mut trial) {
        if answer.input_position == trial.case.input_position {
            return;
        }
        let mut case = trial.case;
        case.input_position = answer.input_position;
        if case.record.gosubs.depth == 0 {
            case.record.gosubs.push(Place::IMMEDIATE);
        }
        trial = Trial::new(case);
    }
}

/// A page with no program, and any bytes behind its end mark.
fn empty_page(random: &mut Random, length: usize) -> Vec<u8> {
    let mut page = render(&Lines::new());
    while page.len() < length {
        page.push(random.byte());
    }
    page
}

/// A program of two lines or more.
pub fn program_of_two(random: &mut Random) -> Lines {
    loop {
        let size = *random.pick(&[Size::Small, Size::Full]);
        let lines = program(random, size, 64);
        if lines.len() >= 2 {
            return lines;
        }
    }
}

/// A record for a page: one that fits it, one that fits none, or one with a place that is mostly wrong.
pub fn near(random: &mut Random, page: &[u8]) -> Record {
    let program = read_page(page).unwrap_or_default();
    let mut record = match random.percent(30) {
        true => Record::default(),
        false => fitting(random, &program),
    };
    if random.percent(10) {
        crowd(random, &mut record, &program);
    }
    match random.below(4) {
        0 => overdo(random, &mut record, &program),
        1 => misplace(random, &mut record, &program, page.len()),
        _ => {}
    }
    record
}

/// A page made in one way, a record for it and a table.
fn fitted(random: &mut Random) -> Trial {
    let lines = program_of_two(random);
    let ways = match random.percent(60) {
        true => &SOUND[..],
        false => &FAULTY[..],
    };
    let way = *random.pick(ways);
    let page = way(random, lines);
    let record = near(random, &page);
    let table = any_table(random, Size::Full, &page);
    let typed: [&[u8]; 4] = [b"\r", b"RUN\r", b"RETURN\r", b"GOTO 10\r"];
    let input = *random.pick(&typed);
    Trial::new(Case {
        call: *random.pick(&[Call::Line, Call::Continue]),
        memory: memory(random, Size::Small),
        output: vec![0; 100],
        budget: random.below(9) as u32,
        sense: random.byte(),
        record,
        table,
        ..Case::typed(page, input)
    })
}

fn word(random: &mut Random) -> usize {
    usize::from_le_bytes([0; 8].map(|_| random.byte()))
}

fn short(random: &mut Random) -> u16 {
    u16::from_le_bytes([random.byte(), random.byte()])
}

fn bytes(random: &mut Random, most: usize) -> Vec<u8> {
    let length = match random.below(20) {
        0 => most + random.below(3),
        1 => most - random.below(3),
        2..=8 => random.below(3),
        _ => random.below(most.min(200)),
    };
    (0..length).map(|_| random.byte()).collect()
}

/// Any numbers for a table, of the least length or beside it.
fn numbers(random: &mut Random) -> Vec<u16> {
    let length = random.between(TABLE_LEAST - 2, TABLE_LEAST + 2);
    (0..length).map(|_| short(random)).collect()
}

/// A number at or beside its limit, or any bits.
fn number(random: &mut Random, limit: usize) -> usize {
    match random.below(8) {
        0 => word(random),
        1 => limit + random.below(3),
        2 => limit,
        _ => random.below(limit + 1),
    }
}

fn any_places(random: &mut Random) -> PlaceStack {
    PlaceStack {
        depth: number(random, 8),
        places: [0; 8].map(|_| Place(short(random))),
    }
}

/// Any bits at all for a record.
fn any_bits(random: &mut Random) -> Record {
    let paused = short(random);
    Record {
        variables: [0; 26].map(|_| short(random) as i16),
        flags: random.byte(),
        gosubs: any_places(random),
        dos: any_places(random),
        fors: ForStack {
            depth: number(random, 4),
            entries: [0; 4].map(|_| ForEntry {
                variable: random.byte(),
                limit: short(random) as i16,
                step: short(random) as i16,
                place: Place(short(random)),
            }),
        },
        paused: random
            .percent(50)
            .then_some(Pause::After(Place(paused % 65_534))),
    }
}

/// Bits for some of what is lent or for all of it, positions and lengths included.
fn bits(random: &mut Random) -> Trial {
    let page = match random.percent(40) {
        true => bytes(random, 4096),
        false => {
            let lines = program_of_two(random);
            any_page(random, Size::Full, &lines)
        }
    };
    let record = match random.percent(50) {
        true => any_bits(random),
        false => any_record(random, &page),
    };
    let table = match random.percent(20) {
        true => Some(numbers(random)),
        false => any_table(random, Size::Full, &page),
    };
    let case = Case {
        call: *random.pick(&[Call::Line, Call::Continue]),
        memory: bytes(random, 4096),
        output: bytes(random, 65_535),
        record,
        table,
        ..Case::typed(page, &bytes(random, 65_535))
    };
    let numbers = nibl::Call {
        inpos: number(random, case.input.len()),
        outpos: number(random, case.output.len()),
        sense: random.byte(),
        budget: number(random, 65_535),
    };
    Trial::with_numbers(case, numbers)
}

/// A case with one number past 32 bits, whose low 32 bits would be in range.
fn far(random: &mut Random) -> Trial {
    let case = case(random, Size::Full);
    let mut numbers = cases::numbers(&case);
    let by = (1 << 32) * random.between(1, 9);
    match random.below(3) {
        0 => numbers.inpos += by,
        1 => numbers.outpos += by,
        _ => numbers.budget += by,
    }
    Trial::with_numbers(case, numbers)
}

/// A reply of any bytes with slips: INPUT of a string shows all that was kept of it.
fn gathered(random: &mut Random) -> Trial {
    let mut input = Vec::new();
    for _ in 0..random.below(110) {
        match random.weighted(&[60, 8, 1, 4, 20]) {
            0 => input.push(random.between(32, 126) as u8),
            1 => input.extend(vec![95; random.between(1, 4)]),
            2 => input.push(21),
            3 => input.push(*random.pick(&[0, 10])),
            _ => input.push(random.byte()),
        }
    }
    if random.percent(98) {
        input.push(13);
    }
    let page = render(&vec![(1, "INPUT $0".to_string())]);
    Trial::new(Case {
        call: Call::Continue,
        memory: vec![0; random.between(60, 80)],
        output: vec![0; 1],
        budget: 1,
        record: Record {
            paused: Some(Pause::Start),
            ..Record::default()
        },
        ..Case::typed(page, &input)
    })
}
