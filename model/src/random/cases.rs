//! Whole cases: one call with everything it is lent.

use super::pages::{any_page, program};
use super::records::{any_record, pause};
use super::tables::any_table;
use super::texts::Setting;
use super::typed::{line_numbers, replies, typed_line};
use super::{Random, Size};
use crate::case::{Call, Case};
use crate::page::read_page;

/// Memory bytes: mostly letters and CRs, so that strings are found.
pub fn memory(random: &mut Random, size: Size) -> Vec<u8> {
    let most = match size {
        Size::Small => 40,
        Size::Full => 400,
    };
    let length = match random.below(12) {
        0 => 0,
        1 => random.below(5),
        2 if size == Size::Full => 4096,
        _ => random.below(most),
    };
    let mut byte = || match random.below(6) {
        0 => 13,
        1 => random.byte(),
        _ => random.between(32, 126) as u8,
    };
    (0..length).map(|_| byte()).collect()
}

/// An output with some of it used up, often with little room left.
fn output(random: &mut Random, size: Size) -> (Vec<u8>, u32) {
    let most = match size {
        Size::Small => 60,
        Size::Full => 600,
    };
    let room = match random.below(16) {
        0 => 0,
        1 | 2 => random.below(8),
        3 => random.below(20),
        _ => random.between(most / 4, most),
    };
    let used = random.below(5);
    let output = (0..used + room).map(|_| random.byte()).collect();
    (output, used as u32)
}

pub fn budget(random: &mut Random, size: Size) -> u32 {
    let budget = match (size, random.below(20)) {
        (_, 0) => 0,
        (_, 1..=7) => random.between(1, 8),
        (Size::Small, _) => random.between(5, 25),
        (Size::Full, 19) => *random.pick(&[1000, 65_535]),
        (Size::Full, _) => random.between(5, 300),
    };
    budget as u32
}

/// The input: bytes already taken, what this call is to take, and more.
pub fn input(random: &mut Random, setting: Setting, call: Call) -> (Vec<u8>, u32) {
    let mut input: Vec<u8> = (0..random.below(4)).map(|_| random.byte()).collect();
    let taken = input.len() as u32;
    if call == Call::Line {
        input.extend(typed_line(random, setting));
    }
    input.extend(replies(random, setting));
    if setting.size == Size::Small {
        input.truncate(120);
    }
    (input, taken)
}

/// Puts a position or the budget at or past its limit.
fn spoil_numbers(random: &mut Random, case: &mut Case) {
    let far = *random.pick(&[0, 1, 1, 2, 65_536, u32::MAX]);
    match random.below(5) {
        0 | 1 => case.input_position = (case.input.len() as u32).saturating_add(far),
        2 | 3 => case.output_position = (case.output.len() as u32).saturating_add(far),
        _ => case.budget = 65_535u32.saturating_add(far),
    }
}

/// Makes a buffer longer than a call may be lent.
fn spoil_lengths(random: &mut Random, case: &mut Case) {
    match random.below(3) {
        0 => case.memory.resize(4097, 0),
        1 => case.input.resize(65_536, 13),
        _ => case.output.resize(65_536, 0),
    }
}

/// Lets a run go some steps first, so that the case begins with the record and
/// the memory a real run leaves, mostly paused.
fn warm_up(random: &mut Random, case: &mut Case) {
    let mut run = case.clone();
    run.call = Call::Line;
    run.input = b"RUN\r1,2,3\r4\r".to_vec();
    run.input_position = 0;
    run.budget = random.between(1, 20) as u32;
    run.run();
    case.record = run.record;
    case.memory = run.memory;
}

/// A case of any kind.
pub fn case(random: &mut Random, size: Size) -> Case {
    let memory = memory(random, size);
    let lines = program(random, size, memory.len());
    let numbers = line_numbers(&lines);
    let setting = Setting {
        size,
        lines: &numbers,
        memory: memory.len(),
    };
    let call = *random.pick(&[Call::Line, Call::Line, Call::Continue]);
    let page = any_page(random, size, &lines);
    let mut record = any_record(random, &page);
    if call == Call::Continue && record.paused.is_none() && random.percent(90) {
        record.paused = Some(pause(random, &read_page(&page).unwrap_or_default()));
    }
    let (input, input_position) = input(random, setting, call);
    let (output, output_position) = output(random, size);
    let mut case = Case {
        call,
        page,
        memory,
        input,
        output,
        input_position,
        output_position,
        budget: budget(random, size),
        sense: random.byte(),
        record,
        table: None,
        saved: Vec::new(),
    };
    if random.percent(25) {
        warm_up(random, &mut case);
    }
    case.table = any_table(random, size, &case.page);
    if random.percent(3) {
        spoil_numbers(random, &mut case);
    }
    if size == Size::Full && random.below(2000) == 0 {
        spoil_lengths(random, &mut case);
    }
    case
}
