//! Times the model and fails if it is too slow to be held against a gate.
//!
//! Each figure is the best of many short batches: other work on the machine can
//! only make a batch slower, and a batch of about a millisecond often runs
//! without being interrupted.

#![forbid(unsafe_code)]

use std::hint::black_box;
use std::process::ExitCode;
use std::time::Instant;

use model::line::LineNumber;
use model::page::{delete, read_page, store};
use model::rules::{empty_page, full_page, RULES};
use model::typing::LINE_LIMIT;
use model::{continue_run, take_line, ForEntry, Lent, Pause, Place, Record, Stop};

const BATCHES: usize = 200;
const CALL_LIMIT: f64 = 100.0;
const COLUMN_LIMIT: f64 = 1000.0;
const STEPS_LIMIT: f64 = 5.0;

/// As many words as a line can hold.
const DENSE: [&str; 1] = ["A=A+A+A+A+A+A+A+A+A+A+A+A+A+A+A+A+A+A+A+A+A+A+A+A+A+A+A+A+A+A+A+A"];

/// The best time of one round, in microseconds.
fn best(rounds: u32, mut round: impl FnMut()) -> f64 {
    let mut best = f64::INFINITY;
    for _ in 0..BATCHES {
        let start = Instant::now();
        for _ in 0..rounds {
            round();
        }
        best = best.min(start.elapsed().as_secs_f64() * 1e6 / f64::from(rounds));
    }
    best
}

/// A record with all stacks full of places of this page.
fn full_record(page: &[u8]) -> Record {
    let program = read_page(page).expect("a sound page");
    let mut places = program
        .steps
        .iter()
        .map(|step| step.place)
        .cycle()
        .step_by(7);
    let mut record = Record::default();
    let mut place = || places.next().unwrap_or(Place::IMMEDIATE);
    while !record.gosubs.is_full() {
        record.gosubs.push(place());
        record.dos.push(place());
    }
    while !record.fors.is_full() {
        record.fors.push(ForEntry {
            place: place(),
            ..ForEntry::default()
        });
    }
    record.paused = Some(Pause::After(place()));
    record
}

/// A typed line on a full page: the page and the record are checked whole.
fn time_call(texts: &[&str]) -> f64 {
    let mut page = full_page(texts);
    let mut record = full_record(&page);
    best(20, || {
        let lent = Lent {
            page: &mut page,
            memory: &mut [],
            input: b"A=1\r",
            output: &mut [],
            input_position: 0,
            output_position: 0,
            sense: 0,
            budget: 0,
            table: None,
        };
        assert_eq!(take_line(&mut record, lent).stop, Stop::Done);
    })
}

/// Lines without a reading, wrong early and late, and one with brackets on
/// brackets; the longest time that one of them takes on an empty page.
fn time_column() -> f64 {
    let deep = format!("A={}", "(".repeat(LINE_LIMIT - 2));
    let late = format!("{}A", "A=MOD(A,1)AND(1<=B)OR".repeat(3));
    let half = format!("10{};{}", "A=1:".repeat(8), "A=1:".repeat(9));
    let early = "X".repeat(LINE_LIMIT);
    let mut page = empty_page(16);
    let times = [deep, late, half, early].map(|line| {
        let input = line + "\r";
        best(20, || {
            let lent = Lent {
                page: &mut page,
                memory: &mut [],
                input: input.as_bytes(),
                output: &mut [],
                input_position: 0,
                output_position: 0,
                sense: 0,
                budget: 0,
                table: None,
            };
            let answer = take_line(&mut Record::default(), lent);
            assert_eq!(black_box(answer).stop, Stop::NoReading);
        })
    });
    times.into_iter().fold(0.0, f64::max)
}

/// Millions of steps a second in a loop of assignments and FOR/NEXT.
fn count_steps() -> f64 {
    const BUDGET: u32 = 65_535;
    let mut page = empty_page(256);
    let program = [" FOR I=1 TO 1000", " A=A+I*2:B=A-1", " NEXT I:GOTO 0"];
    for (number, text) in program.iter().enumerate() {
        let read = read_page(&page).expect("a sound page");
        let number = LineNumber(number as u16);
        assert!(store(&mut page, &read, number, text.as_bytes()));
    }
    let mut record = Record {
        paused: Some(Pause::Start),
        ..Record::default()
    };
    let time = best(1, || {
        let lent = Lent {
            page: &mut page,
            memory: &mut [],
            input: &[],
            output: &mut [],
            input_position: 0,
            output_position: 0,
            sense: 0,
            budget: BUDGET,
            table: None,
        };
        let answer = continue_run(&mut record, lent);
        assert_eq!((answer.stop, answer.steps), (Stop::Paused, BUDGET));
    });
    f64::from(BUDGET) / time
}

/// Takes the middle line out of a full page and puts it back.
fn time_edit() -> f64 {
    let mut page = full_page(&RULES);
    let full = read_page(&page).expect("a sound page");
    let middle = full.lines[full.lines.len() / 2];
    let text = middle.text(&page).to_vec();
    assert!(delete(&mut page, &full, middle.number));
    let without = read_page(&page).expect("a sound page");
    let pair = best(2_000, || {
        assert!(store(&mut page, &without, middle.number, &text));
        assert!(delete(&mut page, &full, middle.number));
    });
    pair / 2.0
}

/// Finds every line of a 200-line page; the time for one.
fn time_finder() -> f64 {
    let mut page = empty_page(4096);
    for number in 0..200 {
        let program = read_page(&page).expect("a sound page");
        assert!(store(
            &mut page,
            &program,
            LineNumber(number * 7),
            RULES[0].as_bytes()
        ));
    }
    let program = read_page(&page).expect("a sound page");
    let all = best(100, || {
        for number in 0..200 {
            assert!(program.find(black_box(LineNumber(number * 7))).is_some());
        }
    });
    all / 200.0
}

fn main() -> ExitCode {
    let call = time_call(&RULES);
    println!("typed line on a full 4096-byte page: {call:.1} us (limit {CALL_LIMIT} us)");
    let dense = time_call(&DENSE);
    println!("the same with as many words as fit: {dense:.1} us (limit {CALL_LIMIT} us)");
    let column = time_column();
    println!("a line without a reading, at most: {column:.1} us (limit {COLUMN_LIMIT} us)");
    let steps = count_steps();
    println!("steps: {steps:.1} million a second (limit {STEPS_LIMIT} million)");
    let page = full_page(&RULES);
    let reading = best(20, || drop(black_box(read_page(&page))));
    println!("reading a 4096-byte page of rule lines: {reading:.1} us");
    let record = full_record(&page);
    let check = best(20, || {
        let program = read_page(&page).expect("a sound page");
        assert!(record.fits(black_box(&program)));
    });
    println!("page and record check: {check:.1} us");
    println!(
        "one edit in the middle of a full page: {:.3} us",
        time_edit()
    );
    println!("finding a line on a 200-line page: {:.4} us", time_finder());
    let quick = call.max(dense) < CALL_LIMIT && column < COLUMN_LIMIT;
    match quick && steps >= STEPS_LIMIT {
        true => ExitCode::SUCCESS,
        false => ExitCode::FAILURE,
    }
}
