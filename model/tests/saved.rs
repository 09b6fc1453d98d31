//! Saves and loads: document 02's item 5 by worked bytes, and laws over random boxes.

use model::case::{Call, Case};
use model::page::read_page;
use model::random::forms::{any_case, carrying, form_of, save_refusals};
use model::random::pages::render;
use model::random::{Random, Size};
use model::table::{describes, TABLE_LEAST};
use model::{Pause, Place, Record, Stop};

/// Line 10 END, A=258, Z=-2, memory 7 255.
fn gate() -> Case {
    let mut case = Case::typed(render(&vec![(10, " END".into())]), b"");
    case.memory = vec![7, 255];
    case.record.variables[0] = 258;
    case.record.variables[25] = -2;
    case
}

/// Its form: 68 bytes.
fn form() -> Vec<u8> {
    let mut form = vec![1, 26, 1, 2];
    form.extend([0; 48]);
    form.extend([255, 254, 0, 1]);
    form.extend([0, 10, 8, 32, 69, 78, 68, 13, 0, 2, 7, 255]);
    form
}

/// A form of these records, so many by its count, with no memory, or with these bytes behind the records.
fn of_records(count: u16, records: &[u8], behind: &[u8]) -> Vec<u8> {
    let head = [&[1, 26][..], &[0; 52], &count.to_be_bytes()].concat();
    [&head[..], records, behind].concat()
}

fn record(number: u16, text: &str) -> Vec<u8> {
    let frame = [&number.to_be_bytes()[..], &[text.len() as u8 + 4]].concat();
    [&frame[..], text.as_bytes(), &[13]].concat()
}

/// Loads into a page of 40 bytes 1 and a memory of 2, with flags 9, an open GOSUB, a pause and a lent table of 7s.
fn load(form: &[u8]) -> (Stop, Case) {
    let mut case = Case::typed(vec![1; 40], b"");
    case.call = Call::Load;
    case.memory = vec![0, 7];
    case.saved = form.to_vec();
    case.record.flags = 9;
    case.record.gosubs.push(Place::IMMEDIATE);
    case.record.paused = Some(Pause::After(Place(75)));
    case.table = Some([vec![7, 7, 7], vec![9; TABLE_LEAST]].concat());
    let stop = case.run().stop;
    (stop, case)
}

#[test]
fn a_fresh_box_with_a_memory_of_two_is_60_bytes() {
    let mut case = Case::typed(vec![255, 255], b"");
    case.memory = vec![0, 7];
    let wanted = of_records(0, &[], &[0, 2, 0, 7]);
    assert_eq!((form_of(&case), wanted.len()), (wanted, 60));
    case.call = Call::Save;
    case.output = vec![5; 59];
    let before = case.clone();
    assert_eq!((case.run().stop, &case), (Stop::OutputFull, &before));
    case.output = vec![5; 62];
    case.output_position = 1;
    let answer = case.run();
    assert_eq!((answer.stop, answer.output_position), (Stop::Done, 61));
    assert_eq!((case.output[0], case.output[1], case.output[61]), (5, 1, 5));
}

#[test]
fn the_worked_form_byte_by_byte() {
    assert_eq!(form_of(&gate()), form());
}

#[test]
fn a_load_leaves_what_was_carried_and_nothing_else() {
    let (stop, case) = load(&form());
    assert_eq!(stop, Stop::Done);
    assert_eq!(case.page[..10], gate().page[..]);
    assert_eq!(case.page[10..], [1; 30]);
    assert_eq!(case.memory, [7, 255]);
    let mut record = Record {
        variables: gate().record.variables,
        flags: 1,
        ..Record::default()
    };
    record.gosubs.places[0] = Place::IMMEDIATE; // a dead slot
    assert_eq!(case.record, record);
    let table = case.table.expect("it was lent");
    assert_eq!(table[..5], [1, 0, 7, 9, 9]);
}

#[test]
fn every_refusal_of_a_load_in_its_place() {
    let end = record(10, " END");
    let memory: &[u8] = &[0, 2, 7, 255];
    let one = |count, records: &[u8]| of_records(count, records, memory);
    let two = |first, second| one(2, &[record(first, "DO"), record(second, "DO")].concat());
    let filled = |bytes: usize| one(1, &record(10, &format!("REM{}", "X".repeat(bytes - 7))));
    let thousand: Vec<u8> = (0..1000).flat_map(|line| record(line, "DO")).collect();
    let mut other_count = form();
    other_count[1] = 25;
    let rows = [
        (vec![], Stop::OtherForm),
        (vec![0], Stop::OtherForm),
        ([&[2][..], &form()[1..]].concat(), Stop::OtherForm),
        (vec![1], Stop::BadForm),
        (form()[..55].to_vec(), Stop::BadForm),
        (other_count, Stop::BadForm),
        (one(0, &record(20, " END")), Stop::BadForm),
        // A form by chance: no line, and the number 10 counts the ten bytes behind it.
        (one(0, &end), Stop::OtherMemory),
        (one(2, &end), Stop::BadForm),
        (one(1, &[&end[..], &[255, 255]].concat()), Stop::BadForm),
        (two(20, 10), Stop::BadForm),
        (two(10, 10), Stop::BadForm),
        (two(10, 20), Stop::Done),
        (one(1, &record(32_768, "DO")), Stop::BadForm),
        (one(1, &record(32_767, "DO")), Stop::Done),
        (one(1, &record(10, "5")), Stop::BadForm),
        (one(1, &record(10, "")), Stop::BadForm),
        (
            one(1, &record(10, &format!("REM{}", "X".repeat(68)))),
            Stop::BadForm,
        ),
        (of_records(1, &end, &[0, 2, 7]), Stop::BadForm),
        (of_records(1, &end, &[0, 2, 7, 7, 7]), Stop::BadForm),
        (of_records(1, &end, &[0]), Stop::BadForm),
        (of_records(1, &end, &[]), Stop::BadForm),
        (of_records(1, &end, &[0, 1, 7]), Stop::OtherMemory),
        (of_records(1, &end, &[0, 3, 7, 7, 7]), Stop::OtherMemory),
        (
            of_records(0, &[], &[&[19, 136][..], &[7; 5000]].concat()),
            Stop::OtherMemory,
        ),
        (
            of_records(0, &[], &[&[19, 136][..], &[7; 4999]].concat()),
            Stop::BadForm,
        ),
        (filled(38), Stop::Done),
        (filled(39), Stop::PageFull),
        (
            of_records(
                1,
                &record(10, &format!("REM{}", "X".repeat(60))),
                &[0, 1, 7],
            ),
            Stop::OtherMemory,
        ),
        (one(1000, &thousand), Stop::PageFull),
    ];
    for (at, (form, stop)) in rows.into_iter().enumerate() {
        let (given, after) = load(&form);
        assert_eq!(given, stop, "row {at}");
        let (_, before) = load(&[]);
        if stop != Stop::Done {
            let unchanged = Case {
                saved: form,
                ..before
            };
            assert_eq!(after, unchanged, "row {at}");
        }
    }
}

#[test]
fn out_of_range_comes_first_and_what_is_not_looked_at_is_not_asked() {
    let stop = |change: fn(&mut Case)| {
        let mut case = load(&[]).1;
        case.saved = form();
        (case.input_position, case.output_position) = (9, u32::MAX);
        (case.budget, case.input) = (65_536, vec![0; 65_536]);
        change(&mut case);
        case.run().stop
    };
    assert_eq!(stop(|_| {}), Stop::Done);
    assert_eq!(stop(|case| case.page.truncate(1)), Stop::OutOfRange);
    assert_eq!(stop(|case| case.page.resize(4097, 0)), Stop::OutOfRange);
    assert_eq!(stop(|case| case.memory.resize(4097, 0)), Stop::OutOfRange);
    let short = |case: &mut Case| case.table = Some(vec![0; TABLE_LEAST - 1]);
    assert_eq!(stop(short), Stop::OutOfRange);
    assert_eq!(stop(|case| case.table = None), Stop::Done);
}

#[test]
fn every_refusal_of_a_save_in_its_order() {
    for (mut case, refusal) in save_refusals() {
        let before = case.clone();
        let answer = case.run();
        assert_eq!(answer.stop, refusal.unwrap_or(Stop::Done));
        if refusal.is_some() {
            assert_eq!((case, answer.output_position), (before, 0));
        } else {
            let kept = Case {
                output: before.output.clone(),
                ..case
            };
            assert_eq!(kept, before, "the pause stays too");
        }
    }
}

#[test]
fn what_is_saved_is_loaded_and_what_is_loaded_saves_to_the_same_bytes() {
    let mut random = Random::new(8);
    let mut seen = [0usize; 27];
    for round in 0..40_000 {
        let size = [Size::Small, Size::Full][round % 2];
        let before = carrying(&mut random, size);
        let mut after = before.clone();
        let answer = after.run();
        seen[usize::from(answer.stop.number())] += 1;
        if answer.stop != Stop::Done {
            assert_eq!(before, after);
            continue;
        }
        if before.call == Call::Load {
            let program = read_page(&after.page).expect("a good page");
            assert!(after.record.fits(&program));
            assert_eq!(before.page[program.used()..], after.page[program.used()..]);
            let table = after.table.as_deref();
            assert!(table.is_none_or(|table| describes(table, &after.page)));
            assert_eq!(form_of(&after), before.saved);
        } else {
            let written = before.output_position as usize..answer.output_position as usize;
            let mut other = Case::typed(vec![3; before.page.len()], b"");
            other.call = Call::Load;
            other.memory = vec![0; before.memory.len()];
            other.saved = after.output[written].to_vec();
            assert_eq!(other.run().stop, Stop::Done);
            assert_eq!(other.memory, before.memory);
            assert_eq!(other.record.variables, before.record.variables);
            let used = read_page(&before.page).expect("a good page").used();
            assert_eq!(other.page[..used], before.page[..used]);
            assert!(other.page[used..].iter().all(|&byte| byte == 3));
        }
    }
    for stop in [0, 1, 2, 17, 18, 19, 22, 23, 24] {
        assert!(seen[stop] >= 40, "{stop} occurs {} times", seen[stop]);
    }
}

#[test]
fn cases_of_all_calls_are_read_as_they_are_written() {
    let mut random = Random::new(9);
    for _ in 0..2_000 {
        let mut case = any_case(&mut random, Size::Small);
        if case.call != Call::Load {
            case.saved.clear();
        }
        assert_eq!(Case::read(case.write().as_bytes()), Ok(case));
    }
}
