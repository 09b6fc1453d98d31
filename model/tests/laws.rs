//! Laws that hold of any implementation, over random cases of a fixed seed.

use model::case::{Call, Case};
use model::column::is_front;
use model::page::read_page;
use model::random::cases::case;
use model::random::forms::{carrying, form_of};
use model::random::lines::{kept, verdict};
use model::random::pages::{program, render};
use model::random::sessions::session;
use model::random::{Random, Size};
use model::session::run_session;
use model::table::describes;
use model::typing::{gather, LINE_LIMIT};
use model::{Answer, Record, Stop};

const ROUNDS: usize = 100_000;

/// Runs a law over random cases of both sizes: what was, the answer, what is.
fn for_cases(seed: u64, mut law: impl FnMut(&Case, &Answer, &Case)) {
    let mut random = Random::new(seed);
    for round in 0..ROUNDS {
        let size = [Size::Small, Size::Full][round % 2];
        let before = case(&mut random, size);
        let mut after = before.clone();
        let answer = after.run();
        law(&before, &answer, &after);
    }
}

fn is_first_refusal(before: &Case, answer: &Answer) -> bool {
    match answer.stop {
        Stop::OutOfRange | Stop::BadPage | Stop::BadTable | Stop::BadRecord => true,
        Stop::NoCr => before.call == Call::Line && answer.line.is_none(),
        _ => false,
    }
}

/// The page's used bytes, if it is sound.
fn used(page: &[u8]) -> Option<usize> {
    read_page(page).map(|program| program.used())
}

fn is_sound(case: &Case) -> bool {
    read_page(&case.page).is_some_and(|program| case.record.fits(&program)) && is_true(case)
}

/// Does the table, if one is lent, describe the page? This is said of good pages.
fn is_true(case: &Case) -> bool {
    let table = case.table.as_deref();
    table.is_none_or(|table| describes(table, &case.page))
}

/// The record with its pause taken away.
fn unpaused(record: &Record) -> Record {
    Record {
        paused: None,
        ..record.clone()
    }
}

#[test]
fn every_call_keeps_the_laws() {
    let mut seen = [0usize; 27];
    for_cases(1, |before, answer, after| {
        seen[usize::from(answer.stop.number())] += 1;
        refusals_change_nothing(before, answer, after);
        soundness_stays(before, answer, after);
        only_the_answered_bytes_change(before, answer, after);
        answers_are_well_formed(before, answer, after);
        no_reading_changes_only_position_and_pause(before, answer, after);
        the_column_is_that_of_the_line(before, answer);
        a_table_is_true_or_refused(before, answer);
        a_table_keeps_what_it_may(before, after);
        a_true_table_changes_no_answer(before, answer, after);
    });
    for stop in Stop::ALL {
        let times = seen[usize::from(stop.number())];
        let of_a_load = OF_A_LOAD.contains(&stop);
        assert!(
            of_a_load || times >= ROUNDS / 500,
            "{stop:?} occurs {times} times"
        );
    }
}

/// What only a load answers.
const OF_A_LOAD: [Stop; 3] = [Stop::OtherForm, Stop::BadForm, Stop::OtherMemory];

#[test]
fn saves_and_loads_keep_the_laws() {
    let mut random = Random::new(5);
    let mut seen = [0usize; 27];
    for round in 0..ROUNDS / 4 {
        let before = carrying(&mut random, [Size::Small, Size::Full][round % 2]);
        let mut after = before.clone();
        let answer = after.run();
        seen[usize::from(answer.stop.number())] += 1;
        assert_eq!(answer.input_position, before.input_position);
        assert_eq!((answer.line, answer.steps, answer.column), (None, 0, 0));
        match (answer.stop, before.call) {
            (Stop::Done, Call::Save) => a_save_writes_its_form_alone(&before, &answer, &after),
            (Stop::Done, _) => a_load_leaves_a_sound_box(&before, &answer, &after),
            _ => {
                assert_eq!(before, after);
                assert_eq!(answer.output_position, before.output_position);
            }
        }
    }
    for stop in [
        Stop::Done,
        Stop::OutOfRange,
        Stop::PageFull,
        Stop::OutputFull,
        Stop::BadPage,
        Stop::BadRecord,
    ]
    .into_iter()
    .chain(OF_A_LOAD)
    {
        let times = seen[usize::from(stop.number())];
        assert!(times >= ROUNDS / 1000, "{stop:?} occurs {times} times");
    }
}

fn a_save_writes_its_form_alone(before: &Case, answer: &Answer, after: &Case) {
    let written = before.output_position as usize..answer.output_position as usize;
    let expected = Case {
        output: after.output.clone(),
        ..before.clone()
    };
    assert_eq!(&expected, after);
    assert_eq!(
        before.output[..written.start],
        after.output[..written.start]
    );
    assert_eq!(before.output[written.end..], after.output[written.end..]);
    assert_eq!(after.output[written.start], 1);
}

/// And the box saves to the bytes that it was given.
fn a_load_leaves_a_sound_box(before: &Case, answer: &Answer, after: &Case) {
    assert!(is_sound(after));
    assert_eq!(answer.output_position, before.output_position);
    assert_eq!(before.output, after.output);
    assert_eq!(before.page.len(), after.page.len());
    let used = used(&after.page).expect("a sound page");
    assert_eq!(before.page[used..], after.page[used..]);
    assert_eq!(after.record.paused, None);
    assert_eq!(form_of(after), before.slice());
}

fn refusals_change_nothing(before: &Case, answer: &Answer, after: &Case) {
    if is_first_refusal(before, answer) {
        assert_eq!(before, after);
        assert_eq!(answer.input_position, before.input_position);
        assert_eq!(answer.output_position, before.output_position);
        assert_eq!((answer.line, answer.steps), (None, 0));
    }
}

fn soundness_stays(before: &Case, answer: &Answer, after: &Case) {
    let unsound = [Stop::BadPage, Stop::BadTable, Stop::BadRecord];
    // Out of range may hide a sound page; otherwise only 18, 26 and 19 speak of it.
    if answer.stop != Stop::OutOfRange {
        assert_eq!(is_sound(before), !unsound.contains(&answer.stop));
    }
    assert_eq!(is_sound(before), is_sound(after));
}

fn only_the_answered_bytes_change(before: &Case, answer: &Answer, after: &Case) {
    assert_eq!(before.page.len(), after.page.len());
    if let Some(used) = used(&after.page) {
        assert_eq!(before.page[used..], after.page[used..]);
    }
    assert_eq!(before.input, after.input);
    if answer.stop != Stop::OutOfRange {
        let written = before.output_position as usize..answer.output_position as usize;
        let mut output = before.output.clone();
        output[written.clone()].copy_from_slice(&after.output[written]);
        assert_eq!(output, after.output);
    }
    if before.call == Call::Continue || answer.steps > 0 {
        assert_eq!(before.page, after.page);
    }
}

fn answers_are_well_formed(before: &Case, answer: &Answer, after: &Case) {
    assert!(answer.steps <= before.budget);
    assert!(answer.input_position >= before.input_position);
    assert!(answer.output_position >= before.output_position);
    if let Some(line) = answer.line {
        assert!(answer.steps > 0 && ![Stop::Done, Stop::Paused].contains(&answer.stop));
        let program = read_page(&after.page).expect("a sound page");
        assert!(program.lines.iter().any(|there| there.number.0 == line));
    }
    if answer.stop == Stop::Paused {
        assert_eq!(answer.steps, before.budget);
        assert!(after.record.paused.is_some());
    } else if !is_first_refusal(before, answer) {
        assert_eq!(after.record.paused, None);
    }
}

fn no_reading_changes_only_position_and_pause(before: &Case, answer: &Answer, after: &Case) {
    let lineless = [Stop::NoReading, Stop::NotImmediate, Stop::PageFull];
    if lineless.contains(&answer.stop) {
        let mut expected = before.clone();
        expected.record = unpaused(&before.record);
        assert_eq!(&expected, after);
        assert!(answer.input_position > before.input_position);
        assert_eq!(answer.output_position, before.output_position);
        assert_eq!((answer.line, answer.steps), (None, 0));
    }
}

fn the_column_is_that_of_the_line(before: &Case, answer: &Answer) {
    let column = answer.column as usize;
    if answer.stop != Stop::NoReading {
        assert_eq!(column, 0);
        return;
    }
    let line = gather(&before.input, before.input_position as usize).expect("a line");
    if line.over_long {
        assert_eq!(column, LINE_LIMIT);
        return;
    }
    let kept = line.kept();
    assert!(column <= kept.len() && is_front(&kept[..column]));
    assert!(column == kept.len() || !is_front(&kept[..column + 1]));
}

fn a_table_is_true_or_refused(before: &Case, answer: &Answer) {
    let short = before
        .table
        .as_ref()
        .is_some_and(|table| table.len() < 1025);
    assert!(!short || answer.stop == Stop::OutOfRange);
    if ![Stop::OutOfRange, Stop::BadPage].contains(&answer.stop) {
        assert_eq!(is_true(before), answer.stop != Stop::BadTable);
    }
}

/// Only the count and the places from the edited line on may change, and nothing past the last line.
fn a_table_keeps_what_it_may(before: &Case, after: &Case) {
    let (Some(old), Some(new)) = (&before.table, &after.table) else {
        assert_eq!(before.table, after.table);
        return;
    };
    if before.page == after.page {
        assert_eq!(old, new);
        return;
    }
    let lines = usize::from(new[0]);
    let bytes = before.page.iter().zip(&after.page);
    let same = bytes.take_while(|(old, new)| old == new).count();
    let begun = new[1..=lines].partition_point(|&place| usize::from(place) <= same);
    // The last that begins in what is the same may be the edited line's.
    let stay = begun.max(1);
    assert_eq!(old[1..stay], new[1..stay]);
    assert_eq!(old[lines + 1..], new[lines + 1..]);
}

fn a_true_table_changes_no_answer(before: &Case, answer: &Answer, after: &Case) {
    let refused = [Stop::OutOfRange, Stop::BadTable].contains(&answer.stop);
    if before.table.is_some() && !refused {
        let mut without = before.clone();
        without.table = None;
        assert_eq!(without.run(), *answer);
        without.table.clone_from(&after.table);
        assert_eq!(without, *after);
    }
}

#[test]
fn split_budgets_add_up() {
    let mut random = Random::new(2);
    let mut paused = 0;
    for round in 0..ROUNDS {
        let mut split = case(&mut random, [Size::Small, Size::Full][round % 2]);
        if split.budget > 65_535 {
            continue;
        }
        let mut whole = split.clone();
        let answer = whole.run();
        split.budget = random.below(whole.budget as usize + 1) as u32;
        let first = split.run();
        if first.stop != Stop::Paused {
            continue;
        }
        paused += 1;
        let second = go_on(&mut split, &first, whole.budget);
        assert_eq!((second.stop, second.line), (answer.stop, answer.line));
        assert_eq!(first.steps + second.steps, answer.steps);
        assert_eq!(second.input_position, answer.input_position);
        assert_eq!(second.output_position, answer.output_position);
        assert_eq!(split.record, whole.record);
        assert_eq!(split.memory, whole.memory);
        assert_eq!(split.output, whole.output);
        assert_eq!(split.page, whole.page);
    }
    assert!(paused > ROUNDS / 10, "{paused} pauses");
}

/// Continues a paused case with what its first budget left of the whole.
fn go_on(case: &mut Case, first: &Answer, whole: u32) -> Answer {
    case.call = Call::Continue;
    case.budget = whole - first.steps;
    case.input_position = first.input_position;
    case.output_position = first.output_position;
    case.run()
}

/// Types all lines of an input into an empty page of this length.
fn retyped(input: &[u8], length: usize) -> Vec<u8> {
    let mut page = vec![0; length];
    page[..2].fill(255);
    let mut gate = Case::typed(page, input);
    while (gate.input_position as usize) < input.len() {
        let answer = gate.run();
        if answer.stop == Stop::NoCr {
            // What is left is the LF of the last listed line.
            assert_eq!(input[gate.input_position as usize..], [10]);
            break;
        }
        assert_eq!(answer.stop, Stop::Done);
        gate.input_position = answer.input_position;
    }
    gate.page
}

#[test]
fn a_listing_retyped_is_the_program() {
    let mut random = Random::new(3);
    let mut lines = 0;
    for round in 0..4_000 {
        let program = program(&mut random, [Size::Small, Size::Full][round % 2], 100);
        lines += program.len();
        let page = render(&program);
        let mut listing = Case {
            output: vec![0; 65_535],
            ..Case::typed(page.clone(), b"LIST\r")
        };
        let answer = listing.run();
        assert_eq!(answer.stop, Stop::Done);
        let listed = &listing.output[..answer.output_position as usize];
        assert_eq!(retyped(listed, page.len()), page);
    }
    assert!(lines > 10_000, "{lines} lines");
}

#[test]
fn lines_typed_in_any_order_give_the_same_page() {
    let mut random = Random::new(4);
    for _ in 0..2_000 {
        let mut program = program(&mut random, Size::Full, 100);
        let page = render(&program);
        for place in (1..program.len()).rev() {
            program.swap(place, random.below(place + 1));
        }
        let typed: String = program
            .iter()
            .map(|(number, text)| format!("{number}{text}\r"))
            .collect();
        let retyped = retyped(typed.as_bytes(), page.len());
        assert_eq!(retyped, page);
    }
}

#[test]
fn cases_are_read_as_they_are_written() {
    let mut random = Random::new(5);
    for _ in 0..2_000 {
        let case = case(&mut random, Size::Small);
        assert_eq!(Case::read(case.write().as_bytes()), Ok(case));
    }
}

#[test]
fn sessions_end_and_show_every_line() {
    let mut random = Random::new(6);
    for _ in 0..60 {
        let input = session(&mut random, Size::Full, 100);
        let mut shown = Vec::new();
        run_session(&input, &mut shown).expect("a vector takes all");
        assert_eq!(shown.last(), Some(&b'\n'));
    }
}

#[test]
fn verdicts_of_all_kinds_occur() {
    let mut random = Random::new(7);
    let lines: Vec<String> = (0..20_000)
        .map(|_| verdict(&kept(&mut random, Size::Full)))
        .collect();
    for name in ["blank", "delete", "store", "command", "statement", "none"] {
        let key = format!("\"verdict\":\"{name}\"");
        let times = lines.iter().filter(|line| line.contains(&key)).count();
        assert!(times >= 100, "{name} occurs {times} times");
    }
    let three = lines
        .iter()
        .filter(|line| line.ends_with("\"three\":true}"))
        .count();
    assert!(three >= 100, "{three} of them are for programs only");
}
