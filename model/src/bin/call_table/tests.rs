//! What the table must have.

use std::collections::HashSet;

use model::case::Call;
use model::table::describes;
use model::Stop;

use crate::cases::cases;
use crate::form::{bytes, Input};
use crate::{count, table};

#[test]
fn stops_and_columns_are_those_of_the_documents() {
    for case in cases() {
        let answers: Vec<(u8, u32)> = case
            .outcomes()
            .iter()
            .map(|(_, answer)| (answer.stop.number(), answer.column))
            .collect();
        assert_eq!(answers, case.answers, "{}", case.name);
    }
}

/// A continued run takes no line, so that it cannot be one that does not fit, has no reading or is not immediate. Saves and loads have
/// refusals of their own.
#[test]
fn every_stop_comes_up_in_each_call_that_can_give_it() {
    let cases = cases();
    let of_lines = [Stop::PageFull, Stop::NotImmediate, Stop::NoReading];
    let of_loads = [Stop::OtherForm, Stop::BadForm, Stop::OtherMemory];
    for stop in Stop::ALL {
        let by = Call::ALL.map(|call| count(&cases, call, stop) > 0);
        let typed = !of_loads.contains(&stop);
        let ran = typed && !of_lines.contains(&stop);
        let saved = [0, 1, 17, 18, 19].contains(&stop.number());
        let loaded = [0, 1, 2, 22, 23, 24].contains(&stop.number());
        assert_eq!(by, [typed, ran, saved, loaded], "{stop:?}");
    }
}

#[test]
fn a_lent_table_describes_the_page_or_is_refused() {
    let (mut lent, mut refused) = (0, 0);
    for mut case in cases() {
        for &numbers in &case.calls {
            let before = case.gate.clone();
            let stop = case.gate.call(numbers).stop;
            let first = [Stop::OutOfRange, Stop::BadPage, Stop::BadTable].contains(&stop);
            if [Call::Save, Call::Load].contains(&numbers.call) && stop != Stop::Done {
                assert_eq!(case.gate, before, "{}", case.name);
                continue;
            }
            lent += usize::from(numbers.tabled);
            if !numbers.tabled {
                assert_eq!(case.gate.table, before.table, "{}", case.name);
            } else if first {
                assert_eq!(case.gate, before, "{}", case.name);
                refused += 1;
            } else {
                let gate = &case.gate;
                assert!(describes(&gate.table, &gate.page), "{}", case.name);
            }
        }
    }
    assert!(lent > 60 && refused > 20, "{refused} of {lent} refused");
}

#[test]
fn no_two_cases_are_equal() {
    let cases = cases();
    for (at, case) in cases.iter().enumerate() {
        for other in &cases[..at] {
            let equal = case.gate == other.gate && case.calls == other.calls;
            assert!(!equal, "{} and {}", case.name, other.name);
        }
    }
}

#[test]
fn names_are_lines_of_their_own() {
    let mut names = HashSet::new();
    for case in cases() {
        let text = case.name.bytes().all(|byte| matches!(byte, 32..=126));
        assert!(text && case.name.len() <= 100, "{}", case.name);
        assert!(names.insert(case.name.clone()), "{} twice", case.name);
    }
}

#[test]
fn bytes_read_back() {
    let cases = cases();
    let read = Input::new(bytes(&cases)).cases();
    assert_eq!(read.len(), cases.len());
    for (read, case) in read.iter().zip(&cases) {
        assert_eq!(read.name, case.name);
        assert_eq!((&read.gate, &read.calls), (&case.gate, &case.calls));
    }
    assert_eq!(table(read), table(cases));
}
