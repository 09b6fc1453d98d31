//! Document 02's table of line places: what it is after each edit, where it is
//! refused, and that it changes no answer.

mod gate;

use gate::{Gate, Reply};
use model::case::Case;
use model::page::read_page;
use model::random::edits::{sequences, Sequence};
use model::random::tables::{edits, jumps, refusals, FALSE};
use model::random::Random;
use model::rules::{empty_page, full_page, RULES};
use model::{continue_run, take_line, Answer, Pause, Place, Stop};

/// What tables hold past the last line here, so that a change shows.
const PAST: u16 = 777;

/// A fresh session in which these lines have been stored, with a table lent
/// from the start.
fn tabled(program: &[&str]) -> Gate {
    let mut gate = Gate::new();
    let mut table = vec![PAST; 1025];
    table[0] = 0;
    gate.table = Some(table);
    for line in program {
        assert_eq!(gate.stop(line), 0, "{line} is not stored");
    }
    gate
}

/// The first numbers of the table. All others are as they were.
fn front(gate: &Gate, length: usize) -> &[u16] {
    let table = gate.table.as_ref().expect("a table");
    assert_eq!(table.len(), 1025);
    assert!(table[length..].iter().all(|&number| number == PAST));
    &table[..length]
}

/// What a walk along the lengths of a page's records gives.
fn walked(page: &[u8]) -> Vec<u16> {
    let (mut places, mut at) = (Vec::new(), 0);
    while page[at..at + 2] != [255, 255] {
        places.push(at as u16);
        at += usize::from(page[at + 2]);
    }
    places.insert(0, places.len() as u16);
    places
}

#[test]
fn rows_of_the_desk() {
    let mut gate = tabled(&[]);
    assert_eq!(front(&gate, 1), [0]);
    gate.stop("10 END");
    assert_eq!(front(&gate, 2), [1, 0]);
    gate.stop("20 END");
    assert_eq!(front(&gate, 3), [2, 0, 8]);
    gate.stop("10");
    // The old last entry is past the last line now, and stays.
    assert_eq!(front(&gate, 3), [1, 0, 8]);
}

#[test]
fn a_replaced_line_moves_those_behind_it() {
    let mut gate = tabled(&["10 END", "20 END", "30 END"]);
    assert_eq!(front(&gate, 4), [3, 0, 8, 16]);
    for (line, places) in [
        ("20 REM X", [3, 0, 8, 18]),
        ("20DO", [3, 0, 8, 14]),
        ("20DO", [3, 0, 8, 14]),
        ("10 A=1234", [3, 0, 11, 17]),
        ("30 REM LONG", [3, 0, 11, 17]),
    ] {
        assert_eq!(gate.stop(line), 0);
        assert_eq!(front(&gate, 4), places, "{line}");
    }
}

#[test]
fn a_new_line_takes_its_place_in_order() {
    let mut gate = tabled(&["10 END", "30 END"]);
    gate.stop("20 A=1");
    assert_eq!(front(&gate, 4), [3, 0, 8, 16]);
    gate.stop("15 REM X");
    assert_eq!(front(&gate, 5), [4, 0, 8, 18, 26]);
    gate.stop("5DO");
    assert_eq!(front(&gate, 6), [5, 0, 6, 14, 24, 32]);
    gate.stop("32767DO");
    assert_eq!(front(&gate, 7), [6, 0, 6, 14, 24, 32, 40]);
}

#[test]
fn deleted_lines_leave_entries_behind() {
    let mut gate = tabled(&["10DO", "20DO", "30DO", "40DO"]);
    gate.stop("30");
    assert_eq!(front(&gate, 5), [3, 0, 6, 12, 18]);
    gate.stop("30");
    assert_eq!(front(&gate, 5), [3, 0, 6, 12, 18]);
    gate.stop("40");
    assert_eq!(front(&gate, 5), [2, 0, 6, 12, 18]);
    gate.stop("NEW");
    assert_eq!(front(&gate, 5), [0, 0, 6, 12, 18]);
    gate.stop("7 REM");
    assert_eq!(front(&gate, 5), [1, 0, 6, 12, 18]);
}

#[test]
fn other_lines_leave_the_table() {
    let mut gate = tabled(&["10 A=1", "20 GOTO 40", "40 END"]);
    let before = gate.table.clone();
    for line in [
        "RUN", "LIST", "CLEAR", "A=5", "GOTO 20", "GOTO 30", "NO", "DO", "", "30",
    ] {
        gate.stop(line);
        assert_eq!(gate.table, before, "{line}");
    }
    gate.page.truncate(gate.used().len());
    for line in ["30DO", "10 A=12", "40 ENDE"] {
        assert!([2, 5].contains(&gate.stop(line)));
        assert_eq!(gate.table, before, "{line}");
    }
    gate.go_on();
    assert_eq!(gate.table, before);
}

/// Refused by both calls, with everything left alone.
fn refused(gate: &mut Gate, stop: u8) {
    for call in [take_line, continue_run] {
        for input in [&b"NEW\r"[..], b"NEW", b"NONSENSE\r"] {
            let before = (gate.page.clone(), gate.record.clone(), gate.table.clone());
            let nothing = Reply {
                stop,
                line: None,
                steps: 0,
                column: 0,
                taken: 0,
                out: String::new(),
            };
            assert_eq!(gate.call(input, call), nothing);
            let after = (gate.page.clone(), gate.record.clone(), gate.table.clone());
            assert_eq!(before, after);
        }
    }
}

#[test]
fn a_table_that_does_not_describe_the_page() {
    for (name, way) in FALSE {
        let mut gate = tabled(&["10 A=1", "20 REM X", "30DO", "40 END"]);
        way(gate.table.as_mut().expect("a table"), 4);
        for paused in [None, Some(Pause::Start), Some(Pause::After(Place(7)))] {
            println!("{name}, {paused:?}");
            gate.record.paused = paused;
            refused(&mut gate, 26);
        }
        // 26 is looked for before 19, and after 18 and 1.
        gate.record.flags = 8;
        refused(&mut gate, 26);
        gate.page[0] = 128;
        refused(&mut gate, 18);
        gate.budget = 65_536;
        refused(&mut gate, 1);
    }
}

#[test]
fn an_entry_past_the_last_line_is_not_looked_at() {
    let mut gate = tabled(&["10 A=1", "20 END"]);
    for at in [3, 4, 500, 1024] {
        gate.table.as_mut().expect("a table")[at] = 8;
        assert_eq!(gate.stop("RUN"), 20);
    }
}

#[test]
fn fewer_than_1025_numbers_are_out_of_range() {
    for length in [0, 1, 2, 683, 1023, 1024] {
        let mut gate = tabled(&["10 END"]);
        gate.table.as_mut().expect("a table").truncate(length);
        refused(&mut gate, 1);
        gate.page[0] = 128;
        refused(&mut gate, 1);
    }
    for length in [1025, 1026, 4097, 70_000] {
        let mut gate = tabled(&["10 END"]);
        gate.table
            .as_mut()
            .expect("a table")
            .resize(length, u16::MAX);
        assert_eq!(gate.stop("20 END"), 0);
        let table = gate.table.expect("a table");
        assert_eq!((table.len(), &table[..3]), (length, &[2, 0, 8][..]));
    }
}

#[test]
fn a_table_that_was_not_lent_to_an_edit_is_false() {
    let mut gate = tabled(&["10 END", "20 END"]);
    let table = gate.table.take();
    assert_eq!(gate.stop("30 END"), 0);
    gate.table = table;
    refused(&mut gate, 26);
    // One that keeps every length leaves it true.
    let table = gate.table.take();
    assert_eq!((gate.stop("30"), gate.stop("20 END")), (0, 0));
    gate.table = table;
    assert_eq!(gate.stop("20 END"), 0);
}

/// Many lines, each of which goes on to one far away, and comes back from some.
fn mazes() -> Vec<Vec<String>> {
    let maze = |count: usize, far: usize| {
        let line = |at: usize| {
            let to = 10 * ((at * far + 1) % count);
            match at % 4 {
                0 => format!("{} A=A+1:GOSUB {to}", 10 * at),
                1 => format!("{} B=B+A:GOTO {to}", 10 * at),
                2 => format!("{} IF A>40 GOTO {}", 10 * at, to + 5),
                _ => format!("{} RETURN", 10 * at),
            }
        };
        (0..count).map(line).collect()
    };
    vec![
        maze(3, 2),
        maze(7, 3),
        maze(23, 5),
        maze(24, 7),
        maze(26, 11),
    ]
}

#[test]
fn runs_with_a_table_and_without_agree() {
    for maze in mazes() {
        let program: Vec<&str> = maze.iter().map(String::as_str).collect();
        let (mut with, mut without) = (tabled(&program), Gate::with(&program));
        for line in [
            "RUN",
            "GOTO 20",
            "GOSUB 0",
            "GOTO 5",
            "RETURN",
            "GOTO 32767",
        ] {
            for budget in [0, 1, 7, 1000] {
                (with.budget, without.budget) = (budget, budget);
                assert_eq!(with.line(line), without.line(line), "{line}");
                for _ in 0..5 {
                    assert_eq!(with.go_on(), without.go_on());
                }
                assert_eq!(with.record, without.record);
                assert_eq!(with.page, without.page);
            }
        }
    }
}

/// Pages of the greatest length: of rule lines, and with the most lines.
#[test]
fn tables_of_full_pages() {
    let most = full_page(&["DO"]);
    assert_eq!(walked(&most)[0], 682);
    for (page, line) in [(full_page(&RULES), "0 REM X\r"), (most, "0\r")] {
        let mut case = typing(page, line.as_bytes());
        assert_eq!(case.run().stop, Stop::Done);
        holds(&case, 0);
    }
}

/// A line typed on a page, with a true table of it.
fn typing(page: Vec<u8>, input: &[u8]) -> Case {
    let mut table = walked(&page);
    table.resize(1025, PAST);
    Case {
        output: vec![0; 900],
        table: Some(table),
        ..Case::typed(page, input)
    }
}

/// The table is that of a fresh walk, as far as the page has lines.
fn holds(case: &Case, at: usize) {
    let table = case.table.as_ref().expect("a table");
    let walked = walked(&case.page);
    assert_eq!(table[..walked.len()], walked, "call {at}");
}

/// All lines of an input, one after the other; after each the table is true.
fn typed_all(sequence: &Sequence) -> usize {
    let mut case = typing(empty_page(sequence.length), &sequence.typed);
    for calls in 0.. {
        let before = case.clone();
        let answer = case.run();
        if answer.input_position == case.input_position {
            assert_eq!(answer.stop, Stop::NoCr);
            return calls;
        }
        holds(&case, calls);
        let lines = read_page(&case.page).expect("a good page").lines.len();
        let past = |case: &Case| case.table.as_ref().map(|table| table[lines + 1..].to_vec());
        assert_eq!(past(&before), past(&case));
        case.input_position = answer.input_position;
    }
    unreachable!()
}

#[test]
fn a_table_stays_true_through_any_edits() {
    let sequences = sequences(&mut Random::new(3));
    let lent = sequences.iter().filter(|sequence| sequence.table.is_some());
    assert!(lent.count() > sequences.len() / 3);
    let calls: usize = sequences.iter().map(typed_all).sum();
    assert!(calls > 3_000, "{calls} calls");
}

#[test]
fn the_first_refusal_of_each_written_case() {
    let cases = refusals();
    assert_eq!(cases.len(), (2 + FALSE.len() + 6) * 64);
    for (mut case, stop) in cases {
        let before = case.clone();
        let answer = case.run();
        match stop {
            Some(stop) => assert_eq!((answer.stop, &case), (stop, &before)),
            None => {
                let first = [
                    Stop::OutOfRange,
                    Stop::BadPage,
                    Stop::BadTable,
                    Stop::BadRecord,
                ];
                assert!(!first.contains(&answer.stop), "{answer:?}");
                assert_eq!(case.record.paused, None);
            }
        }
    }
}

/// The calls of these cases with a true table and with none, one beside the
/// other.
fn agree<'a>(with: impl Iterator<Item = &'a Case>, without: impl Iterator<Item = &'a Case>) {
    for (with, without) in with.zip(without) {
        let (mut with, mut without) = (with.clone(), without.clone());
        assert_eq!((&with.page, &with.input), (&without.page, &without.input));
        let answers: [Answer; 2] = [with.run(), without.run()];
        assert_eq!(answers[0], answers[1]);
        holds(&with, 0);
        with.table = None;
        assert_eq!(with, without);
    }
}

#[test]
fn written_edits_agree_with_a_table_and_without() {
    let cases = edits();
    let of = |kind: usize| cases.iter().skip(kind).step_by(3);
    assert!(of(0).all(|case| case.table.is_none()));
    agree(of(1), of(0));
    let mut refused = 0;
    for case in of(2) {
        let mut left = case.clone();
        if left.run().stop == Stop::BadTable {
            assert_eq!(left, *case);
            refused += 1;
        } else {
            holds(&left, 0);
        }
    }
    assert!(refused > of(2).count() / 2, "{refused} refused");
}

#[test]
fn written_jumps_find_what_is_there() {
    let cases = jumps();
    let of = |kind: usize| cases.iter().skip(kind).step_by(3);
    agree(of(0), of(2));
    let (mut found, mut absent) = (0, 0);
    for case in of(1) {
        match case.clone().run().stop {
            Stop::Paused => found += 1,
            Stop::NoSuchLine => absent += 1,
            other => panic!("{other:?}"),
        }
    }
    assert!(
        found > 300 && absent > 600,
        "{found} found, {absent} absent"
    );
}
