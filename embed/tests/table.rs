//! A table of line places that is lent: true, false, or none. `header.rs` has its length.

use nibl::{table_of, Answer, Call, Controller, Stop};

type Gate = Controller<Vec<u8>, Vec<u8>>;

fn typed(gate: &mut Gate, line: &str) -> Answer {
    let input = [line.as_bytes(), b"\r"].concat();
    gate.take_line(&input, &mut [0; 64], Call::at(0, 0, 50))
}

/// A gate with this program, and a table whose numbers past the last line are none that a call would write.
fn with(lines: &[&str]) -> Gate {
    let mut gate = Controller::owned(256, 16).with_table();
    table(&mut gate)[1..].fill(60_000);
    for line in lines {
        assert_eq!(typed(&mut gate, line).stop, Stop::Done, "{line}");
    }
    gate
}

fn table(gate: &mut Gate) -> &mut Vec<u16> {
    gate.table.as_mut().expect("one is lent")
}

/// Lines stored at both ends and between, replaced by longer and shorter ones, and deleted, some that are not there; and
/// lines that edit nothing.
const EDITS: &str = "20 END|30 A=1|10 B=2:C=3|15 END|20 GOTO 30:END|20 END|40|30 PRIMT|A=1|LIST|RUN|15|10|5 A=0|30|20|5|\
    10 END|20 END|NEW|NEW||10 DO|20 DO|CLEAR";

#[test]
fn after_each_line_the_table_is_what_a_walk_gives_and_holds_the_rest() {
    let mut gate = with(&[]);
    for line in EDITS.split('|') {
        let mut wanted = table(&mut gate).clone();
        typed(&mut gate, line);
        let walked = table_of(&gate.page);
        let used = usize::from(walked[0]) + 1;
        wanted[..used].copy_from_slice(&walked[..used]);
        assert!(*table(&mut gate) == wanted, "{line}");
    }
    assert_eq!(table(&mut gate)[..3], [2, 0, 7]);
}

#[test]
fn a_deletion_leaves_the_old_last_entry() {
    let mut gate = with(&["10 END", "20 END"]);
    assert_eq!(table(&mut gate)[..4], [2, 0, 8, 60_000]);
    typed(&mut gate, "10");
    assert_eq!(table(&mut gate)[..4], [1, 0, 8, 60_000]);
}

const PROGRAM: &str = "10 GOSUB 200:A=A+1:IF A<4 GOTO 40|20 GOTO 200|30 END|40 FOR I=1 TO 2:DO|50 GOSUB 60:NEXT I:GOTO 10|\
    60 B=B+A:RETURN|200 C=C+1:IF C>5 GOTO 205|210 RETURN";

#[test]
fn runs_with_a_true_table_and_with_none_leave_the_same() {
    let mut tabled = with(&PROGRAM.split('|').collect::<Vec<_>>());
    let mut plain = Controller {
        table: None,
        ..tabled.clone()
    };
    for line in "RUN|GOTO 30|GOTO 31|GOSUB 200|GOTO 0|GOTO 32767|GOTO -1".split('|') {
        let mut answers = [&mut tabled, &mut plain].map(|gate| typed(gate, line));
        for _ in 0..9 {
            assert_eq!(answers[0], answers[1], "{line}");
            assert_eq!(tabled.record, plain.record, "{line}");
            answers = [&mut tabled, &mut plain]
                .map(|gate| gate.continue_run(&[], &mut [0; 64], Call::at(0, 0, 3)));
        }
    }
    assert_eq!((tabled.page, plain.table), (plain.page, None));
}

/// What both calls say, which must change nothing.
fn refused(gate: &Gate) -> [Stop; 2] {
    let mut copy = gate.clone();
    let taken = typed(&mut copy, "30 END");
    let continued = copy.continue_run(&[], &mut [0; 64], Call::at(0, 0, 3));
    assert_eq!(copy, *gate);
    [taken, continued].map(|answer| {
        assert_eq!((answer.line, answer.steps, answer.inpos), (None, 0, 0));
        answer.stop
    })
}

#[test]
fn a_false_table_is_refused_and_the_pause_stays() {
    let mut gate = with(&["10 A=1", "20 GOTO 10"]);
    assert_eq!(typed(&mut gate, "RUN").stop, Stop::Paused);
    let spoil: [fn(&mut Vec<u16>); 7] = [
        |table| table[0] = 1,
        |table| table[0] = 3,
        |table| table[0] = 65_535,
        |table| table[1] = 1,
        |table| table[2] -= 1,
        |table| table[2] += 1,
        |table| table.fill(0),
    ];
    for spoil in spoil {
        let mut false_one = gate.clone();
        spoil(table(&mut false_one));
        assert_eq!(refused(&false_one), [Stop::BadTable; 2]);
    }
}

#[test]
fn the_page_is_looked_at_before_the_table_and_the_record_after_it() {
    let mut gate = with(&["10 END"]);
    gate.record.flags = 8;
    assert_eq!(refused(&gate), [Stop::BadRecord; 2]);
    table(&mut gate)[1] = 4;
    assert_eq!(refused(&gate), [Stop::BadTable; 2]);
    gate.page[2] = 0;
    assert_eq!(refused(&gate), [Stop::BadPage; 2]);
    table(&mut gate).truncate(1024);
    assert_eq!(refused(&gate), [Stop::OutOfRange; 2]);
}

#[test]
fn a_page_that_was_restored_gets_a_table_of_its_own() {
    let stored = with(&["10 A=1", "20 GOTO 10"]).page;
    let mut gate = Controller::new(nibl::empty_page(256), vec![0; 16]).with_table();
    gate.page = stored;
    assert_eq!(refused(&gate), [Stop::BadTable; 2]);
    let mut gate = gate.with_table();
    assert_eq!(typed(&mut gate, "RUN").stop, Stop::Paused);
}
