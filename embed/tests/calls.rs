//! The calls through the crate: what a host sees, and all that it can lend wrongly. `header.rs` has the limits.

use nibl::{Call, Controller, Record, Stop, MARK, START};

fn typed(
    gate: &mut Controller<Vec<u8>, Vec<u8>>,
    line: &str,
    budget: usize,
) -> (Stop, Option<u16>, u16, String) {
    let mut output = [0; 256];
    let answer = gate.take_line(line.as_bytes(), &mut output, Call::at(0, 0, budget));
    let written = String::from_utf8(output[..answer.outpos].to_vec()).expect("plain text");
    (answer.stop, answer.line, answer.steps, written)
}

#[test]
fn a_refused_line_has_its_column_and_every_other_answer_0() {
    let mut gate = Controller::owned(256, 0);
    let mut column = |line: &[u8]| {
        let answer = gate.take_line(line, &mut [], Call::at(0, 0, 9));
        (answer.stop, answer.column)
    };
    assert_eq!(column(b"30 PRIMT 1\r"), (Stop::NoReading, 6));
    assert_eq!(column(b"print 1\r"), (Stop::NoReading, 0));
    assert_eq!(column(b"IF A=1 GOTX 10\r"), (Stop::NoReading, 10));
    assert_eq!(column(b"A=(1\r"), (Stop::NoReading, 4));
    assert_eq!(column(b"PR__PRIMT\r"), (Stop::NoReading, 3)); // of the bytes that are kept
    assert_eq!(column(&[b'A'; 73]), (Stop::NoCr, 0));
    assert_eq!(
        column(&[&[b'A'; 73][..], b"\r"].concat()),
        (Stop::NoReading, 72)
    );
    assert_eq!(column(b"PRINT 1\r"), (Stop::OutputFull, 0));
    assert_eq!(column(b"10 INPUT A\r"), (Stop::Done, 0));
    assert_eq!(column(b"RUN\rX\r"), (Stop::OutputFull, 0));
    assert_eq!(column(b"INPUT A\r"), (Stop::NotImmediate, 0));
}

#[test]
fn every_field_of_the_record_crosses_both_ways() {
    let mut gate = Controller::owned(256, 0);
    typed(&mut gate, "10 FOR Z=1 TO 5 STEP 2:DO:GOSUB 30\r", 0);
    typed(&mut gate, "30 A=1-2:END\r", 0);
    assert_eq!(typed(&mut gate, "STAT=5\r", 0).0, Stop::Done);
    let (stop, line, steps, _) = typed(&mut gate, "RUN\r", 9);
    assert_eq!((stop, line, steps), (Stop::End, Some(30), 5));
    let record = gate.record;
    assert_eq!(
        (record.vars[0], record.vars[25], record.flags),
        (65535, 1, 5)
    );
    assert_eq!(
        (record.gosubs.depth, record.dos.depth, record.fors.depth),
        (1, 1, 1)
    );
    let text = b"\x00\x0a\x24 FOR Z=1 TO 5 STEP 2:DO:GOSUB 30\r";
    let ends: Vec<u16> = (3..text.len() as u16)
        .filter(|&at| b":\r".contains(&text[usize::from(at)]))
        .collect();
    assert_eq!(gate.page[..text.len()], text[..]);
    let entry = record.fors.entries[0];
    assert_eq!(
        (entry.var, entry.limit, entry.step, entry.place),
        (25, 5, 2, ends[0])
    );
    assert_eq!(
        (record.dos.places[0], record.gosubs.places[0]),
        (ends[1], ends[2])
    );

    gate.record.vars[25] = 4;
    gate.record.fors.entries[0].limit = 7;
    typed(&mut gate, "30 NEXT Z\r", 0);
    gate.record = Record {
        fors: record.fors,
        ..gate.record
    };
    gate.record.fors.entries[0].limit = 7;
    let (stop, _, _, _) = typed(&mut gate, "GOTO 30\r", 1);
    assert_eq!((stop, gate.record.vars[25]), (Stop::Paused, 6));
    assert_eq!(gate.record.paused, ends[0] + 2);
}

#[test]
fn a_typed_gosub_saves_the_mark_and_run_pauses_at_the_start() {
    let mut gate = Controller::owned(64, 0);
    typed(&mut gate, "10 RETURN\r", 0);
    assert_eq!(typed(&mut gate, "GOSUB 10\r", 0).0, Stop::Paused);
    assert_eq!(
        (gate.record.gosubs.places[0], gate.record.paused),
        (MARK, START)
    );
    let answer = gate.continue_run(&[], &mut [], Call::at(0, 0, 1));
    assert_eq!(
        (answer.stop, answer.line, answer.steps),
        (Stop::Done, None, 1)
    );
    assert!(!gate.record.is_paused());
}

#[test]
fn what_is_out_of_range_is_refused_and_changes_nothing() {
    let far = [1, 2, 65_536, 1 << 32, usize::MAX];
    let mut calls = Vec::new();
    for by in far {
        calls.push(Call::at(4_usize.saturating_add(by), 0, 0));
        calls.push(Call::at(0, 8_usize.saturating_add(by), 0));
        calls.push(Call::at(0, 0, 65_535_usize.saturating_add(by)));
    }
    for call in calls {
        let mut gate = Controller::owned(64, 8);
        gate.record.vars = [7; 26];
        let before = gate.clone();
        let mut output = [9; 8];
        for continued in [false, true] {
            let answer = match continued {
                true => gate.continue_run(b"NEW\r", &mut output, call),
                false => gate.take_line(b"NEW\r", &mut output, call),
            };
            assert_eq!(
                (answer.stop, answer.line, answer.steps),
                (Stop::OutOfRange, None, 0)
            );
            assert_eq!((answer.inpos, answer.outpos), (call.inpos, call.outpos));
            assert_eq!((&gate, output), (&before, [9; 8]));
        }
    }
}

#[test]
fn a_page_changed_under_a_pause_is_refused() {
    let mut gate = Controller::owned(64, 0);
    typed(&mut gate, "10 A=1:B=2\r", 0);
    assert_eq!(typed(&mut gate, "RUN\r", 1).0, Stop::Paused);
    gate.page = nibl::empty_page(64);
    let before = gate.record;
    let answer = gate.continue_run(&[], &mut [], Call::at(0, 0, 1));
    assert_eq!((answer.stop, gate.record), (Stop::BadRecord, before));
    gate.page[0] = 0;
    assert_eq!(
        gate.continue_run(&[], &mut [], Call::at(0, 0, 1)).stop,
        Stop::BadPage
    );
}

#[test]
fn borrowed_pages_and_memories_are_changed_where_they_stand() {
    let (mut page, mut memory) = ([255; 16], [0; 4]);
    let mut gate = Controller::new(&mut page[..], &mut memory[..]);
    gate.take_line(b"1 END\r", &mut [], Call::default());
    gate.take_line(b"$0=\"HI\"\r", &mut [], Call::default());
    assert_eq!(
        (&page[..10], &memory),
        (&b"\x00\x01\x08 END\r\xff\xff"[..], b"HI\r\0")
    );
}
