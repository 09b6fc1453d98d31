//! What `include/nibl_host.h` has of a record and of the stops, in Rust: the same bytes, and the same words. `embed/c/host.out`
//! is what both print.

use nibl::{Call, Controller, Record, Stop, RECORD_BYTES, RECORD_FORM, START};

/// The record that `embed/c/host.c` stores.
fn open_all() -> Record {
    let mut gate = Controller::owned(4096, 0);
    let mut typed = |line: &[u8], budget| gate.take_line(line, &mut [], Call::at(0, 0, budget));
    typed(
        b"10 FOR Z=1 TO 5 STEP 2:FOR B=9 TO -300 STEP -7:DO:GOSUB 30\r",
        0,
    );
    typed(b"30 DO:A=1-2:GOTO 30\r", 0);
    typed(b"STAT=5\r", 0);
    assert_eq!(typed(b"RUN\r", 9).stop, Stop::Paused);
    gate.record
}

/// The same with other numbers in the slots that are not in use.
fn littered(mut record: Record) -> Record {
    let (gosubs, dos) = (record.gosubs.open().len(), record.dos.open().len());
    let fors = record.fors.open().len();
    record.gosubs.places[gosubs..].fill(77);
    record.dos.places[dos..].fill(88);
    for entry in &mut record.fors.entries[fors..] {
        entry.place = 99;
    }
    record
}

#[test]
fn stops_and_a_stored_record_are_those_of_c() {
    let stops = Stop::ALL.map(|stop| format!("{stop}; {}\n", stop.effect()));
    let stored = open_all().to_bytes().expect("a call left it");
    let hex: String = stored.iter().map(|byte| format!("{byte:02x}")).collect();
    assert_eq!(stops.concat() + &hex + "\n", include_str!("../c/host.out"));
}

#[test]
fn only_what_is_in_use_counts() {
    let record = open_all();
    assert!(record.fors.entries != littered(record).fors.entries);
    assert_eq!(record, littered(record));
    assert_eq!(record.to_bytes(), littered(record).to_bytes());
    let differ: [fn(&mut Record); 9] = [
        |other| other.vars[25] ^= 256,
        |other| other.flags ^= 1,
        |other| other.gosubs.depth -= 1,
        |other| other.gosubs.places[0] ^= 1,
        |other| other.dos.depth += 1,
        |other| other.dos.places[2] ^= 1,
        |other| other.fors.depth -= 1,
        |other| other.fors.entries[1].step ^= 1,
        |other| other.paused = START,
    ];
    for change in differ {
        let mut other = record;
        change(&mut other);
        assert!(other != record && record != other);
        assert!(other.to_bytes() != record.to_bytes());
    }
}

#[test]
fn a_stored_record_comes_back_or_is_refused() {
    let record = open_all();
    let stored = record.to_bytes().expect("a call left it");
    assert_eq!((stored.len(), stored[0]), (RECORD_BYTES, RECORD_FORM));
    assert_eq!(Record::from_bytes(&stored), Some(record));
    assert_eq!(Record::from_bytes(&stored[1..]), None);
    assert_eq!(Record::from_bytes(&[&stored[..], &[0]].concat()), None);
    assert_eq!(Record::from_bytes(&[]), None);
    for at in [0, 54, 54 + 17, 54 + 34] {
        let mut wrong = stored;
        wrong[at] = 9;
        assert_eq!(Record::from_bytes(&wrong), None, "{at}");
    }
    for depth in [9, 256, 1 << 32, u64::MAX] {
        let mut deep = record;
        deep.dos.depth = depth;
        assert_eq!(deep.to_bytes(), None, "{depth}");
    }
}
