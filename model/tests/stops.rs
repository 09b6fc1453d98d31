//! Every stop number, with what it leaves.

mod gate;

use gate::{fresh_stop, run, Gate, Reply};
use model::{continue_run, take_line, Answer, ForEntry, Lent, Pause, Place, Record, Stop};

#[test]
fn numbers_are_those_of_the_table() {
    let numbers: Vec<u8> = Stop::ALL.iter().map(|stop| stop.number()).collect();
    let expected: Vec<u8> = (0..=20).filter(|&number| number != 4).chain([22, 23, 24, 26]).collect();
    assert_eq!(numbers, expected);
}

#[test]
fn done() {
    assert_eq!(run(&["10 A=1", "20 B=2:C=3"]), (0, None, 3));
    assert_eq!(run(&[]), (0, None, 0));
    let mut gate = Gate::with(&["10 RETURN"]);
    let reply = gate.line("GOSUB 10");
    assert_eq!((reply.stop, reply.line, reply.steps), (0, None, 1));
}

/// The stop of a call over lengths, positions and a budget of any size.
fn sized(lengths: [usize; 4], positions: [u32; 2], budget: u32) -> Answer {
    let [page, memory, input, output] = lengths;
    let (mut page, mut memory) = (vec![255; page], vec![0; memory]);
    let (input, mut output) = (vec![13; input], vec![0; output]);
    let lent = Lent {
        page: &mut page,
        memory: &mut memory,
        input: &input,
        output: &mut output,
        input_position: positions[0],
        output_position: positions[1],
        sense: 255,
        budget,
        table: None,
    };
    take_line(&mut Record::default(), lent)
}

#[test]
fn out_of_range() {
    let sound = [
        ([2, 0, 1, 0], [0, 0], 0),
        ([4096, 4096, 65_535, 65_535], [65_534, 65_535], 65_535),
    ];
    for (lengths, positions, budget) in sound {
        assert_eq!(sized(lengths, positions, budget).stop, Stop::Done);
    }
    let refused = [
        ([0, 0, 1, 0], [0, 0], 0),
        ([1, 0, 1, 0], [0, 0], 0),
        ([4097, 0, 1, 0], [0, 0], 0),
        ([2, 4097, 1, 0], [0, 0], 0),
        ([2, 0, 65_536, 0], [0, 0], 0),
        ([2, 0, 1, 65_536], [0, 0], 0),
        ([2, 0, 1, 0], [2, 0], 0),
        ([2, 0, 1, 0], [0, 1], 0),
        ([2, 0, 1, 0], [u32::MAX, u32::MAX], 0),
        ([2, 0, 1, 0], [0, 0], 65_536),
        ([2, 0, 1, 0], [0, 0], u32::MAX),
    ];
    for (lengths, positions, budget) in refused {
        let answer = sized(lengths, positions, budget);
        assert_eq!(answer.stop, Stop::OutOfRange, "{lengths:?} {positions:?}");
        assert_eq!((answer.line, answer.steps), (None, 0));
        assert_eq!([answer.input_position, answer.output_position], positions);
    }
}

#[test]
fn page_full() {
    let mut gate = Gate::with(&["10 END"]);
    gate.page.truncate(10);
    gate.record.gosubs.push(Place::IMMEDIATE);
    gate.record.paused = Some(Pause::Start);
    let before = gate.page.clone();
    let reply = gate.line("20 A=1");
    assert_eq!((reply.stop, reply.line, reply.taken), (2, None, 7));
    assert_eq!(gate.page, before);
    assert_eq!((gate.record.gosubs.depth, gate.record.paused), (1, None));
    // The old room of the replaced line counts as free.
    assert_eq!(gate.stop("10 A=1"), 0);
    assert_eq!(gate.record.gosubs.depth, 0);
    assert_eq!(gate.stop("10 A=11"), 2);
}

#[test]
fn not_immediate() {
    let lines = [
        "DO",
        "UNTIL 1",
        "FOR I=1 TO 2",
        "NEXT I",
        "INPUT A",
        "INPUT $0",
        "IF 0 DO",
        "IF 1/0 INPUT A",
        "IF 1 THEN IF 1 NEXT A",
    ];
    for typed in lines {
        let mut gate = Gate::new();
        gate.record.paused = Some(Pause::Start);
        let reply = gate.line(typed);
        assert_eq!((reply.stop, reply.out.as_str()), (3, ""), "{typed}");
        assert_eq!(reply.taken as usize, typed.len() + 1);
        assert_eq!(gate.record, Record::default());
    }
}

#[test]
fn no_reading() {
    let mut gate = Gate::new();
    gate.record.paused = Some(Pause::Start);
    let reply = gate.line("NONSENSE");
    assert_eq!((reply.stop, reply.line, reply.taken), (5, None, 9));
    assert_eq!(gate.record.paused, None);
}

#[test]
fn bad_reply() {
    let mut gate = Gate::with(&["10 INPUT A,B"]);
    let reply = gate.feed(&["RUN", "1,"]);
    assert_eq!((reply.stop, reply.line, reply.steps), (6, Some(10), 1));
    assert_eq!((reply.out.as_str(), reply.taken), ("?", 7));
    assert_eq!(gate.variable('A'), 0);
    let over_long = "1".repeat(73);
    assert_eq!(gate.feed(&["RUN", &over_long]).stop, 6);
    let mut gate = Gate::with(&["10 INPUT $0"]);
    assert_eq!(gate.feed(&["RUN", &over_long]).stop, 6);
    assert_eq!(gate.memory, [0; 64]);
}

#[test]
fn no_cr() {
    let mut gate = Gate::with(&["10 END"]);
    gate.record.paused = Some(Pause::Start);
    let before = gate.record.clone();
    let long = [b'X'; 100];
    for input in [&b""[..], b"NEW", b"CLEAR\n", &long] {
        let reply = gate.call(input, take_line);
        let nothing = Reply {
            stop: 7,
            line: None,
            steps: 0,
            column: 0,
            taken: 0,
            out: String::new(),
        };
        assert_eq!(reply, nothing);
    }
    assert_eq!(gate.record, before);
    let mut gate = Gate::with(&["10 A=5:INPUT A"]);
    let reply = gate.call(b"RUN\r12", take_line);
    assert_eq!((reply.stop, reply.line, reply.steps), (7, Some(10), 2));
    assert_eq!((reply.out.as_str(), reply.taken), ("?", 4));
    assert_eq!((gate.variable('A'), gate.record.paused), (5, None));
}

#[test]
fn no_such_line() {
    assert_eq!(run(&["10 GOTO 11"]), (8, Some(10), 1));
    assert_eq!(run(&["10 A=1:GOSUB -10"]), (8, Some(10), 2));
    assert_eq!(fresh_stop("GOTO 10"), 8);
    assert_eq!(Gate::new().line("GO SUB 0").line, None);
}

#[test]
fn stacks_empty() {
    assert_eq!(run(&["10 RETURN"]), (9, Some(10), 1));
    assert_eq!(run(&["10 UNTIL 0"]), (15, Some(10), 1));
    assert_eq!(run(&["10 NEXT A"]), (11, Some(10), 1));
    assert_eq!(fresh_stop("RETURN"), 9);
}

#[test]
fn too_deep() {
    assert_eq!(run(&["10 GOSUB 10"]), (10, Some(10), 9));
    assert_eq!(run(&["10 DO:GOTO 10"]), (10, Some(10), 17));
    let mut gate = Gate::with(&["10 FOR I=I+1 TO 9", "20 GOTO 10"]);
    let reply = gate.line("RUN");
    assert_eq!((reply.stop, reply.line, reply.steps), (10, Some(10), 9));
    assert_eq!((gate.variable('I'), gate.record.fors.depth), (4, 4));
    // The stacks stay for what is typed next.
    assert_eq!(Gate::with(&["10 GOSUB 10"]).line("RUN").stop, 10);
    let mut gate = Gate::with(&["10 GOSUB 10"]);
    gate.line("RUN");
    assert_eq!(gate.record.gosubs.depth, 8);
    assert_eq!(gate.stop("GOSUB 10"), 10);
    assert_eq!(gate.stop("GOSUB 11"), 8);
}

#[test]
fn other_variable() {
    let mut gate = Gate::with(&["10 FOR I=1 TO 2", "20 FOR J=1 TO 2", "30 NEXT I"]);
    let reply = gate.line("RUN");
    assert_eq!((reply.stop, reply.line, reply.steps), (12, Some(30), 3));
    assert_eq!((gate.variable('I'), gate.record.fors.depth), (1, 2));
}

#[test]
fn division_by_zero() {
    assert_eq!(fresh_stop("PRINT 1/0"), 13);
    assert_eq!(fresh_stop("PRINT MOD(1,0)"), 13);
    assert_eq!(run(&["10 A=1/A"]), (13, Some(10), 1));
}

#[test]
fn paused() {
    let mut gate = Gate::with(&["10 A=A+1", "20 A=A+1: A=A+1"]);
    gate.budget = 2;
    let reply = gate.line("RUN");
    assert_eq!((reply.stop, reply.line, reply.steps), (14, None, 2));
    // 0 10 9 " A=A+1" CR is ten bytes, then 0 20 17 " A=A+1" and the ":".
    assert_eq!(gate.record.paused, Some(Pause::After(Place(19))));
    assert_eq!(gate.page[19], b':');
    let reply = gate.go_on();
    assert_eq!((reply.stop, reply.line, reply.steps), (0, None, 1));
    assert_eq!((gate.variable('A'), gate.record.paused), (3, None));
    let reply = gate.go_on();
    assert_eq!((reply.stop, reply.steps), (0, 0));
    gate.budget = 3;
    assert_eq!(gate.line("RUN").stop, 0);
}

#[test]
fn no_memory() {
    let refused = [
        "PRINT @64",
        "PRINT @(-1)",
        "@64=1",
        "PRINT $0",
        "PRINT $64",
        "$60=\"ABCD\"",
        "$64=\"\"",
        "$0=$1",
    ];
    for typed in refused {
        let mut gate = Gate::new();
        assert_eq!(gate.stop(typed), 16, "{typed}");
        assert_eq!(gate.memory, [0; 64]);
    }
    let mut gate = Gate::new();
    assert_eq!(gate.stop("$60=\"ABC\""), 0);
    assert_eq!(gate.memory[60..], *b"ABC\r");
    assert_eq!(gate.stop("$61=$60"), 16);
    assert_eq!(gate.stop("$63=\"\""), 0);
    assert_eq!(gate.memory[60..], *b"ABC\r");
}

#[test]
fn output_full() {
    let mut gate = Gate::new();
    gate.output_room = 5;
    let reply = gate.line("PRINT 1,\"\",23");
    assert_eq!(
        (reply.stop, reply.line, reply.out.as_str()),
        (17, None, " 1 ")
    );
    let reply = gate.line("PRINT 1;");
    assert_eq!((reply.stop, reply.out.as_str()), (0, " 1 "));
    let reply = gate.line("PRINT 1,\"A\"");
    assert_eq!((reply.stop, reply.out.as_str()), (17, " 1 A"));
    let mut gate = Gate::with(&["1 END", "2 INPUT A"]);
    gate.output_room = 8;
    let reply = gate.line("LIST");
    assert_eq!(
        (reply.stop, reply.line, reply.out.as_str()),
        (17, None, "1 END\r\n")
    );
    gate.output_room = 0;
    let reply = gate.feed(&["GOTO 2", "1"]);
    assert_eq!((reply.stop, reply.line, reply.taken), (17, Some(2), 7));
}

/// Refused with this stop by both calls, with everything left alone.
fn refused_by_both(gate: &mut Gate, stop: u8) {
    let (page, record) = (gate.page.clone(), gate.record.clone());
    for call in [take_line, continue_run] {
        let reply = gate.call(b"PRINT 1\r", call);
        assert_eq!((reply.stop, reply.line, reply.steps), (stop, None, 0));
        assert_eq!((reply.taken, reply.out.as_str()), (0, ""));
        assert_eq!((&gate.page, &gate.record), (&page, &record));
    }
}

#[test]
fn bad_page() {
    let long = [&b"\0\x0a\x4bREM"[..], &[b'X'; 68], b"\r\xff\xff"].concat();
    let just_too_long = [&b"\0\x0a\x4bREM "[..], &[b'X'; 67], b"\r\xff\xff"].concat();
    let pages: [&[u8]; 19] = [
        b"\0\0",
        b"\xff\0",
        b"\0\x0a\x08 END\r",
        b"\0\x0a\x08 END\r\xff",
        b"\0\x0a\x08 END\n\xff\xff",
        b"\0\x0a\x09 END\r\xff\xff",
        b"\0\x0a\x07 END\r\xff\xff",
        b"\x80\0\x08 END\r\xff\xff",
        b"\0\x0a\x0bEND END\r\xff\xff",
        b"\0\x0a\x05 \r\xff\xff",
        b"\0\x0a\x04\r\xff\xff",
        b"\0\x0a\x00\xff\xff",
        b"\0\x0a\x09 END_\r\xff\xff",
        b"\0\x0a\x08 END\r\0\x0a\x08 END\r\xff\xff",
        b"\0\x0a\x08 END\r\0\x09\x08 END\r\xff\xff",
        b"\0\x0a\x09REM \x7f\r\xff\xff",
        b"\0\x0a\x09REM _\r\xff\xff",
        &long,
        &just_too_long,
    ];
    for page in pages {
        let mut gate = Gate::new();
        gate.page = page.to_vec();
        gate.record.flags = 8;
        refused_by_both(&mut gate, 18);
    }
    let mut gate = Gate::new();
    gate.page = b"\0\x0a\x081END\r\xff\xff".to_vec();
    refused_by_both(&mut gate, 18);
}

#[test]
fn sound_pages() {
    let longest = [&b"\0\x0a\x4aREM "[..], &[b'X'; 66], b"\r\xff\xff"].concat();
    let pages: [&[u8]; 5] = [
        b"\xff\xff",
        b"\xff\xff\0\0\0",
        b"\0\x0a\x07END\r\xff\xff",
        b"\x7f\xff\x09  END\r\xff\xff\x80",
        &longest,
    ];
    for page in pages {
        let mut gate = Gate::new();
        gate.page = page.to_vec();
        assert_eq!(gate.stop(""), 0, "{page:?}");
    }
}

/// Each makes a record with full stacks unfit for a page whose only place is 7.
const SPOILS: [fn(&mut Record); 15] = [
    |record| record.flags = 8,
    |record| record.flags = 255,
    |record| record.gosubs.depth = 9,
    |record| record.gosubs.depth = usize::MAX,
    |record| record.dos.depth = 9,
    |record| record.fors.depth = 5,
    |record| record.gosubs.places[7] = Place(6),
    |record| record.dos.places[0] = Place(0),
    |record| record.dos.places[3] = Place::IMMEDIATE,
    |record| record.fors.entries[3].place = Place::IMMEDIATE,
    |record| record.fors.entries[0].place = Place(8),
    |record| record.fors.entries[2].variable = 26,
    |record| record.paused = Some(Pause::After(Place(0))),
    |record| record.paused = Some(Pause::After(Place::IMMEDIATE)),
    |record| record.paused = Some(Pause::After(Place(5000))),
];

#[test]
fn record_does_not_fit() {
    let place = Place(7);
    let mut gate = Gate::with(&["10 END"]);
    for _ in 0..8 {
        gate.record.gosubs.push(place);
        gate.record.dos.push(place);
    }
    for variable in [0, 25, 25, 8] {
        gate.record.fors.push(ForEntry {
            variable,
            place,
            ..ForEntry::default()
        });
    }
    gate.record.gosubs.places[3] = Place::IMMEDIATE;
    gate.record.paused = Some(Pause::After(place));
    let sound = gate.record.clone();
    for spoil in SPOILS {
        spoil(&mut gate.record);
        refused_by_both(&mut gate, 19);
        gate.record = sound.clone();
        assert_eq!(gate.stop(""), 0);
        gate.record = sound.clone();
    }
}

#[test]
fn dead_slots_are_not_looked_at() {
    let mut gate = Gate::new();
    gate.record.gosubs.places = [Place(9); 8];
    gate.record.dos.places = [Place::IMMEDIATE; 8];
    gate.record.fors.entries[0].variable = 200;
    let before = gate.record.clone();
    assert_eq!(gate.stop("CLEAR"), 0);
    assert_eq!(gate.record, before);
}

#[test]
fn end() {
    assert_eq!(run(&["10 A=1", "20 END:A=2"]), (20, Some(20), 2));
    let reply = Gate::new().line("END");
    assert_eq!((reply.stop, reply.line, reply.steps), (20, None, 0));
}

#[test]
fn order_of_first_refusals() {
    let mut gate = Gate::new();
    gate.page[0] = 0;
    gate.record.flags = 8;
    gate.budget = 65_536;
    assert_eq!(gate.call(b"", take_line).stop, 1);
    gate.budget = 0;
    assert_eq!(gate.call(b"", take_line).stop, 18);
    gate.page[0] = 255;
    assert_eq!(gate.call(b"", take_line).stop, 19);
    gate.record.flags = 0;
    assert_eq!(gate.call(b"", take_line).stop, 7);
    assert_eq!(gate.stop("FOR I=1"), 5);
    assert_eq!(gate.stop("FOR I=1 TO 1/0"), 3);
}
