//! Document 02, item 2: the column of a line that has no reading.

mod gate;

use std::collections::HashSet;

use gate::Gate;
use model::column::{is_front, longest_front};
use model::line::read_line;
use model::random::damage::{table, typed, LINES, STATEMENTS, WAYS};
use model::random::lines::kept;
use model::random::typed::WORDS;
use model::random::{Random, Size};
use model::tree::Tree;
use model::typing::{class, is_text_byte, Class, LINE_LIMIT};
use model::{continue_run, take_line, Pause, Stop};

fn has_reading(line: &[u8]) -> bool {
    read_line(&mut Tree::default(), line).is_some()
}

/// Types each row without its "|", which shows where the column is.
fn rows(rows: &[&str]) {
    for row in rows {
        let column = row.find('|').expect("a mark") as u32;
        let reply = Gate::new().line(&row.replacen('|', "", 1));
        assert_eq!((reply.stop, reply.column), (5, column), "{row}");
    }
}

// By hand.

#[test]
#[rustfmt::skip]
fn the_rows_of_the_item() {
    rows(&[
        "PRINT|", "A=(1|", "PRINTX  |Y", "3276|8 END", "9999|9", "10 R|UN", "GOSU|", "10 PRIN|X", "PRINT 3276|8", "A=#|",
        "PRINT \"AB|", "A=A|N", "FOR I=1 TO|PX", "GOT|", "GOT|X", "PRIN|", "PRINT -3276|8", "PRINT 1<2|<3", "IF A=B|=C",
    ]);
}

#[test]
#[rustfmt::skip]
fn numbers_and_constants() {
    rows(&[
        "3276|8", "32767|0", "03276|8 END", "  9999|9", "10 |20 END", "1 |0", "10|#10", "10|,", "10 |:END", "10|\"A\"", "1A|",
        "10 END:|", "10 END:|:END", "10 END |END", "A=3276|8", "A=3999|9", "A=0000003276|8",
        "A=#| 5", "A=#|G", "A=#|-1", "A=#12345|G", "PRINT #5A|ND 3", "PRINT#5A|NDB", "IF #5AN|D 1 END", "PRINT 1|.5", "PRINT 1 |2",
    ]);
}

/// A word may go on to one that may stand there, and to no other.
#[test]
#[rustfmt::skip]
fn begun_words() {
    rows(&[
        "G|", "GO|", "GO |", "GO T|", "GO TO|", "GO TO|P", "GO S|", "GO S|TEP", "GO |1", "GOS|", "GOS|TEP", "GOSUB|", "GOTO|=1",
        "P|", "PR|", "PRIN|PUT", "PRINTE|ND", "PRINTN|EW", "PRINTNO|W", "PRINTT|HEN", "PRINTTO|", "PRINTTO|X", "PRINT TO| 1",
        "N|A=1", "NE|", "NEX|", "NEX|X", "A|B=1", "X|PRINT 1", "A|ANDB", "A=A|ANDB", "A=B|ORC", "A=B AN|", "A=1AN|", "A=1O|",
        "A=NO|", "A=NO|X", "A=N|EXT", "A=MO|", "A=ST|EP", "A=TO|", "A=T|HEN", "A=1 |TOP", "A=1 |NOT 2", "IFA|DO", "IFA>B|GOTOX",
        "T|OP=1", "T|O 5", "T|HEN END", "S|UB 5", "ST|EP 5", "M|OD(1,2)=1", "A|ND", "O|R", "N|OT 1", "IN|TO", "RE|N", "RET|", "EN|",
    ]);
}

#[test]
#[rustfmt::skip]
fn commands() {
    rows(&[
        "NEW |1", "NEW|A=1", "NEW|S", "NEW|:", "RUN|X", "RUN |10", "RUN|RUN", "CLEAR|A", "CLEA|", "CLEA|X", "CL|AER", "LIST|A",
        "LIST |A", "LIST 10|A", "LIST 1 |2", "LIST 3276|8", "LIST |#5", "LIST|TOP", "LIST|,", "RU|", "LIS|P", " RU|M", "NE|A=1",
        "10 NE|W", "10 L|IST", "10C|LEAR", "10RE|LIST", "IF 1 R|UN", "IF 1 THEN NE|W", "IF 1 L|IST", "A=N|EW", "PRINT R|UN",
    ]);
}

#[test]
#[rustfmt::skip]
fn assignments() {
    rows(&[
        "A|", "A |B", "A=|", "A=|=1", "A=1|:B=2", "A=1 |B=2", "A=B=C|=D", "A|+1=2", "A|(1)=2", "LET|", "LET L|ET A=1", "LET |1=2",
        "LET R|ETURN", "LET ST|=1", "LET G|OTO 1", "STAT|", "STAT =|", "STAT |A", "STAT|US=1", "STA|=1", "@|", "@|=1", "@5|", "@5 |5",
        "@5=|", "@|-1=2", "@(1=2|", "@(1)|2", "@A|B=1", "@A|+1=2", "@NOT|", "$|", "$|=\"A\"", "$0|", "$0=|", "$0=|1", "$0=|A",
        "$0=\"|", "$0=\"A|", "$0=\"A\"|,", "$0=\"A\"|\"B\"", "$0=$|", "$0=$1|+1", "$0=$|\"A\"", "$A|B", "A=|$1", "A=|\"X\"",
    ]);
}

#[test]
#[rustfmt::skip]
fn relations() {
    rows(&[
        "A=1< |=2", "A=1=|<2", "A=1>|<2", "A=1<>|=2", "A=2-|-3", "A=2*|-3", "A=NOT |-1", "A=@|-1", "A=1=-|-1", "A=+|+1", "A=|*",
        "A=(|)", "A=((1)|", "A=(1|,2)", "A=1|)", "A=(1=2|=3)", "A=1 A|", "A=1 AND|", "A=1 AN|T", "A=1 O|F", "A=1 OR|", "A=1 |N",
        "A=MOD|", "A=MOD(|", "A=MOD(1|", "A=MOD(1|)", "A=MOD(1,|", "A=MOD(1,2|", "A=MOD(1,2|,3)", "A=MOD |1,2", "A=MO|(1,2)",
        "A=MOD((1|,2),3)", "A=MOD(MOD(1,2)|)", "A=NO| 1", "A=N|A", "A=(((1<2)<3)|", "A=@@@|", "A=STAT|(1)", "A=TOPA|", "A=TOP|B",
    ]);
}

#[test]
#[rustfmt::skip]
fn statements() {
    rows(&[
        "PRINT |,", "PRINT 1,|", "PRINT 1,|,2", "PRINT 1,|;", "PRINT 1;|2", "PRINT 1;|;", "PRINT |;", "PRINT \"A\"|\"B\"",
        "PRINT \"A\"|+1", "PRINT 1+|\"A\"", "PRINT \"|", "PRINT $|", "PRINT $|$1", "PRINT $1|+1", "PRINT 1=|\"A\"",
        "IF|", "IF A|", "IF A T|", "IF A TH|", "IF A THE|X", "IF A THEN|", "IF A THEN T|HEN END", "IF A T|O", "IF A E|LSE", "IF |=1",
        "IF T|HEN", "IF A=B |=C", "IF 1 IF|", "IF 1 PRINT 1|:END", "IF A|,", "IF 1 THEN |1",
        "FOR|", "FOR I|", "FOR |1=1 TO 2", "FOR I=|", "FOR I=1|", "FOR I=1 T|", "FOR I=1 TO|", "FOR I=1 TO TO|", "FOR I=1 TO TO| 3",
        "FOR I=1TO|P", "FOR I=1 T|HEN", "FOR I=1 TO 2 S|", "FOR I=1 TO 2 STEP|", "FOR I=1 TO 2 S|UB", "FOR I=1 TO 2 ST|OP",
        "FOR I=1 TO 2 STEP |,", "FOR I|J=1 TO 2", "FOR S|TAT=1 TO 2", "FOR |@1=1 TO 2", "FOR I=A|TOB", "FOR I=1=2|=3 TO 4",
        "FOR I=1 TO 2 |TO 3", "FOR I=1 |STEP 2", "10 FOR I=1 TO 2:|", "NEXT|", "NEXT |1", "NEXT I|J", "NEXT I|,J",
        "INPUT|", "INPUT A,|", "INPUT A|B", "INPUT A |B", "INPUT |1", "INPUT |\"A\"", "INPUT $|", "INPUT $A|,B", "INPUT A,|$1",
        "INPUT |@1", "INPU|X", "UNTI|", "UNTIL|", "UNTIL |:", "D|", "D|A", "DO|A", "DO |DO", "DO|:", "END|S", "END|:", "END |1",
        "RETURN|S", "RETURN |1", "10 DO:L|IST", "GOTO 1|,2", "GOSUB (1|", "GO SUB|", "GO SUB T|HEN",
    ]);
}

#[test]
#[rustfmt::skip]
fn bytes_that_stand_nowhere() {
    rows(&[
        "|a=1", "PRINT |a", "A=1|~", "A|[1]", "A=|!", "|?", "A=1|\\", "|\x01", " |\t", "10|\t", "A=|\t1", "REM |\x7f", "10REM A|\tB",
        "PRINT \"A|\x01\"", "$0=\"|\x02",
    ]);
    for byte in (0..=255).filter(|&byte| class(byte) == Class::Other && !is_text_byte(byte)) {
        for (before, behind) in [("", "A=1"), ("REM ", "X"), ("PRINT \"", "\""), ("10", ""), ("LIST", " 5")] {
            let line = [before.as_bytes(), &[byte], behind.as_bytes(), b"\r"].concat();
            let reply = Gate::new().call(&line, take_line);
            assert_eq!((reply.stop, reply.column), (5, before.len() as u32), "{byte} behind {before}");
        }
    }
}

/// The column counts the bytes that are kept, spaces among them.
#[test]
fn what_is_not_kept_is_not_counted() {
    for (typed, column) in [
        ("\0PRX_I\nNT ,", 6),
        ("A=12____B=", 2),
        ("A=1 BC_\0", 4),
        ("NONSENSE\x15PRINT", 5),
        ("  PRINT   ", 10),
        ("_\x15_\0\n  +", 2),
    ] {
        let reply = Gate::new().line(typed);
        assert_eq!((reply.stop, reply.column), (5, column), "{typed:?}");
    }
}

#[test]
fn an_over_long_line_has_the_limit() {
    let over = LINE_LIMIT + 1;
    let remark = |length: usize| format!("REM {}", "X".repeat(length - 4));
    for typed in [
        remark(over),
        " ".repeat(over),
        "+".repeat(over),
        "7".repeat(3 * over),
        remark(over) + "_",
        remark(over) + &"_".repeat(over),
        remark(over) + &"_".repeat(over) + "A=1",
    ] {
        let reply = Gate::new().line(&typed);
        assert_eq!((reply.stop, reply.column), (5, 72), "{typed}");
    }
    let full = |front: &str, fill: &str| front.to_string() + &fill.repeat(LINE_LIMIT - front.len());
    for (typed, column) in [
        (full("PRINT", " "), 72),
        (full("PRINT \"", "X"), 72),
        (full("A=", "("), 72),
        (full("A=1+", "+"), 4),
        (full("", "X"), 1),
        (remark(over) + "\x15PRINT", 5),
    ] {
        let reply = Gate::new().line(&typed);
        assert_eq!((reply.stop, reply.column), (5, column), "{typed}");
    }
}

#[test]
fn every_other_stop_has_none() {
    let program = ["10 A=1/0", "20 INPUT A", "30 GOTO 30", "40 END"];
    for (stop, typed) in [
        (0, ""),
        (0, "50"),
        (0, "50 END"),
        (0, "LIST 40"),
        (3, "DO"),
        (2, "60 REM NO ROOM"),
        (8, "GOTO 5"),
        (13, "RUN"),
        (9, "RETURN"),
        (14, "GOTO 30"),
        (16, "A=@99"),
        (17, "PRINT \"0123456789012345678901234567890123456789\""),
        (20, "GOTO 40"),
    ] {
        let mut gate = Gate::with(&program);
        gate.page.truncate(gate.used().len() + 8);
        gate.output_room = 40;
        let reply = gate.line(typed);
        assert_eq!((reply.stop, reply.column), (stop, 0), "{typed}");
    }
    for reply in ["PRINT", "1,", "32768"] {
        let reply = Gate::with(&["20 INPUT A,B"]).feed(&["RUN", reply]);
        assert_eq!((reply.stop, reply.column), (6, 0));
    }
}

/// Refused before a line is read, or without one.
#[test]
fn a_line_that_is_not_read_has_none() {
    let mut gate = Gate::with(&["10 END"]);
    assert_eq!(gate.call(b"PRINT", take_line).column, 0);
    gate.record.paused = Some(Pause::Start);
    let reply = gate.call(b"PRINT\r", continue_run);
    assert_eq!((reply.stop, reply.column), (20, 0));
    gate.budget = 65_536;
    let reply = gate.line("PRINT");
    assert_eq!((reply.stop, reply.column), (1, 0));
    gate.budget = 1;
    gate.record.flags = 8;
    let reply = gate.line("PRINT");
    assert_eq!((reply.stop, reply.column), (19, 0));
    gate.page[0] = 128;
    let reply = gate.line("PRINT");
    assert_eq!((reply.stop, reply.column), (18, 0));
}

// By other ways to find out what is a front.

/// What may finish the word that a text ends in: the rest of one that is a back
/// of the text so far, a digit and a quote.
fn word_ends(text: &[u8]) -> Vec<&'static [u8]> {
    let mut ends: Vec<&[u8]> = vec![b"", b"0", b"\""];
    for word in WORDS.map(str::as_bytes) {
        let cuts = (0..word.len()).filter(|&cut| text.ends_with(&word[..cut]));
        ends.extend(cuts.map(|cut| &word[cut..]));
    }
    ends
}

/// What closes the brackets that are open, the innermost first: for MOD with a
/// second relation if its comma is missing.
fn closers(text: &[u8]) -> String {
    let mut open: Vec<&str> = Vec::new();
    let mut quoted = false;
    for (at, &byte) in text.iter().enumerate() {
        quoted ^= byte == b'"';
        match byte {
            _ if quoted => {}
            b'(' if text[..at].trim_ascii_end().ends_with(b"MOD") => open.push(" ,1 )"),
            b'(' => open.push(" )"),
            b',' if !open.is_empty() => *open.last_mut().expect("one") = " )",
            b')' => drop(open.pop()),
            _ => {}
        }
    }
    open.reverse();
    open.concat()
}

/// What a statement may need behind a relation or at its front, whatever it is.
#[rustfmt::skip]
const ENDS: [&str; 10] = [
    "", " =1", " =\"\"", " \"\"", " A=1", " A", " END", " TO 1", " =1 TO 1", " A=1 TO 1",
];

/// A line with a reading that begins with this text: the text with what may
/// finish its word, a missing operand, brackets and a statement. The model's
/// reader says whether it is one, so what is found is beyond doubt.
fn witness(text: &[u8]) -> Option<Vec<u8>> {
    for word_end in word_ends(text) {
        let whole = [text, word_end].concat();
        let closers = closers(&whole);
        for operand in ["", " 1", " (1,1)"] {
            for end in ENDS {
                let rest = [operand, &closers, end].concat();
                let line = [&whole, rest.as_bytes()].concat();
                if has_reading(&line) {
                    return Some(line);
                }
            }
        }
    }
    None
}

/// Holds a line's column to the lines that its front parts can become.
fn hold(line: &[u8]) {
    let (column, shown) = (longest_front(line), line.escape_ascii());
    for length in 0..=line.len() {
        let front = is_front(&line[..length]);
        assert_eq!(front, length <= column, "{length} of {shown}");
    }
    let found = witness(&line[..column]);
    assert!(found.is_some(), "{shown} has column {column}");
    if let Some(more) = line.get(..=column) {
        let found = witness(more).map(|line| line.escape_ascii().to_string());
        assert_eq!(found, None, "{shown} has column {column}");
    }
}

#[test]
fn the_columns_of_damaged_lines() {
    table().iter().for_each(|damaged| hold(&damaged.line));
}

#[test]
fn the_columns_of_random_lines() {
    let mut random = Random::new(1976);
    let (mut none, mut whole) = (0, 0);
    while none < 2_000 {
        let size = *random.pick(&[Size::Small, Size::Full]);
        let line = kept(&mut random, size);
        match has_reading(&line) {
            // Then every front part is a front.
            true => assert_eq!(longest_front(&line), line.len(), "{}", line.escape_ascii()),
            false => {
                none += 1;
                whole += usize::from(longest_front(&line) == line.len());
                hold(&line);
            }
        }
    }
    assert!(whole > 100, "{whole} are fronts themselves");
}

/// From a front on, one byte more: each of all text bytes.
#[test]
fn every_byte_behind_a_front() {
    let mut random = Random::new(2);
    let mut text = Vec::new();
    for _ in 0..120 {
        let longer = (32..=126).filter(|&byte| is_text_byte(byte));
        let longer = longer.map(|byte| [&text[..], &[byte]].concat());
        let fronts: Vec<Vec<u8>> = longer
            .filter(|longer| {
                let found = witness(longer).is_some();
                assert_eq!(is_front(longer), found, "{}", longer.escape_ascii());
                found
            })
            .collect();
        // A remark or an open string says no more of the grammar.
        let free = fronts.len() > 90 || text.len() > 30;
        text = match free || random.percent(3) {
            true => Vec::new(),
            false => random.pick(&fronts).clone(),
        };
    }
}

/// Words and marks to write lines with, without knowing what a line is.
const MARKS: [&str; 17] = [
    " ", "A", "1", "#", "\"", "(", ")", ",", "=", "<", ">", "+", "*", "@", "$", ":", ";",
];

/// Visits a text with all that can be put behind it from so many pieces.
fn extended(text: &mut Vec<u8>, pieces: usize, visit: &mut impl FnMut(&[u8])) {
    visit(text);
    if pieces > 0 {
        for piece in WORDS.iter().chain(&MARKS) {
            let length = text.len();
            text.extend(piece.bytes());
            extended(text, pieces - 1, visit);
            text.truncate(length);
        }
    }
}

#[test]
fn every_front_of_every_line_of_four_pieces() {
    let mut lines = 0;
    extended(&mut Vec::new(), 4, &mut |line| {
        if has_reading(line) {
            lines += 1;
            for length in 0..=line.len() {
                let front = &line[..length];
                assert!(is_front(front), "{} of {}", length, line.escape_ascii());
            }
        }
    });
    assert!(lines > 100_000, "{lines} lines");
}

#[test]
fn no_three_pieces_mend_a_line_behind_its_column() {
    let mut seen = HashSet::new();
    for damaged in table().iter().step_by(40) {
        let column = longest_front(&damaged.line);
        let Some(wrong) = damaged.line.get(..=column) else {
            continue;
        };
        if seen.insert(wrong.to_vec()) {
            extended(&mut wrong.to_vec(), 3, &mut |line| {
                assert!(!has_reading(line), "{}", line.escape_ascii());
            });
        }
    }
    assert!(seen.len() > 80, "{} texts", seen.len());
}

// The table of damaged lines.

#[test]
fn the_table_has_every_statement_and_every_damage() {
    let table = table();
    let distinct: HashSet<&Vec<u8>> = table.iter().map(|damaged| &damaged.line).collect();
    assert_eq!(distinct.len(), table.len());
    assert!(table.len() >= 3_000);
    for (good, examples) in STATEMENTS.iter().chain(&LINES) {
        let lines = table.iter().filter(|damaged| damaged.good == *good);
        assert!(lines.count() >= 150, "{good}");
        for example in *examples {
            assert!(has_reading(example.as_bytes()), "{example}");
        }
    }
    for (way, _) in WAYS {
        let lines = table.iter().filter(|damaged| damaged.way == way);
        assert!(lines.count() >= 60, "{way}");
    }
}

#[test]
fn the_lines_of_the_table_are_refused_as_they_are_typed() {
    let mut columns = HashSet::new();
    for damaged in table() {
        let answer = typed(&damaged.line).run();
        assert_eq!(answer.stop, Stop::NoReading);
        assert_eq!(answer.column as usize, longest_front(&damaged.line));
        columns.insert(answer.column);
    }
    assert!(columns.len() >= 40, "{} columns", columns.len());
}
