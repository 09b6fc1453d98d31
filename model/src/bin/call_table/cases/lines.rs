//! What a typed line does: its own refusals, edits, commands, and statements that are run at once.

use model::rules::{full_page, RULES};
use model::Place;

use super::{crowd, line, typed, wrong, TWO};
use crate::gate::Gate;
use crate::written::{fresh, on, Written};

pub fn cases() -> Vec<Written> {
    let chapters = [
        no_cr,
        no_reading,
        not_immediate,
        page_full,
        edits,
        commands,
        statements,
        starts,
    ];
    chapters.iter().flat_map(|chapter| chapter()).collect()
}

// A typed line's own refusals. 7 changes nothing; 5, 3 and 2 take the line and end the pause.

fn no_cr() -> Vec<Written> {
    let at_end = |gate: &mut Gate| gate.input_position = gate.input.len() as u32;
    vec![
        on("no byte is left", &TWO).types(7).goes_on(0),
        on("a line without its CR", &TWO).input("NEW").types(7),
        on("an over-long line without its CR", &TWO)
            .input("X".repeat(80))
            .types(7),
        on("a CR before the position alone", &TWO)
            .lines(&["NEW"])
            .with(at_end)
            .types(7),
        on("dropped bytes without a CR", &TWO)
            .input("\0\n\x15_")
            .types(7),
    ]
}

/// "|" is no part of the line: it shows where its column is.
#[rustfmt::skip]
const NO_READING: [&str; 153] = [
    "N|ONSENSE", "A=1|:B=2", "PRINT|", "PRINT -3276|8", "PRINT 1<2|<3", "A=3276|8", "PRINT \"A|", "|a=1", "IF 1 THEN R|UN", "NEW |1",
    "LIST 3276|8", "10 NE|W", "10 |20 END", "3276|8 END", "3276|8",
    "A|ANDB", "A=A|ANDB", "A=B|ORC", "PRINTA|B", "IFA|DO", "IFA>B|GOTOX", "30IFA|END", "FOR I=1TO|P", "30 FORI=1TO|P", "GO TO|P", "PRIN|",
    "PRINT#5A|NDB", "NEW|A=1", "NEW|S", "RUN|X", "CLEAR|A", "LIST|A", "30L|IST10",
    // The desk's rows.
    "A=(1|", "PRINTX  |Y", "9999|9", "10 R|UN", "GOSU|", "10 PRIN|X", "PRINT 3276|8", "A=#|", "PRINT \"AB|", "A=A|N", "FOR I=1 TO|PX",
    // Numbers and commands.
    "03276|8 END", "32767|0", "1 |0", "10 |:END", "10 END:|", "10 END:|:END", "10|#1", "RU|", "LIS|P", "LIST |#5", "LIST 1 |2", "CL|AER", "RUN |10",
    // Words.
    "G|", "GO|", "GO T|", "GO S|TEP", "GO |1", "GOT|", "GOT|X", "PR|", "PRIN|PUT", "PRINTTO|", "PRINTTO|X", "PRINT TO| 1", "PRINTE|ND",
    "ST|EP 5", "T|OP=1", "N|OT 1", "IN|TO", "RE|N", "NEX|X", "UNTI|",
    // Assignments.
    "A|", "A |B", "A=|", "A=|=1", "A=B=C|=D", "LET|", "LET L|ET A=1", "LET ST|=1", "STAT|", "STAT|US=1", "@|", "@|-1=2", "@(1=2|", "@A|+1=2",
    "$|", "$0|", "$0=|1", "$0=\"A|", "$0=\"A\"|,", "$0=$|", "$0=$1|+1", "A=|$1",
    // Relations.
    "A=1< |=2", "A=1=|<2", "A=1<>|=2", "A=2-|-3", "A=2*|-3", "A=NOT |-1", "A=(|)", "A=1|)", "A=(1=2|=3)", "A=1 AN|T", "A=1 O|F", "A=MOD|", "A=MOD(1|)",
    "A=MOD(1,2|,3)", "A=MOD((1|,2),3)", "A=NO| 1", "A=TOPA|", "A=TOP|B", "A=#| 5", "A=#12345|G", "IF #5AN|D 1 END",
    // Statements.
    "PRINT |,", "PRINT 1,|", "PRINT 1,|;", "PRINT 1;|2", "PRINT $1|+1", "PRINT \"A\"|\"B\"", "PRINT 1 A|", "PR |;", "GOTO|", "GOTO 1|,2", "GOSUB (1|",
    "RETURN |1", "IF|", "IF A T|", "IF A THE|X", "IF A THEN T|HEN END", "IF A E|LSE", "IF A=B|=C", "DO|A", "UNTIL |:", "FOR I|", "FOR I|J=1 TO 2",
    "FOR I=1 T|HEN", "FOR I=1 TO TO|", "FOR I=1 TO 2 ST|OP", "FOR I=1 TO 2 |TO 3", "NEXT |1", "NEXT I|,J", "INPUT A,|", "INPUT A |B", "INPUT $A|,B",
    "INPU|X", "END|S",
];

fn no_reading() -> Vec<Written> {
    let lines = NO_READING.map(|row| {
        let column = row.find('|').expect("a mark");
        let text = row.replacen('|', "", 1);
        wrong(column as u32, &format!("typed {text}"), &TWO, &text)
    });
    let kept = format!("30 REM {}", "X".repeat(65));
    let bytes = |column, name, input: &[u8]| on(name, &TWO).input(input).refused_at(column);
    let more = [
        wrong(72, "73 bytes", &TWO, &format!("{kept}X")),
        wrong(72, "73 bytes, one erased again", &TWO, &format!("{kept}X_")),
        wrong(
            72,
            "73 bytes, all erased again",
            &TWO,
            &format!("{kept}X{}", "_".repeat(73)),
        ),
        wrong(72, "73 spaces", &TWO, &" ".repeat(73)),
        wrong(
            72,
            "72 bytes that could go on",
            &TWO,
            &format!("A={}", "(".repeat(70)),
        ),
        wrong(
            1,
            "72 bytes, wrong from the second on",
            &TWO,
            &"X".repeat(72),
        ),
        wrong(
            5,
            "73 bytes, and 21 before a wrong line",
            &TWO,
            &format!("{kept}X\x15PRINT"),
        ),
        wrong(6, "slips in a wrong line", &TWO, "\0PRX_I\nNT ,"),
        bytes(2, "byte 9 in a typed line", b"A=\x091\r"),
        bytes(4, "byte 128 in a typed remark", b"REM \x80\r"),
        bytes(7, "byte 255 in a line to store", b"30 REM \xff\r"),
        bytes(8, "byte 200 in a string", b"PRINT \"A\xc8\"\r"),
        bytes(1, "byte 1 in a blank line", b" \x01\r"),
        bytes(2, "byte 9 behind a number alone", b"10\t\r"),
        bytes(0, "byte 127 alone", b"\x7f\r"),
    ];
    lines.into_iter().chain(more).collect()
}

#[rustfmt::skip]
const NOT_IMMEDIATE: [&str; 15] = [
    "DO", "UNTIL 1", "FOR I=1 TO 2", "NEXT I", "INPUT A", "INPUT $0",
    "IF 0 DO", "IF 1 THEN UNTIL 1", "IF 0 THEN IF 0 FOR I=1/0 TO 2 STEP 3", "IF 1 NEXT I", "IF 0 INPUT A,B",
    "FOR I=1TOB", "FORI=1TO9", "IFA DO", "IF0THENINPUTA,B",
];

/// The reply behind the line is not taken.
fn not_immediate() -> Vec<Written> {
    let lines = NOT_IMMEDIATE.map(|text| line(3, &TWO, text).lines(&["1"]));
    let last = line(3, &TWO, "INPUT $9").named(", with no room and no budget");
    let last = last.room(0).budget(0);
    lines.into_iter().chain([last]).collect()
}

/// The program has 10 bytes with its end mark, the new record 8.
fn page_full() -> Vec<Written> {
    let one = ["10 A=1"];
    let edit = |stop, name, text, length| typed(stop, name, &one, text).page(length);
    vec![
        edit(2, "no room behind the last line", "20 B=2", 17),
        edit(0, "just room behind the last line", "20 B=2", 18),
        edit(2, "no room before the first line", "5 B=2", 17),
        edit(0, "just room before the first line", "5 B=2", 18),
        edit(2, "no room for a longer text", "10 A=11", 10),
        edit(0, "just room for a longer text", "10 A=11", 11),
        edit(0, "on a full page, a text as long", "10 B=2", 10),
        edit(0, "on a full page, a shorter text", "10A=1", 10),
        edit(0, "on a full page, a line is deleted", "10", 10),
        edit(0, "on a full page, an absent line is deleted", "11", 10),
        typed(2, "an empty page of 8 bytes", &[], "1END").page(8),
        typed(0, "an empty page of 9 bytes", &[], "1END").page(9),
        typed(2, "the shortest page", &[], "0END").page(2),
        typed(2, "no room between two lines", &TWO, "15 END").page(27),
    ]
}

// What a typed line does to the page: the stacks are cleared, but for a line that was not there.

/// Four lines; the second has two members.
const FOUR: [&str; 4] = ["10 A=1", "20 GOSUB 40:B=2", "30 PRINT A", "40 RETURN"];

#[rustfmt::skip]
const EDITS: [(&str, &str); 24] = [
    ("delete the first line", "10"),
    ("delete a line in the middle", "20"),
    ("delete the last line", "40"),
    ("delete by a number with zeros and spaces", "  0030  "),
    ("delete an absent line before the first", "5"),
    ("delete an absent line between two", "25"),
    ("delete an absent line behind the last", "32767"),
    ("insert before the first line", "5 END"),
    ("insert between two lines", "25PRINT\"X\";:END"),
    ("insert behind the last line", "32767 END"),
    ("insert line 0", "0 REM FIRST"),
    ("replace by a shorter text", "20 END"),
    ("replace by a longer text", "10 PRINT \"A LONGER ONE\",A+1;"),
    ("replace by a text as long", "10 B=2"),
    ("replace a line by itself", "20 GOSUB 40:B=2"),
    ("replace the last line", "40 RETURN:END"),
    ("a text keeps its spaces", "  15   A = 1  "),
    ("insert words written together", "25FORI=1TOB:IFNOTI GOTOX"),
    ("insert a remark without a space", "25REMARK:A=1"),
    ("replace by words written together", "30PRINTA"),
    ("no byte is typed", ""),
    ("spaces are typed", "   "),
    ("all that is typed is taken back", "\0\nAB__\nNEW\x15_\0"),
    ("what is typed is put right", "5 EMD__\0ND\n"),
];

fn edits() -> Vec<Written> {
    let edits = EDITS.map(|(name, text)| typed(0, name, &FOUR, text));
    let kept = format!("50 REM {}", "X".repeat(65));
    let filled =
        |name, text| typed(0, name, &[], text).with(|gate| gate.page = full_page(&RULES[..2]));
    let more = [
        typed(0, "72 bytes", &FOUR, &kept),
        typed(
            0,
            "73 bytes, and 21 behind them",
            &FOUR,
            &format!("{kept}X\x155 END"),
        ),
        typed(0, "the first line of an empty page", &[], "10 END"),
        typed(0, "delete in an empty page", &[], "10"),
        typed(0, "delete the only line", &["10 END"], "10"),
        filled("delete the first line of 4,096 bytes", "0"),
        filled("shorten a line in 4,096 bytes", "510 END"),
    ];
    edits.into_iter().chain(more).collect()
}

// Commands.

fn commands() -> Vec<Written> {
    let done = |name, text| typed(0, name, &FOUR, text);
    let squares = ["10 A=A+1:B=A*A", "20 IF A<3 GOTO 10"];
    vec![
        done("NEW writes two bytes and clears the stacks", "NEW"),
        typed(0, "NEW on an empty page", &[], " NEW "),
        done("CLEAR zeroes the variables and clears the stacks", "CLEAR"),
        done("LIST of all lines", "LIST"),
        done("LIST from a line on", "LIST 30"),
        done("LIST from between two lines", "LIST21"),
        done("LIST from behind the last line", "LIST 41"),
        typed(0, "LIST of an empty page", &[], "LIST"),
        done("LIST with just room", "LIST 30").room(23),
        typed(17, "LIST without room for its last line", &FOUR, "LIST 30").room(22),
        typed(17, "LIST without room for a line", &FOUR, "LIST").room(7),
        typed(17, "LIST without room for LF", &FOUR, "LIST 40").room(10),
        typed(17, "LIST without any room", &FOUR, "LIST 0").room(0),
        typed(0, "RUN of a program", &squares, "RUN"),
        typed(0, "RUN of no program at no budget", &[], "RUN").budget(0),
        typed(9, "RUN clears the stacks", &FOUR, "RUN"),
    ]
}

// One statement, run at once: its stop has no line, and it is no step.

/// A is 3, B is 10, C is 17, I is 59 and P is 108; no line has the number of X.
/// On the stack of GOSUBs are the place that ends the program and the immediate
/// mark.
const SHORT: [&str; 3] = ["10 A=A+1:B=2", "20 RETURN", "30 END"];

#[rustfmt::skip]
const STATEMENTS: [(u8, &str); 49] = [
    (0, "LET A=B+C*2"), (0, "A=B=C"), (0, "STAT=255"), (0, "PRINT STAT,TOP;"), (0, "@31=#1FF"), (0, "LET $6=\"BARN\""),
    (0, "$1=$0"), (0, "$27=$0"), (0, "PRINT A,$0,\"X\""), (0, "REM ANY:THING"), (0, "IF 0 A=1/0"), (0, "IF A THEN IF B C=-1"),
    (0, "RETURN"), (0, "GOSUB 20"),
    (8, "GOTO 11"), (8, "GO TO -10"), (8, "GOSUB 11"),
    (13, "A=1/0"), (13, "PRINT \"X\",MOD(A,0)"), (13, "@99=1/0"), (13, "IF 1/0 END"),
    (16, "A=@32"), (16, "PRINT @(-1)"), (16, "A=@32/0"), (16, "@32=1"), (16, "PRINT \"X\",$5"),
    (16, "$29=\"ABC\""), (16, "$10=$5"), (16, "$28=$0"),
    (20, "END"), (20, "IF 1 END"), (20, "GOTO 30"), (20, "GOSUB 30"),
    (0, "PRINTA"), (0, "PRI"), (0, "REMARK"), (0, "IFA>B GOTOX"), (8, "IFA<B GOTOX"), (8, "GOTOP"), (8, "GOTO P"), (8, "GOSUBTOP"),
    (0, "PRINT#1FORB;"), (0, "PRINT#1ORB,A ANDB;"), (0, "PRINTTOPORSTATANDNOTB"), (0, "LETSTAT=NOTNOTA"), (0, "LETC=MOD(B,A)ORB"),
    (13, "PRINTNOTA/0"), (16, "A=NOT@32"), (20, "IFNOTA=-4THENIFB>A END"),
];

fn statements() -> Vec<Written> {
    let lines = STATEMENTS.map(|(stop, text)| line(stop, &SHORT, text));
    let in_room = |stop, room, text: &str| {
        let case = line(stop, &SHORT, text).named(&format!(", room {room}"));
        case.room(room)
    };
    let more = [
        line(0, &SHORT, "PRINT STAT")
            .sense(0b0101_0111)
            .named(", sense 87"),
        line(0, &SHORT, "PRINT A;")
            .budget(0)
            .named(", at no budget"),
        in_room(17, 1, "PRINT \"AB\""),
        in_room(17, 2, "PRINT A"),
        in_room(17, 3, "PRINT $0"),
        in_room(17, 4, "PRINT A"),
        in_room(0, 5, "PRINT A"),
        in_room(0, 0, "PRINT \"\";"),
        in_room(16, 0, "PRINT $5"),
        in_room(17, 0, "PRINT \"X\",$5"),
        in_room(17, 7, "PRINT A,$0,\"X\""),
        fresh("RETURN with nothing saved", &SHORT)
            .lines(&["RETURN"])
            .types(9),
        line(10, &SHORT, "GOSUB 20")
            .named(", the ninth")
            .with(crowd),
        line(8, &SHORT, "GOSUB 21")
            .named(", the ninth: 8 before 10")
            .with(crowd),
        line(0, &SHORT, "RETURN")
            .named(" past the last line")
            .with(|gate| gate.record.gosubs.depth = 1),
    ];
    lines.into_iter().chain(more).collect()
}

// A typed line that starts the program: a stop of the program has its line and is a step.

fn starts() -> Vec<Written> {
    let no_budget = |stop, text| line(stop, &SHORT, text).budget(0).named(", at no budget");
    let fails = ["10 A=4:GOSUB 30", "20 END", "30 DO:FOR I=1 TO 2:B=A/(I-1)"];
    let asks = ["20 END", "30 INPUT A:INPUT $9:PRINT A,$9;"];
    vec![
        no_budget(14, "RUN"),
        no_budget(14, "GOTO 10"),
        no_budget(14, "GOTO 20"),
        no_budget(14, "GOSUB 20"),
        no_budget(14, "IF 1 THEN GO TO 30"),
        no_budget(14, "RETURN").with(|gate| gate.record.gosubs = gate.record.dos),
        no_budget(0, "RETURN")
            .named(", past the last line")
            .with(|gate| gate.record.gosubs.depth = 1),
        line(14, &SHORT, "RUN").budget(1).named(", budget 1"),
        line(9, &SHORT, "RUN").budget(3).named(", budget 3"),
        line(20, &SHORT, "RETURN")
            .named(" to the second line's place")
            .with(|gate| gate.record.gosubs.places[1] = Place(24)),
        typed(13, "RUN to a quotient by 0", &fails, "RUN"),
        typed(13, "GOSUB to a quotient by 0", &fails, "GOSUB 30"),
        on("GOTO an INPUT that takes the lines behind", &asks)
            .lines(&["GOTO 30", "A*2", "OATS", "NEW"])
            .types(0)
            .types(0),
    ]
}
