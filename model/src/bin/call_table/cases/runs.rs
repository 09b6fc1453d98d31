//! Runs. What a run can stop with is shown by both calls; what it does, and which of two stops comes first, by one.

use super::{both, continued, crowd, pause_after, Run, FIVE};
use crate::written::{on, Written};

pub fn cases() -> Vec<Written> {
    let chapters = [done, stopped, first, pauses];
    chapters.iter().flat_map(|chapter| chapter()).collect()
}

#[rustfmt::skip]
const DONE: [Run; 15] = [
    (0, "values", &["10 A=7/2:B=-7/2:C=MOD(-7,2):D=300*300:E=32767+1", "20 F=#8000/#FFFF:G=NOT 5:H=6 AND 3 OR 8:I=#12345", "30 J=1<2:K=B>=A:L=A<>3"], ""),
    (0, "bytes of the memory", &["10 @31=#105:A=@31:B=@@31"], ""),
    (0, "strings copied over themselves", &["10 $8=\"ABC\":$9=$8:$7=$9:PRINT $7,$0"], ""),
    (0, "STAT and TOP", &["10 STAT=14:A=STAT:B=TOP:STAT=STAT OR 1"], ""),
    (0, "FOR up, down and once", &["10 FOR I=1 TO 3:A=A+I:NEXT I", "20 FOR J=3 TO 1 STEP -2:B=B+J:NEXT J", "30 FOR K=5 TO 1:C=C+1:NEXT K"], ""),
    (0, "GOSUB comes back behind its colon", &["10 GOSUB 30:A=1:GOTO 40", "30 B=2:RETURN:B=3", "40 PRINT A,B;"], ""),
    (0, "all IFs are one step", &["10 IF 1 IF 2 THEN IF -1 A=7:B=8"], ""),
    (0, "a false IF goes to the next record", &["10 IF 0 A=1:B=2", "20 C=3"], ""),
    (0, "a false IF within another, in the last line", &["10 IF 1 IF 0 A=1:B=2"], ""),
    (0, "colons in a string and in a remark", &["10 PRINT \":\";:REM :END", "20 A=1"], ""),
    (0, "INPUT of values, one after another", &["10 INPUT A,B,C"], "7,A+1,B*2,IGNORED%\"\r"),
    (0, "words written together in a run", &["10FORI=1TO3STEP2:A=A+I:NEXTI", "20IFNOTA=0GOTOX", "30GOSUB60:IFA=4THENIFB<A PRINTA,TOP;", "40P=70:GOTOP", "50A=0", "60DO:B=B+1:UNTILB>STATAND3:RETURN", "70REMARK:A=0"], ""),
    (0, "INPUT of values written together", &["10INPUTA,B,C"], "NOT0,1ORA,STATORTOPANDB,AANDB\r"),
    (0, "INPUT of a string written together", &["10INPUT$3:PRINT$3;"], "AANDB\r"),
    (0, "INPUT of a string, any kept bytes", &["10 INPUT $3:PRINT $0;"], "NO\x15HAX_Y\x01\t\rNEW\r"),
];

fn done() -> Vec<Written> {
    let text = "T".repeat(72);
    let replies = [
        continued((0, "a reply of 72 bytes", &["10 INPUT $7"], "")).input(format!("{text}\r")),
        continued((0, "a reply of 73 bytes, and 21", &["10 INPUT A"], ""))
            .input(format!("{text}T\x158\r")),
    ];
    let replies = replies.map(|case| case.with(|gate| gate.memory.resize(80, 7)));
    DONE.into_iter().map(continued).chain(replies).collect()
}

#[rustfmt::skip]
const STOPPED: [Run; 36] = [
    (6, "a reply without a reading", &["10 INPUT A"], "X=\r"),
    (6, "one relation for two", &["10 INPUT A,B"], "5\r"),
    (6, "more behind the last relation", &["10 INPUT A"], "1/0 2\r"),
    (6, "a reply above 32,767", &["10 A=7:INPUT A"], "32768\r"),
    (6, "byte 9 in a reply", &["10 INPUT A"], "1\t\r"),
    (6, "a reply with a letter before a keyword", &["10INPUTA,B"], "1,AANDB\r"),
    (6, "a reply with a part of a keyword", &["10 INPUT A"], "NO\r"),
    (6, "a reply with a hex constant that takes a letter", &["10 INPUT A"], "#5ANDA\r"),
    (6, "a reply with TOP and a letter", &["10 INPUT A"], "TOPA\r"),
    (6, "an over-long reply", &["10 A=7:INPUT A"], LONG_REPLY),
    (6, "an over-long reply for a string", &["10 INPUT $0"], LONG_REPLY),
    (7, "INPUT without a CR", &["10 A=5:INPUT A"], "12"),
    (7, "the second INPUT without a CR", &["10 INPUT A:INPUT $0"], "1\r2"),
    (8, "GOTO a line that is not there", &["10 A=1", "20 GOTO 15"], ""),
    (8, "GOSUB a line that is not there", &["10 A=1:GOSUB 20"], ""),
    (9, "RETURN with nothing saved", &["10 A=1:IF A RETURN"], ""),
    (10, "the ninth GOSUB", &["10 A=A+1:GOSUB 10"], ""),
    (10, "the ninth DO", &["10 A=A+1:DO:GOTO 10"], ""),
    (10, "the fifth FOR", &["10 FOR I=I+1 TO 9:GOTO 10"], ""),
    (11, "NEXT without a FOR", &["10 A=1:NEXT A"], ""),
    (12, "NEXT of an outer variable", &["10 FOR I=1 TO 2:FOR J=3 TO 4", "20 NEXT I"], ""),
    (13, "a quotient by 0", &["10 A=5", "20 B=A/(A-5)"], ""),
    (13, "MOD by 0 behind a printed item", &["10 PRINT \"X\",MOD(4,0)"], ""),
    (13, "a limit by 0 gives the variable nothing", &["10 I=9:FOR I=1 TO 1/0"], ""),
    (13, "a reply by 0, and what was given stays", &["10 INPUT A,B,C"], "4,A/0,9\r"),
    (15, "UNTIL without a DO", &["10 A=1:UNTIL 1"], ""),
    (16, "a byte past the memory is read", &["10 A=1:A=@32"], ""),
    (16, "a byte past the memory is stored", &["10 @32=1"], ""),
    (16, "a string without a CR is printed", &["10 PRINT \"X\",$5"], ""),
    (16, "a string without a CR is copied", &["10 $20=$5"], ""),
    (16, "a string is stored past the memory", &["10 $29=\"ABC\""], ""),
    (16, "a string is copied past the memory", &["10 $28=$0"], ""),
    (16, "a reply is stored past the memory", &["10 INPUT $30"], "AB\r"),
    (16, "a reply's byte is past the memory", &["10 INPUT A,B"], "1,@32\r"),
    (20, "END", &["10 A=1:END:A=2"], ""),
    (20, "END behind an IF keeps the stacks", &["10 GOSUB 20", "20 DO:FOR I=1 TO 2:IF I END"], ""),
];

/// 73 bytes.
const LONG_REPLY: &str =
    "1111111111222222222233333333334444444444555555555566666666667777777777888\r";

/// With so much room in the output.
#[rustfmt::skip]
const IN_ROOM: [(usize, Run); 9] = [
    (1, (17, "no room for a string", &["10 A=1:PRINT \"AB\""], "")),
    (2, (17, "no room for a number", &["10 PRINT 7"], "")),
    (3, (17, "no room for a string of the memory", &["10 PRINT $0"], "")),
    (4, (17, "no room for CR LF", &["10 PRINT 7"], "")),
    (5, (0, "just room for CR LF", &["10 PRINT 7"], "")),
    (6, (17, "no room for a number's last space", &["10 PRINT -30005;"], "")),
    (7, (0, "just room for a number", &["10 PRINT -30005;"], "")),
    (7, (17, "no room for the third item", &["10 PRINT 7,$0,\"X\""], "")),
    (0, (17, "no room for the question mark", &["10 INPUT A"], "1\r")),
];

/// With stacks that are full.
#[rustfmt::skip]
const CROWDED: [Run; 5] = [
    (0, "RETURN to the immediate mark", &["10 A=1:RETURN:A=2"], ""),
    (10, "the ninth GOSUB, of a record", &["10 A=1:GOSUB 10"], ""),
    (10, "the ninth DO, of a record", &["10 A=1:DO"], ""),
    (10, "the fifth FOR, of a record", &["10 A=1:FOR A=2 TO 3"], ""),
    (12, "NEXT of a variable other than the record's", &["10 A=1:NEXT A"], ""),
];

fn stopped() -> Vec<Written> {
    let stopped = STOPPED.into_iter().flat_map(both);
    let in_room = IN_ROOM
        .into_iter()
        .flat_map(|(room, run)| both(run).map(|case| case.room(room)));
    let crowded = CROWDED
        .into_iter()
        .flat_map(|run| both(run).map(|case| case.with(crowd)));
    stopped.chain(in_room).chain(crowded).collect()
}

/// Values before all else, and of them the first refusal; "@" and strings look at addresses last; PRINT goes item by
/// item; INPUT looks for its address's value, 17, 7, 6, values and 16.
#[rustfmt::skip]
const FIRST: [(usize, Run); 13] = [
    (9, (13, "UNTIL: 13 before 15", &["10 UNTIL 1/0"], "")),
    (9, (13, "a byte's store: 13 before 16", &["10 @32=1/0"], "")),
    (9, (16, "a left operand's 16 before 13", &["10 A=@32/0"], "")),
    (9, (13, "a left operand's 13 before 16", &["10 A=1/0+@32"], "")),
    (9, (13, "a string's store: 13 before 16", &["10 $99=$(1/0)"], "")),
    (0, (16, "PRINT: an item's 16 before its 17", &["10 PRINT $5"], "")),
    (0, (17, "PRINT: an item's 17 before the next one's 16", &["10 PRINT \"X\",$5"], "")),
    (0, (13, "INPUT: the address's 13 before 17", &["10 INPUT $(1/0)"], "1\r")),
    (0, (17, "INPUT: 17 before 7", &["10 INPUT A"], "1")),
    (9, (7, "INPUT: 7 before 6", &["10 INPUT A"], "X=")),
    (9, (6, "INPUT: 6 before 13", &["10 INPUT A,B"], "1/0,\r")),
    (9, (6, "INPUT: 6 before 16", &["10 INPUT $99"], LONG_REPLY)),
    (0, (16, "INPUT: the address's 16 before 17", &["10 INPUT $@99"], "1\r")),
];

/// With stacks that are full.
#[rustfmt::skip]
const FIRST_CROWDED: [Run; 3] = [
    (8, "GOSUB: 8 before 10", &["10 A=1:GOSUB 11"], ""),
    (13, "GOSUB: 13 before 10", &["10 A=1:GOSUB A/0"], ""),
    (13, "FOR: 13 before 10", &["10 A=1:FOR A=2 TO 3 STEP A/0"], ""),
];

fn first() -> Vec<Written> {
    let crowded = FIRST_CROWDED
        .into_iter()
        .map(|run| continued(run).with(crowd));
    let first = FIRST
        .into_iter()
        .map(|(room, run)| continued(run).room(room));
    first.chain(crowded).collect()
}

const STEPS: &[&str] = &["10 A=A+1:B=B+1", "20 IF B<9 GOTO 10", "30 END"];
const CALLS: &[&str] = &["10 GOSUB 30:A=1", "20 END", "30 B=1:RETURN"];

/// By both calls, with this budget.
#[rustfmt::skip]
const PAUSED: [(u32, Run); 6] = [
    (0, (14, "at no budget", STEPS, "")),
    (1, (14, "after a colon", STEPS, "")),
    (2, (14, "after a CR", STEPS, "")),
    (3, (14, "at the start again", STEPS, "")),
    (1, (14, "before the last statement", &["10 A=1:B=2"], "")),
    (2, (0, "past the last statement", &["10 A=1:B=2"], "")),
];

/// By a continued run alone.
#[rustfmt::skip]
const PAUSED_AGAIN: [(u32, Run); 8] = [
    (1, (14, "before a subroutine", CALLS, "")),
    (3, (14, "behind a subroutine's call", CALLS, "")),
    (1, (14, "behind a false IF's record", &["10 IF 0 A=1:B=1", "20 END"], "")),
    (3, (14, "in a FOR that goes on", &["10 FOR I=1 TO 5:A=A+I:NEXT I"], "")),
    // The variable passes 32,767, and is below the limit again.
    (9, (14, "in a FOR that wraps", &["10 FOR I=32766 TO 32767:NEXT I"], "")),
    (2, (14, "in a DO that goes on", &["10 DO", "20 UNTIL 0"], "")),
    (2, (20, "END with the last step", &["10 A=1:END"], "")),
    (1, (13, "a refusal with the last step", &["10 A=1/0:END"], "")),
];

fn pauses() -> Vec<Written> {
    let paused = PAUSED
        .into_iter()
        .flat_map(|(budget, run)| both(run).map(|case| case.budget(budget)));
    let paused_again = PAUSED_AGAIN
        .into_iter()
        .map(|(budget, run)| continued(run).budget(budget));
    let more = [
        on("nothing paused", &FIVE)
            .with(|gate| gate.record.paused = None)
            .goes_on(0),
        on("nothing paused, at no budget", &FIVE)
            .with(|gate| gate.record.paused = None)
            .goes_on(0)
            .budget(0),
        on("paused at the start of no program", &[]).goes_on(0),
        on("paused past the last line, at no budget", &FIVE)
            .with(pause_after(45))
            .goes_on(0)
            .budget(0),
        // The pause stays where it was.
        on("paused at a colon, at no budget", &FIVE)
            .with(pause_after(30))
            .goes_on(14)
            .budget(0),
        on("paused at a CR, at no budget", &FIVE)
            .with(pause_after(34))
            .goes_on(14)
            .budget(0),
        on("paused before END", &FIVE)
            .with(pause_after(30))
            .goes_on(20),
        // The lived-in record has the immediate mark on top.
        on("paused before a RETURN to the immediate mark", &FIVE)
            .with(pause_after(34))
            .goes_on(0),
    ];
    paused.chain(paused_again).chain(more).collect()
}
