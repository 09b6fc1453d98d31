//! Calls that follow one another, each on what the one before left.

use crate::written::{fresh, Written};

pub fn cases() -> Vec<Written> {
    let chapters = [pauses, edits, runs];
    chapters.iter().flat_map(|chapter| chapter()).collect()
}

/// Counts to 3, calls a subroutine, asks twice.
const COUNTS: [&str; 3] = ["10 A=A+1:PRINT A;", "20 IF A<3 GOTO 10", "30 END"];
const CALLS: [&str; 3] = [
    "10 GOSUB 30:PRINT \"BACK\";",
    "20 END",
    "30 PRINT \"SUB\";:RETURN",
];
const ASKS: [&str; 2] = ["10 INPUT A:INPUT B", "20 PRINT A*B;"];

/// What ends a pause, and what keeps it.
#[rustfmt::skip]
fn pauses() -> Vec<Written> {
    vec![
        fresh("a blank line ends a pause", &COUNTS)
            .lines(&["RUN", "", "GOTO 20"])
            .types_in(1, 14).types(0).goes_on(0).types(20),
        fresh("5 ends a pause and keeps the stacks", &CALLS)
            .lines(&["RUN", "NONSENSE", "RETURN"])
            .types_in(1, 14).refused_at(1).goes_on(0).types(20),
        fresh("3 ends a pause and keeps the stacks", &CALLS)
            .lines(&["RUN", "INPUT A", "RETURN"])
            .types_in(2, 14).types(3).goes_on(0).types(20),
        fresh("2 ends a pause and keeps the stacks", &CALLS)
            .page(80)
            .lines(&["RUN", "40 REM NO ROOM FOR THIS LINE", "RETURN"])
            .types_in(2, 14).types(2).goes_on(0).types(20),
        fresh("7 keeps a pause", &COUNTS)
            .lines(&["RUN"])
            .input("NEW")
            .types_in(3, 14).types(7).goes_on(20),
        fresh("1 keeps a pause", &COUNTS)
            .lines(&["RUN", "NEW"])
            .types_in(3, 14).types_in(65_536, 1).goes_on_in(65_536, 1).goes_on(20).types(0),
        fresh("an edit ends a pause and clears the stacks", &CALLS)
            .lines(&["RUN", "20 PRINT 7", "RETURN", "GOTO 20"])
            .types_in(1, 14).types(0).goes_on(0).types(9).types(9),
        fresh("an absent line's deletion keeps the stacks", &CALLS)
            .lines(&["RUN", "25", "RETURN"])
            .types_in(1, 14).types(0).goes_on(0).types(20),
        fresh("LIST and a statement end a pause", &CALLS)
            .lines(&["RUN", "LIST 30", "RUN", "A=5"])
            .types_in(1, 14).types(0).goes_on(0).types_in(2, 14).types(0).goes_on(0),
        fresh("CLEAR and NEW end a pause", &CALLS)
            .lines(&["RUN", "CLEAR", "RUN", "NEW", "LIST", "RUN"])
            .types_in(1, 14).types(0).goes_on(0).types_in(2, 14).types(0).goes_on(0).types(0).types(0),
        fresh("RUN in a pause starts anew", &COUNTS)
            .lines(&["RUN", "RUN"])
            .types_in(4, 14).types_in(1, 14).goes_on(20),
        fresh("a typed GOSUB in a pause", &CALLS)
            .lines(&["RUN", "GOSUB 30", "RETURN"])
            .types_in(1, 14).types(0).types(20),
    ]
}

/// Lines typed on one page.
#[rustfmt::skip]
fn edits() -> Vec<Written> {
    vec![
        fresh("the desk's session", &[])
            .lines(&["10 FOR I=3 TO 1 STEP -1", "20 PRINT I;", "30 NEXT I", "RUN", "LIST 25"])
            .types(0).types(0).types(0).types(0).types(0),
        fresh("the desk's page", &[])
            .lines(&["10 END", "5 END", "10 REM X", "5"])
            .types(0).types(0).types(0).types(0),
        fresh("a listing, typed again", &[])
            .lines(&["  5A=1:REM X", "0010 PRINT A ; ", "LIST", "NEW", "5A=1:REM X", "10 PRINT A ; ", "LIST", "RUN"])
            .types(0).types(0).types(0).types(0).types(0).types(0).types(0).types(0),
        fresh("lines written together, stored, refused and run", &[])
            .lines(&["10FORI=1TOP", "10FORI=1TO P", "20PRINTI;:NEXTI", "30A=AANDI", "30A=A ANDI", "P=2", "GOTO10", "LIST30", "NEWA=1", "GOTO10"])
            .refused_at(10).types(0).types(0).refused_at(5).types(0).types(0).types(0).types(0).refused_at(3).types(0),
        fresh("a page filled and emptied", &[])
            .page(20)
            .lines(&["10 A=1", "20 A=2", "30", "15END", "10", "15END", "20", "15 REM 12345", "15"])
            .types(0).types(0).types(0).types(2).types(0).types(0).types(0).types(0).types(0),
    ]
}

/// Runs that are taken up again.
#[rustfmt::skip]
fn runs() -> Vec<Written> {
    vec![
        fresh("a run in parts", &COUNTS)
            .lines(&["RUN"])
            .types_in(2, 14).goes_on_in(1, 14).goes_on_in(0, 14).goes_on_in(3, 14).goes_on(20).goes_on(0),
        fresh("a typed GOSUB, paused at once", &CALLS)
            .lines(&["GOSUB 30", "RETURN"])
            .types_in(0, 14).goes_on_in(1, 14).goes_on_in(1, 0).types(9),
        fresh("replies after a pause", &ASKS)
            .lines(&["RUN", "6", "7"])
            .types_in(1, 14).goes_on_in(1, 14).goes_on(0),
        fresh("a bad reply, and another", &ASKS)
            .lines(&["RUN", "6", "NO", "GOTO 10", "3", "4"])
            .types(6).goes_on(0).types(0),
        fresh("a reply that is not there, and the line again", &ASKS)
            .lines(&["RUN", "6"])
            .types(7).goes_on(0).types(7),
        fresh("a loop left by END, and taken up", &["10 FOR I=1 TO 9:IF I=2 END", "20 NEXT I", "30 PRINT I;"])
            .lines(&["RUN", "I=8", "GOTO 20"])
            .types(20).types(0).types(0),
        fresh("a string put right", &["10 PRINT $5;"])
            .lines(&["RUN", "$5=\"OATS\"", "RUN", "@9=7", "RUN"])
            .types(16).types(0).types(0).types(0).types(16),
        fresh("an output that fills", &["10 PRINT \"0123456789\";:GOTO 10"])
            .lines(&["RUN", "RETURN", "PRINT \"ABC\";", "PRINT \"DE\";", "PRINT 1"])
            .types(17).types(9).types(0).types(0).types(17),
        fresh("flags from call to call", &["10 STAT=STAT+1:PRINT STAT;:GOTO 10"])
            .lines(&["STAT=6", "RUN", "PRINT STAT"])
            .types(0).types_in(4, 14).goes_on_in(3, 14).types(0)
            .sense(0b0011_0000),
    ]
}
