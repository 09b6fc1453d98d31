//! Tables of line places: those that are refused, what edits leave of one, and runs that may look lines up in one.

use model::table::TABLE_LEAST;

use super::{pause_after, Change, FIVE, TWO};
use crate::written::{fresh, on, Written};

pub fn cases() -> Vec<Written> {
    let chapters = [refusals, one_before_another, edits, not_lent, runs];
    chapters.iter().flat_map(|chapter| chapter()).collect()
}

/// Lent a true table but for this, and refused by both calls, which change nothing.
fn refused(stop: u8, name: &str, change: Change) -> Written {
    let case = on(name, &FIVE).lines(&["NEW"]).table(TABLE_LEAST);
    case.with(change).types(stop).goes_on(stop)
}

/// The program's lines stand at 0, 17 and 35.
#[rustfmt::skip]
const REFUSED: [(u8, &str, Change); 10] = [
    (1, "a table of no number", |gate| gate.table.clear()),
    (1, "a table of one number", |gate| gate.table.truncate(1)),
    (1, "a table of 1,024 numbers", |gate| gate.table.truncate(1024)),
    (26, "a table with a line too few", |gate| gate.table[0] = 2),
    (26, "a table with a line too many", |gate| gate.table[..5].copy_from_slice(&[4, 0, 17, 35, 46])),
    (26, "a table without its count", |gate| gate.table.rotate_left(1)),
    (26, "a table with its first line too late", |gate| gate.table[1] = 1),
    (26, "a table with a middle line too early", |gate| gate.table[2] = 16),
    (26, "a table with its last line 256 too late", |gate| gate.table[3] = 35 + 256),
    (26, "a table with two lines swapped", |gate| gate.table.swap(2, 3)),
];

fn refusals() -> Vec<Written> {
    let refused = REFUSED.map(|(stop, name, change)| refused(stop, name, change));
    let good = [
        on("a table of 1,025 numbers", &FIVE).table(1025),
        on("a table of 1,100 numbers", &FIVE).table(1100),
        on("a table for no line", &[]).table(1025),
    ];
    let good = good.map(|case| case.lines(&["REM"]).types(0).goes_on(0));
    refused.into_iter().chain(good).collect()
}

/// Two stops apply to each, and one comes first: 1, 18, 26, 19, 7.
fn one_before_another() -> Vec<Written> {
    let spoil: Change = |gate| gate.table[3] += 1;
    vec![
        refused(1, "1 before 26", spoil).budget(65_536),
        refused(1, "a short table's 1 before 18", |gate| {
            gate.table.truncate(1024);
            gate.page[0] = 128;
        }),
        refused(18, "18 before 26", spoil).with(|gate| gate.page[0] = 128),
        refused(26, "26 before 19", spoil).with(|gate| gate.record.flags = 8),
        refused(26, "26 before 7", spoil).with(|gate| gate.input.truncate(4)),
        refused(26, "26 before 0, with nothing paused", spoil)
            .with(|gate| gate.record.paused = None),
        on("26 keeps a pause and the line", &FIVE)
            .lines(&["PRINT 7"])
            .table(TABLE_LEAST)
            .with(spoil)
            .with(pause_after(30))
            .types(26)
            .goes_on(26)
            .lending(false)
            .goes_on(20)
            .types(0),
    ]
}

/// Each call leaves what a fresh walk of its page gives, and behind that what was there.
#[rustfmt::skip]
fn edits() -> Vec<Written> {
    let most: Vec<String> = (0..682).map(|number| format!("{number}DO")).collect();
    let most: Vec<&str> = most.iter().map(String::as_str).collect();
    vec![
        // 2 0 8, and then 1 0 8.
        fresh("the desk's table", &[]).table(TABLE_LEAST)
            .lines(&["10 END", "20 END", "10"])
            .types(0).types(0).types(0),
        on("lines put behind, between and in front", &TWO).table(TABLE_LEAST)
            .lines(&["30 D=4", "15 C=33", "5 B=2", "LIST"])
            .types(0).types(0).types(0).types(0),
        on("a line made longer, shorter, and typed anew", &FIVE).table(TABLE_LEAST)
            .lines(&["20 REM LONGER THAN BEFORE", "20DO", "20DO", "10 REM", "30 REM X"])
            .types(0).types(0).types(0).types(0).types(0),
        on("lines taken out: the middle one, one that is not there, the last and the first", &FIVE).table(TABLE_LEAST)
            .lines(&["20", "20", "30", "10", "10"])
            .types(0).types(0).types(0).types(0).types(0),
        on("NEW, and a line again", &FIVE).table(TABLE_LEAST)
            .lines(&["NEW", "7 REM", "NEW"])
            .types(0).types(0).types(0),
        on("no room, and the table stays", &TWO).page(20).table(TABLE_LEAST)
            .lines(&["30DO", "20 REM XY", "10DO", "30DO", "15DO"])
            .types(2).types(2).types(0).types(2).types(2),
        on("the most lines of a page", &most).page(4096).table(TABLE_LEAST)
            .lines(&["682DO", "0", "682DO", "340", "GOTO 680", "681 REM"])
            .types(2).types(0).types(0).types(0).types(0).types(0),
        on("CLEAR, LIST, statements and 5 leave a table", &TWO).table(TABLE_LEAST)
            .lines(&["CLEAR", "LIST", "A=5", "NO", "DO"])
            .types(0).types(0).types(0).refused_at(1).types(3),
    ]
}

/// A table that is not lent is not looked at, and stays as it is.
#[rustfmt::skip]
fn not_lent() -> Vec<Written> {
    vec![
        on("an edit without the table, and 26 until it is taken back", &TWO).table(TABLE_LEAST)
            .lines(&["15 B=2", "LIST", "15", "LIST"])
            .types_without(0).types(26).goes_on(26).types_without(0).types_without(0).types(0),
        on("a short table that is not lent", &TWO).table(3)
            .lines(&["10", "LIST"])
            .types_without(0).types_without(0).types(1),
    ]
}

/// It prints 1, 9, 2, 5, 3, 8 and 7.
const JUMPS: [&str; 9] = [
    "10 PRINT 1;:GOTO 90",
    "20 PRINT 2;:GOTO 50",
    "30 PRINT 3;:RETURN",
    "40 GOTO 45",
    "50 PRINT 5;:GOSUB 30",
    "60 GOTO 80",
    "70 PRINT 7;:GOTO 40",
    "80 PRINT 8;:GOTO 70",
    "90 PRINT 9;:GOTO 20",
];

#[rustfmt::skip]
fn runs() -> Vec<Written> {
    let loops = ["10 A=A+1:GOSUB 40", "20 IF A<3 GOTO 10", "30 END", "40 B=B+A:RETURN"];
    vec![
        fresh("jumps by a table, by a typed line", &JUMPS).table(TABLE_LEAST)
            .lines(&["RUN"]).types(8),
        fresh("jumps by a table, by a continued run", &JUMPS).table(TABLE_LEAST)
            .paused().goes_on(8),
        fresh("typed jumps by a table to lines that are not there", &JUMPS).table(TABLE_LEAST)
            .lines(&["GOTO 0", "GOSUB 9", "GOTO 11", "GOSUB 89", "GOTO 91", "GOTO 32767", "GOTO -1"])
            .types(8).types(8).types(8).types(8).types(8).types(8).types(8),
        fresh("typed jumps by a table, paused at once", &JUMPS).table(TABLE_LEAST)
            .lines(&["GOTO 10", "GOTO 20", "GOSUB 50", "GOTO 80", "GOTO 90"])
            .types(14).types(14).types(14).types(14).types(14)
            .budget(0),
        fresh("a run in parts, with a table, without and with", &loops).table(TABLE_LEAST)
            .lines(&["RUN"])
            .types_in(2, 14).goes_on_in(3, 14).lending(false).goes_on_in(3, 14).lending(true).goes_on(20),
        fresh("a jump by a table to no line", &[]).table(TABLE_LEAST)
            .lines(&["GOTO 10", "RUN"]).types(8).types(0),
    ]
}
