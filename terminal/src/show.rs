//! The controller's state, drawn.

use nibl::{ForEntry, ForStack, PlaceStack, Record, MARK, NOWHERE, START};

use crate::desk::Desk;
use crate::page::{line_at, lines, used};
use crate::row::Row;
use crate::screen::QUOTED;
use crate::words::{counted, grouped};

/// In how many columns the variables stand.
const COLUMNS: usize = 6;
/// What is added to a place to say a pause after it.
const AFTER: u16 = 2;
/// How many bytes of memory a row has, and how many rows are shown from an address on.
const ROW: usize = 10;
const ROWS: usize = 6;
/// Bytes that typing drops, or that take back others: 0 and LF, Ctrl-U, and `_`.
const UNKEPT: [u8; 4] = [0, 10, 21, 95];

pub fn state(desk: &Desk) -> String {
    let (record, page) = (&desk.controller.record, &desk.controller.page);
    let stacks = [
        ("GOSUB", places(&record.gosubs, page)),
        ("DO", places(&record.dos, page)),
        ("FOR", fors(&record.fors, page)),
    ];
    let mut drawn = variables(record);
    drawn += &format!("\nflags   {}\n", flags(record.flags));
    for (name, entries) in stacks {
        drawn += &stack(name, &entries);
    }
    drawn += &format!("pause   {}\n", pause(record.paused, page));
    let program = counted(lines(page).len() as u64, "line");
    drawn
        + &format!(
            "page    {program}, {} of {} bytes used\n",
            grouped(used(page) as u64),
            grouped(page.len() as u64)
        )
}

fn variables(record: &Record) -> String {
    let mut drawn = String::new();
    for (at, (name, value)) in ('A'..='Z').zip(record.vars).enumerate() {
        let gap = if at % COLUMNS == 0 { "" } else { "   " };
        let end = if at % COLUMNS == COLUMNS - 1 {
            "\n"
        } else {
            ""
        };
        drawn += &format!("{gap}{name} {:>6}{end}", value as i16);
    }
    drawn + "\n"
}

fn flags(flags: u8) -> String {
    let flag = |bit: u8| format!("{bit} {}", if flags & bit == 0 { "off" } else { "on" });
    [1, 2, 4].map(flag).join("   ")
}

/// A stack's entries, the one that was opened last at the bottom.
fn stack(name: &str, entries: &[String]) -> String {
    let none = [String::from("none open")];
    let shown = if entries.is_empty() { &none } else { entries };
    let row =
        |(at, entry): (usize, &String)| format!("{:<7} {entry}\n", if at == 0 { name } else { "" });
    shown.iter().enumerate().map(row).collect()
}

fn places(stack: &PlaceStack, page: &[u8]) -> Vec<String> {
    let open = stack.open().iter();
    open.map(|place| back_to(*place, page)).collect()
}

fn fors(stack: &ForStack, page: &[u8]) -> Vec<String> {
    let entry = |entry: &ForEntry| {
        let variable = char::from(b'A' + entry.var % 26);
        let (limit, step) = (entry.limit as i16, entry.step as i16);
        format!(
            "{variable} to {limit} step {step}, {}",
            back_to(entry.place, page)
        )
    };
    stack.open().iter().map(entry).collect()
}

/// Where a return leads: behind the statement that ends at a place.
fn back_to(place: u16, page: &[u8]) -> String {
    if place == MARK {
        return "back to the typed line".to_string();
    }
    match (line_at(page, usize::from(place)), rest_after(place, page)) {
        (Some(line), Some(rest)) => format!("back into line {} before {rest}", line.number),
        (Some(line), None) => format!("back behind line {}", line.number),
        (None, _) => format!("back to place {place}, which is none"),
    }
}

/// Where a paused run goes on.
fn pause(paused: u16, page: &[u8]) -> String {
    let place = pause_place(paused, page);
    let rest = paused.checked_sub(AFTER);
    match rest.and_then(|place| rest_after(place, page)) {
        Some(rest) => format!("{place} before {rest}"),
        None => place,
    }
}

/// The same without what stands there, for a sentence.
pub fn pause_place(paused: u16, page: &[u8]) -> String {
    let all = lines(page);
    let next = match paused {
        NOWHERE => return "none".to_string(),
        START => all.first(),
        _ => {
            let place = paused - AFTER;
            let line = line_at(page, usize::from(place));
            if let (Some(line), Some(_)) = (line, rest_after(place, page)) {
                return format!("in line {}", line.number);
            }
            all.iter().find(|line| line.begin > usize::from(place))
        }
    };
    match next {
        Some(line) => format!("before line {}", line.number),
        None => "behind the last line".to_string(),
    }
}

/// The text behind a place, up to the end of its line; none behind a line's CR.
fn rest_after(place: u16, page: &[u8]) -> Option<String> {
    let begin = usize::from(place) + 1;
    let line = line_at(page, usize::from(place))?;
    let rest = page.get(begin..line.end)?;
    Some(String::from_utf8_lossy(rest).trim().to_string())
}

/// Where the spot of a refused line is to be seen: in a column of the row above, or in a part of the line that is shown again.
#[derive(Debug, PartialEq, Eq)]
pub enum Spot {
    Above(usize),
    Part(Row),
}

/// The spot of a line that stands behind some columns of a window, if it can be pointed at: the line must be shown as it was kept up to
/// the spot, a byte to a column, none dropped and none erased. One that goes on in the next row is shown again in part.
pub fn spot(line: &[u8], column: u16, behind: usize, width: usize) -> Option<Spot> {
    let good = usize::from(column);
    let kept = !line.iter().any(|byte| UNKEPT.contains(byte));
    let plain = line.iter().take(good).all(u8::is_ascii);
    if !kept || !plain {
        return None;
    }
    // the last column stays free: terminals differ there
    if behind + line.len().max(good + 1) < width {
        return Some(Spot::Above(behind + good));
    }
    let text: Vec<char> = String::from_utf8_lossy(line).chars().collect();
    let room = width.saturating_sub(QUOTED.len() + 1);
    Some(Spot::Part(Row::around(&text, good, room)))
}

/// The memory in short: the rows that have something in them.
pub fn memory(memory: &[u8]) -> String {
    let has = |row: &(usize, &[u8])| row.1.iter().any(|byte| *byte != 0);
    let rows: String = memory
        .chunks(ROW)
        .enumerate()
        .filter(has)
        .map(|(at, bytes)| row(at * ROW, bytes))
        .collect();
    let others = if rows.is_empty() { "all" } else { "all others" };
    format!("{rows}{} bytes, {others} 0\n", grouped(memory.len() as u64))
}

/// Some of the memory from an address on, or none if it is not there.
pub fn memory_at(memory: &[u8], address: usize) -> Option<String> {
    memory_part(memory, address, ROW * ROWS)
}

/// At most so many bytes of memory from an address on.
pub fn memory_part(memory: &[u8], address: usize, count: usize) -> Option<String> {
    let shown = memory.get(address..).filter(|bytes| !bytes.is_empty())?;
    let rows = shown[..count.min(shown.len())].chunks(ROW).enumerate();
    Some(
        rows.map(|(at, bytes)| row(address + at * ROW, bytes))
            .collect(),
    )
}

/// An address, its bytes in decimal as NIBL prints them, and as text.
fn row(address: usize, bytes: &[u8]) -> String {
    let numbers: String = bytes.iter().map(|byte| format!(" {byte:>3}")).collect();
    let letter = |byte: &u8| match byte {
        32..=126 => char::from(*byte),
        _ => '·',
    };
    let text: String = bytes.iter().map(letter).collect();
    format!("{address:>5} {numbers:<40}  {text}\n")
}

#[cfg(test)]
mod tests {
    use super::*;
    use crate::desk::{Dealer, Desk};
    use nibl::LINE_MOST;

    struct Silent;

    impl Dealer for Silent {
        fn show(&mut self, _output: &[u8]) {}
        fn reply(&mut self, _line: u16) -> Option<Vec<u8>> {
            None
        }
        fn interrupts(&mut self) -> bool {
            false
        }
    }

    fn after(budget: u64, lines: &[&str]) -> String {
        let mut desk = Desk {
            budget,
            ..Desk::default()
        };
        for line in lines {
            desk.take_line(line.as_bytes(), &mut Silent);
        }
        state(&desk)
    }

    fn rows<'a>(drawn: &'a str, name: &str) -> Vec<&'a str> {
        let all = drawn.lines().skip_while(|row| !row.starts_with(name));
        let mut first = true;
        all.take_while(|row| std::mem::take(&mut first) || row.starts_with(' '))
            .map(|row| row[8..].trim_end())
            .collect()
    }

    #[test]
    fn a_fresh_session() {
        let drawn = after(0, &[]);
        assert!(drawn.starts_with("A      0   B      0"));
        assert_eq!(rows(&drawn, "flags"), ["1 off   2 off   4 off"]);
        assert_eq!(rows(&drawn, "GOSUB"), ["none open"]);
        assert_eq!(rows(&drawn, "pause"), ["none"]);
        assert_eq!(rows(&drawn, "page"), ["0 lines, 2 of 4,096 bytes used"]);
    }

    #[test]
    fn variables_and_flags() {
        let drawn = after(0, &["B=-5", "Z=#8000", "STAT=5"]);
        assert!(drawn.contains("B     -5"));
        assert!(drawn.contains("Z -32768"));
        assert_eq!(rows(&drawn, "flags"), ["1 on   2 off   4 on"]);
    }

    #[test]
    fn stacks_say_where_they_lead() {
        let program = [
            "10 GOSUB 20: PRINT 1",
            "20 DO:FOR I=1 TO 9 STEP -2",
            "30 GOSUB 40",
            "40 END",
        ];
        let drawn = after(100, &[&program[..], &["GOSUB 10"]].concat());
        assert_eq!(
            rows(&drawn, "GOSUB"),
            [
                "back to the typed line",
                "back into line 10 before PRINT 1",
                "back behind line 30"
            ]
        );
        assert_eq!(
            rows(&drawn, "DO"),
            ["back into line 20 before FOR I=1 TO 9 STEP -2"]
        );
        assert_eq!(rows(&drawn, "FOR"), ["I to 9 step -2, back behind line 20"]);
    }

    #[test]
    fn a_pause_says_what_runs_next() {
        let program = ["10 A=1:B=2", "20 GOTO 20", "RUN"];
        assert_eq!(rows(&after(0, &program), "pause"), ["before line 10"]);
        assert_eq!(
            rows(&after(1, &program), "pause"),
            ["in line 10 before B=2"]
        );
        assert_eq!(rows(&after(2, &program), "pause"), ["before line 20"]);
        assert_eq!(rows(&after(7, &program), "pause"), ["before line 20"]);
    }

    #[test]
    fn a_spot_is_shown_below_its_byte() {
        let mut desk = Desk::default();
        let mut at = |line: &str, width| {
            let reply = desk.take_line(line.as_bytes(), &mut Silent);
            assert_eq!(reply.stop.number(), 5);
            spot(line.as_bytes(), reply.column, 2, width)
        };
        let above = |column| Some(Spot::Above(column));
        let part = |text: &str, cursor| {
            let text = text.to_string();
            Some(Spot::Part(Row { text, cursor }))
        };
        assert_eq!(at("30 PRIMT 1", 80), above(8));
        assert_eq!(at("30 PRIMT 1", 13), above(8));
        assert_eq!(at("30 PRIMT 1", 12), part("30 PRIMT…", 6)); // it may go on in the next row
        assert_eq!(at("PRINT", 9), above(7)); // behind the last byte
        assert_eq!(at("PRINT", 8), part("…INT", 4));
        let over = "A".repeat(usize::from(LINE_MOST) + 1);
        let most = usize::from(LINE_MOST);
        assert_eq!(at(&over, most + 8), above(most + 2)); // over-long
        assert_eq!(at(&over, 13), part("…AAAAAAAA", 8));
        assert_eq!(at("PRINT \"ä\"", 80), above(9));
        assert_eq!(at("PRINT\t1", 80), above(7));
        assert_eq!(at("PR__PRIMT", 80), None); // other bytes are kept
    }

    #[test]
    fn memory_is_shown_in_short_and_from_an_address() {
        let mut bytes = vec![0; 40];
        assert_eq!(memory(&bytes), "40 bytes, all 0\n");
        bytes[17] = 65;
        assert!(memory(&bytes).starts_with("   10    0   0   0   0   0   0   0  65"));
        assert!(memory(&bytes).contains("·A·"));
        assert!(memory(&bytes).ends_with("\n40 bytes, all others 0\n"));
        let shown = memory_at(&bytes, 38).expect("two bytes");
        assert_eq!(
            shown.split_whitespace().collect::<Vec<_>>(),
            ["38", "0", "0", "··"]
        );
        assert_eq!(memory_at(&bytes, 40), None);
        assert_eq!(memory_at(&bytes, 41), None);
    }
}
