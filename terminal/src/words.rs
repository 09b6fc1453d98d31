//! What is said of a reply, and of the stops.

use nibl::Stop;

use crate::desk::{Cause, Reply};
use crate::page::Change;

/// A reply in one sentence: the stop's number and words, the line that gave it, the steps, and what came of it.
pub fn sentence(reply: &Reply) -> String {
    let mut said = reason(reply);
    if reply.cause == Cause::Interrupted {
        said += " by Ctrl-C";
    }
    if let Some(place) = &reply.more.pause {
        said += &format!(" {place}");
    }
    said += &whereabouts(reply);
    if let Some(effect) = effect(reply) {
        said += &format!("; {effect}");
    }
    if reply.ended_pause {
        said += "; the pause has ended";
    }
    said
}

/// The stop in words.
fn reason(reply: &Reply) -> String {
    let number = reply.stop.number();
    match (reply.stop, reply.more.over, reply.more.missing) {
        (Stop::NoReading, 0, _) => format!("{number}: no reading after column {}", reply.column),
        (Stop::NoReading, over, _) => {
            format!("{number}: over-long by {}", counted(over as u64, "byte"))
        }
        (Stop::NoSuchLine, _, Some(target)) => format!("{}: {target}", reply.stop),
        (stop, _, _) => stop.to_string(),
    }
}

fn whereabouts(reply: &Reply) -> String {
    let steps = counted(reply.steps, "step");
    match reply.line {
        Some(line) => format!(" (line {line}, {steps})"),
        None if reply.steps > 0 || reply.stop == Stop::Paused => format!(" after {steps}"),
        None => String::new(),
    }
}

/// What it did, where the number alone does not say all.
fn effect(reply: &Reply) -> Option<String> {
    let effect = match (reply.stop, reply.change) {
        (Stop::Paused, _) => "`.` goes on".to_string(),
        (Stop::Done, Change::Stored(line)) => format!("line {line} was stored"),
        (Stop::Done, Change::Replaced(line)) => format!("line {line} was replaced"),
        (Stop::Done, Change::Kept(line)) => format!("line {line} is as it was"),
        (Stop::Done, Change::Deleted(line)) => format!("line {line} was deleted"),
        (Stop::Done, Change::Absent(line)) => format!("there was no line {line}"),
        (Stop::Done, Change::Empty) => "the page is empty".to_string(),
        (Stop::Done, _) if reply.cause == Cause::NothingPaused => "nothing was paused".to_string(),
        (Stop::Done, Change::Nothing) => return None,
        (Stop::NoReading, _) if reply.more.immediate => "nothing was run".to_string(),
        _ if reply.cause == Cause::NoReply => "no reply was given".to_string(),
        (stop, _) => stop.effect().to_string(),
    };
    Some(effect)
}

/// The table of stops.
pub fn stops() -> String {
    let width = Stop::ALL
        .iter()
        .map(|stop| stop.words().len())
        .max()
        .unwrap_or(0);
    let row = |stop: &Stop| {
        format!(
            "{:>2}  {:width$}  {}\n",
            stop.number(),
            stop.words(),
            stop.effect()
        )
    };
    Stop::ALL.iter().map(row).collect()
}

/// "1 step", "10,000 steps".
pub fn counted(number: u64, what: &str) -> String {
    match number {
        1 => format!("1 {what}"),
        _ => format!("{} {what}s", grouped(number)),
    }
}

/// A number with commas between its thousands.
pub fn grouped(number: u64) -> String {
    let digits = number.to_string();
    let mut grouped = String::new();
    for (at, digit) in digits.chars().enumerate() {
        if at > 0 && at % 3 == digits.len() % 3 {
            grouped.push(',');
        }
        grouped.push(digit);
    }
    grouped
}

#[cfg(test)]
mod tests {
    use super::*;
    use crate::desk::More;

    fn reply(stop: Stop, line: Option<u16>, steps: u64) -> Reply {
        Reply {
            stop,
            line,
            steps,
            column: 0,
            cause: Cause::Answered,
            change: Change::Nothing,
            ended_pause: false,
            more: More::default(),
        }
    }

    #[test]
    fn a_refused_line() {
        let wrong = |column, more| Reply {
            column,
            more,
            ..reply(Stop::NoReading, None, 0)
        };
        assert_eq!(
            sentence(&wrong(6, More::default())),
            "5: no reading after column 6; nothing was stored"
        );
        let over = More {
            over: 1,
            ..More::default()
        };
        assert_eq!(
            sentence(&wrong(72, over)),
            "5: over-long by 1 byte; nothing was stored"
        );
        let immediate = More {
            immediate: true,
            ..More::default()
        };
        assert_eq!(
            sentence(&wrong(72, immediate)),
            "5: no reading after column 72; nothing was run"
        );
    }

    #[test]
    fn a_pause() {
        let mut paused = reply(Stop::Paused, None, 10_000);
        paused.more.pause = Some("before line 20".to_string());
        assert_eq!(
            sentence(&paused),
            "14: paused before line 20 after 10,000 steps; `.` goes on"
        );
        paused.cause = Cause::Interrupted;
        assert_eq!(
            sentence(&paused),
            "14: paused by Ctrl-C before line 20 after 10,000 steps; `.` goes on"
        );
        assert_eq!(
            sentence(&reply(Stop::Paused, None, 0)),
            "14: paused after 0 steps; `.` goes on"
        );
    }

    #[test]
    fn a_jump_that_found_no_line() {
        let mut lost = reply(Stop::NoSuchLine, Some(10), 2);
        assert_eq!(
            sentence(&lost),
            "8: no such line (line 10, 2 steps); no jump was made"
        );
        lost.more.missing = Some(300);
        assert_eq!(
            sentence(&lost),
            "8: no such line: 300 (line 10, 2 steps); no jump was made"
        );
    }

    #[test]
    fn what_was_done() {
        let done = || reply(Stop::Done, None, 0);
        assert_eq!(sentence(&done()), "0: done");
        assert_eq!(
            sentence(&reply(Stop::Done, None, 1)),
            "0: done after 1 step"
        );
        let said = |change| sentence(&Reply { change, ..done() });
        assert_eq!(said(Change::Stored(10)), "0: done; line 10 was stored");
        assert_eq!(said(Change::Replaced(10)), "0: done; line 10 was replaced");
        assert_eq!(said(Change::Kept(10)), "0: done; line 10 is as it was");
        assert_eq!(said(Change::Deleted(10)), "0: done; line 10 was deleted");
        assert_eq!(said(Change::Absent(10)), "0: done; there was no line 10");
        assert_eq!(said(Change::Empty), "0: done; the page is empty");
        let nothing = Reply {
            cause: Cause::NothingPaused,
            ..done()
        };
        assert_eq!(sentence(&nothing), "0: done; nothing was paused");
    }

    #[test]
    fn a_pause_that_ended_is_told() {
        let blank = Reply {
            ended_pause: true,
            ..reply(Stop::Done, None, 0)
        };
        assert_eq!(sentence(&blank), "0: done; the pause has ended");
        let wrong = Reply {
            ended_pause: true,
            ..reply(Stop::NoReading, None, 0)
        };
        assert_eq!(
            sentence(&wrong),
            "5: no reading after column 0; nothing was stored; the pause has ended"
        );
    }

    #[test]
    fn a_stop_in_the_program_has_line_steps_and_effect() {
        let said = sentence(&reply(Stop::DivisionByZero, Some(30), 12));
        let words = Stop::DivisionByZero.words();
        let effect = Stop::DivisionByZero.effect();
        assert_eq!(said, format!("13: {words} (line 30, 12 steps); {effect}"));
    }

    #[test]
    fn a_wait_that_was_ended_is_told() {
        let ended = Reply {
            cause: Cause::NoReply,
            ..reply(Stop::NoCr, Some(10), 1)
        };
        let words = Stop::NoCr.words();
        assert_eq!(
            sentence(&ended),
            format!("7: {words} (line 10, 1 step); no reply was given")
        );
    }

    #[test]
    fn the_table_has_a_row_for_each_stop() {
        let table = stops();
        assert_eq!(table.lines().count(), Stop::ALL.len());
        for (row, stop) in table.lines().zip(Stop::ALL) {
            assert!(row.trim_start().starts_with(&stop.number().to_string()));
            assert!(row.contains(stop.words()) && row.ends_with(stop.effect()));
            assert!(row.len() <= 80, "it fits a terminal");
        }
        assert_eq!(
            table,
            include_str!("../stops.txt"),
            "nibl --stops prints that"
        );
    }

    #[test]
    fn thousands_are_grouped() {
        let shown: Vec<_> = [0, 999, 1000, 65_535, 1_234_567].map(grouped).to_vec();
        assert_eq!(shown, ["0", "999", "1,000", "65,535", "1,234,567"]);
        assert_eq!(counted(0, "step"), "0 steps");
    }
}
