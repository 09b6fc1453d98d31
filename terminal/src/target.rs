//! The line that a jump did not find. The call answers where the jump stands; this works out where it led.

use nibl::{Call, Controller, Stop};

use crate::flow;
use crate::page;
use crate::reading::{members, read, Jump, Statement, Typed};

/// Room for one printed number.
const PRINTED: usize = 16;

type Owned = Controller<Vec<u8>, Vec<u8>>;

/// The target that is not there, of a jump in a program line or in the typed one, if there is only one that it can have been. A statement
/// that refuses leaves variables and memory as they were before it, so the target still comes to the same.
pub fn missing(controller: &Owned, line: Option<u16>, typed: &[u8]) -> Option<i16> {
    let text = match line {
        Some(line) => page::text(&controller.page, line)?,
        None => typed,
    };
    let statements = match line {
        Some(_) => members(text, 0)?,
        None => match read(text)? {
            Typed::Statement(statement) => vec![statement],
            _ => return None,
        },
    };
    let jumps = statements.iter().flat_map(Statement::all);
    let targets = jumps
        .filter_map(flow::jump)
        .filter_map(|jump| value(controller, text, jump));
    let mut missing: Vec<i16> = targets
        .filter(|target| !is_there(&controller.page, *target))
        .collect();
    missing.dedup();
    match missing.as_slice() {
        [target] => Some(*target),
        _ => None,
    }
}

fn is_there(page: &[u8], target: i16) -> bool {
    u16::try_from(target).is_ok_and(|line| page::text(page, line).is_some())
}

/// What a target comes to: it is printed, on a copy.
fn value(controller: &Owned, text: &[u8], jump: &Jump) -> Option<i16> {
    let input = [b"PR ", &text[jump.begin..jump.end], b"\r"].concat();
    let mut output = [0; PRINTED];
    let answer = controller
        .clone()
        .take_line(&input, &mut output, Call::at(0, 0, 0));
    let printed = std::str::from_utf8(&output[..answer.outpos]).ok()?;
    match answer.stop {
        Stop::Done => printed.trim().parse().ok(),
        _ => None,
    }
}

#[cfg(test)]
mod tests {
    use super::*;

    /// What is missing after these lines, the last of which gives 8.
    fn after(lines: &[&str]) -> Option<i16> {
        let mut controller = Controller::owned(4096, 64);
        let mut last = None;
        for line in lines {
            let input = [line.as_bytes(), b"\r"].concat();
            let answer = controller.take_line(&input, &mut [0; 64], Call::at(0, 0, 100));
            last = Some((answer, line.as_bytes()));
        }
        let (answer, typed) = last.expect("a line");
        assert_eq!(answer.stop, Stop::NoSuchLine);
        missing(&controller, answer.line, typed)
    }

    #[test]
    fn a_target_is_named_as_it_came_out() {
        assert_eq!(after(&["GOTO 999"]), Some(999));
        assert_eq!(after(&["10 B=3:GOSUB 100*B", "RUN"]), Some(300));
        assert_eq!(after(&["10 @5=7:IF @5 GO TO @5-10", "RUN"]), Some(-3));
        assert_eq!(
            after(&["10 IF A GOTO 10:REM", "20 GOTO 30", "RUN"]),
            Some(30)
        );
        assert_eq!(after(&["IF 1 GOSUB 5"]), Some(5));
    }

    #[test]
    fn of_two_that_are_not_there_none_is_named() {
        assert_eq!(
            after(&["10 IF A GOTO 20", "15 IF A=0 GOTO 40:GOTO 50", "RUN"]),
            None
        );
        assert_eq!(
            after(&["10 IF A=1 GOTO 10:GOTO 10", "20 GOSUB 30:GOTO 30", "RUN"]),
            Some(30)
        );
    }
}
