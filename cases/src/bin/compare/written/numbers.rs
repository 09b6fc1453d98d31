//! Every value printed and every line number listed: where the room is just enough, and where it lacks a byte.

use super::{typed, Visit};
use model::case::Case;
use model::random::pages::Lines;
use model::value::printed;

/// What stands in the output before the item.
const BEFORE: usize = 2;

fn with_room(case: Case, room: usize) -> Case {
    Case {
        output: vec![b'.'; BEFORE + room],
        output_position: BEFORE as u32,
        ..case
    }
}

pub fn each(visit: &mut Visit) {
    for value in i16::MIN..=i16::MAX {
        let mut case = typed(&Lines::new(), b"PRINT A;\r");
        case.record.variables[0] = value;
        let room = printed(value).len();
        visit(with_room(case.clone(), room), 0);
        visit(with_room(case, room - 1), 0);
    }
    for number in 0..=32_767 {
        let text = "DO";
        let case = typed(&vec![(number, text.into())], b"LIST\r");
        let room = format!("{number}{text}\r\n").len();
        visit(with_room(case.clone(), room), 0);
        visit(with_room(case, room - 1), 0);
    }
}
