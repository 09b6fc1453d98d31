//! Input for the session program.

use super::pages::program;
use super::texts::Setting;
use super::typed::{line_numbers, replies, typed_line, with_slips};
use super::{Random, Size};

/// The memory of the session program.
const MEMORY: usize = 1024;

/// Long lines, enough of them to fill the page nearly or altogether, so that
/// what is typed after them finds little room or none.
fn crowd(random: &mut Random, input: &mut Vec<u8>) -> usize {
    let first = random.below(900);
    let count = random.between(55, 65);
    for number in first..first + count {
        let mark = "X".repeat(random.between(55, 64));
        input.extend(format!("{number} REM {mark}\r").as_bytes());
    }
    count
}

/// The bytes of a session of about this many typed lines: programs are typed
/// in any order, run, listed and changed.
pub fn session(random: &mut Random, size: Size, count: usize) -> Vec<u8> {
    let mut input = Vec::new();
    let mut typed = 0;
    while typed < count {
        if size == Size::Full && random.percent(5) {
            typed += crowd(random, &mut input);
        }
        let lines = program(random, size, MEMORY);
        let numbers = line_numbers(&lines);
        let setting = Setting {
            size,
            lines: &numbers,
            memory: MEMORY,
        };
        for _ in 0..lines.len() {
            // The same line may be typed twice and another not at all.
            let (number, text) = random.pick(&lines);
            let line = format!("{number}{text}");
            match random.percent(10) {
                true => input.extend(with_slips(random, line.as_bytes())),
                false => input.extend(line.as_bytes()),
            }
            input.push(13);
        }
        let lines_after = random.between(1, 8);
        for _ in 0..lines_after {
            input.extend(typed_line(random, setting));
            if random.percent(40) {
                input.extend(replies(random, setting));
            }
        }
        if random.percent(50) {
            input.extend_from_slice(b"NEW\r");
        }
        typed += lines.len() + lines_after;
    }
    input
}
