//! Programs, and pages that hold them or do not.

use super::texts::{Scribe, Setting};
use super::{Random, Size};

/// A program's lines in rising number.
pub type Lines = Vec<(u16, String)>;

/// The longest page of a size.
fn longest(size: Size) -> usize {
    match size {
        Size::Small => 120,
        Size::Full => 4096,
    }
}

fn numbers(random: &mut Random, size: Size) -> Vec<u16> {
    let most = match (size, random.below(12)) {
        (Size::Full, 0) => 60,
        (Size::Full, _) => 9,
        (Size::Small, _) => 4,
    };
    let mut numbers = Vec::new();
    let mut number = random.below(12);
    let least = usize::from(random.percent(90));
    for _ in 0..random.between(least, most) {
        numbers.push(number as u16);
        number += random.between(1, 12);
    }
    if random.percent(4) {
        numbers.push(32_767);
    }
    numbers
}

/// Lines that belong together, so that loops and subroutines really run.
fn snippet(scribe: &mut Scribe, own: &str) -> Vec<String> {
    let letter = *scribe.random.pick(&["I", "J", "N"]);
    let mut lines = Vec::new();
    match scribe.random.weighted(&[14, 12, 8, 4, 4, 3, 10, 3]) {
        0 => {
            scribe.for_loop(letter);
            lines.push(scribe.finish());
            scribe.list();
            lines.push(scribe.finish());
            scribe.words(&["NEXT", letter]);
        }
        1 => {
            lines.push("DO".to_string());
            scribe.list();
            lines.push(scribe.finish());
            scribe.word("UNTIL");
            scribe.any_relation();
        }
        2 => {
            scribe.gosub();
            lines.push(scribe.finish());
            scribe.list();
            lines.push(scribe.finish());
            scribe.word("RETURN");
        }
        3 => scribe.words(&["GOSUB", own, ":", "RETURN"]),
        4 => scribe.words(&["FOR", letter, "=", "1", "TO", "2", ":", "GOTO", own]),
        5 => scribe.words(&["DO", ":", "GOTO", own]),
        6 => scribe.input(),
        _ => scribe.words(&["FOR", letter, "=", "1", "TO", "2", ":", "NEXT", "A"]),
    }
    lines.push(scribe.finish());
    lines
}

/// A program whose lines all have readings, and which a page can hold.
pub fn program(random: &mut Random, size: Size, memory: usize) -> Lines {
    let numbers = numbers(random, size);
    let mut lines: Lines = Vec::new();
    let mut waiting: Vec<String> = Vec::new();
    let mut used = 2;
    for &number in &numbers {
        let setting = Setting {
            size,
            lines: &numbers,
            memory,
        };
        let mut scribe = Scribe::new(random, setting);
        if waiting.is_empty() && scribe.random.percent(45) {
            waiting = snippet(&mut scribe, &number.to_string());
            waiting.reverse();
        }
        let mut text = waiting.pop().unwrap_or_else(|| {
            scribe.list();
            scribe.finish()
        });
        if random.percent(60) {
            text.insert(0, ' ');
        }
        if random.percent(2) {
            text = padded(text, 72 - number.to_string().len());
        }
        // A text over the limit, or over the page's room, is left out.
        let length = text.len() + 4;
        if text.len() + number.to_string().len() <= 72 && used + length <= longest(size) {
            used += length;
            lines.push((number, text));
        }
    }
    lines
}

/// The text with spaces behind it, up to a length.
pub fn padded(text: String, length: usize) -> String {
    format!("{text:length$}")
}

/// The bytes of a program with its end mark.
pub fn render(lines: &Lines) -> Vec<u8> {
    let mut page = Vec::new();
    for (number, text) in lines {
        page.extend_from_slice(&number.to_be_bytes());
        page.push((text.len() + 4) as u8);
        page.extend_from_slice(text.as_bytes());
        page.push(13);
    }
    page.extend_from_slice(&[255, 255]);
    page
}

/// Changes bytes here and there, as a fault would.
pub fn spoil(random: &mut Random, bytes: &mut Vec<u8>) {
    for _ in 0..random.between(1, 2) {
        if bytes.is_empty() {
            return;
        }
        let at = random.below(bytes.len());
        match random.below(10) {
            0 => bytes[at] = random.byte(),
            1 => bytes[at] = *random.pick(&[0, 10, 13, 21, 32, 34, 58, 95, 127, 128, 255]),
            2 => bytes[at] = bytes[at].wrapping_add(1),
            3 => bytes[at] ^= 1 << random.below(8),
            4 => drop(bytes.remove(at)),
            5 => bytes.insert(at, random.byte()),
            6 => bytes.insert(at, b' '),
            7 => bytes.insert(at, bytes[at]),
            8 => bytes.swap(at, at.saturating_sub(1)),
            _ => bytes.truncate(at),
        }
    }
}

/// Takes spaces out, some of them or all: the words that then touch may be
/// others, or none.
pub fn squeeze(random: &mut Random, bytes: &mut Vec<u8>) {
    let chance = *random.pick(&[50, 100]);
    bytes.retain(|&byte| byte != b' ' || !random.percent(chance));
}

/// A page that holds the program, with anything behind the end mark.
pub fn sound_page(random: &mut Random, size: Size, lines: &Lines) -> Vec<u8> {
    let mut page = render(lines);
    let room = longest(size).saturating_sub(page.len());
    let extra = match random.below(4) {
        0 => 0,
        1 | 2 => random.between(0, room.min(40)),
        _ => random.between(0, room),
    };
    for _ in 0..extra {
        page.push(random.byte());
    }
    page
}

/// Any page: sound, with a fault, garbage, or of a wrong length.
pub fn any_page(random: &mut Random, size: Size, lines: &Lines) -> Vec<u8> {
    let mut page = sound_page(random, size, lines);
    let too_long = match size {
        Size::Small => 0,
        Size::Full => 3,
    };
    match random.weighted(&[1000, 60, 20, 15, 8, too_long]) {
        0 => {}
        1 => spoil(random, &mut page),
        2 => {
            page = misfit(random, lines);
            page.truncate(longest(size));
        }
        3 => {
            let length = random.between(2, longest(size).min(300));
            page = (0..length).map(|_| random.byte()).collect();
        }
        4 => page.truncate(random.below(2)),
        _ => page.resize(4097, 0),
    }
    page
}

/// A page of sound records but for one: out of order, there twice, with too
/// large a number, a text over the limit, without its spaces, or without a
/// statement.
fn misfit(random: &mut Random, lines: &Lines) -> Vec<u8> {
    let mut lines = lines.clone();
    if !lines.is_empty() {
        let at = random.below(lines.len());
        match random.below(7) {
            0 => lines.reverse(),
            1 => lines.insert(at, lines[at].clone()),
            2 => lines[at].0 |= 32_768,
            3 => {
                let text = std::mem::take(&mut lines[at].1);
                lines[at].1 = padded(text, 73 - lines[at].0.to_string().len());
            }
            4 | 5 => lines[at].1.retain(|byte| byte != ' '),
            _ => {
                let texts = ["", " ", "END:", "5 END", "RUN", "A=1_", "A=AANDB", "RUNX"];
                lines[at].1 = random.pick(&texts).to_string();
            }
        }
    }
    render(&lines)
}
