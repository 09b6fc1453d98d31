//! Pages made in one way each, most of them with one fault, and pages at the edges of the rules.

use super::pages::{padded, render, spoil, Lines};
use super::Random;
use crate::rules::RULES;

/// Makes a page of a program that has two lines or more.
pub type Way = fn(&mut Random, Lines) -> Vec<u8>;

/// Ways that make good pages.
pub const SOUND: [Way; 4] = [whole, with_tail, shortened, at_limit];

/// Ways that make bad pages, or mostly so.
pub const FAULTY: [Way; 15] = [
    equal_numbers,
    falling_numbers,
    high_number,
    first_digit,
    over_limit,
    no_reading,
    squeezed,
    one_letter,
    wrong_length,
    joined,
    no_cr,
    no_mark,
    cut,
    changed,
    garbage,
];

/// Texts that have no reading, some of them for one byte in a remark or a string, or for one space that is not there.
#[rustfmt::skip]
const NO_READINGS: [&str; 38] = [
    "", " ", ":", "END:", ":END", "END::END", "END;", "END END", "RUN", "NEW", "A", "PRINT", "A=1_", "a=1", "PR \"A",
    "5END", " 5END", "\u{c}END", "END\r", "REM\r", "REM A_B", "REM \u{1f}", "REM \u{7f}", "REM \u{e9}", "PR \"_\"",
    "PR \"\u{7f}\"", "AANDB", "A=AANDB", "A=BORC", "IFADO", "IFA>BGOTOX", "FORI=1TOP", "GO TOP", "PRIN", "PRINT#5ANDB",
    "NEWA=1", "RUNX", "ENDA",
];

/// The program's records and its end mark, and nothing else.
fn whole(_: &mut Random, lines: Lines) -> Vec<u8> {
    render(&lines)
}

/// Any bytes, fewer than the limit.
fn bytes(random: &mut Random, limit: usize) -> Vec<u8> {
    (0..random.below(limit)).map(|_| random.byte()).collect()
}

fn with_tail(random: &mut Random, lines: Lines) -> Vec<u8> {
    let mut page = render(&lines);
    page.extend(bytes(random, 24));
    page
}

/// An end mark over a record's number: that record, and those behind it, are no longer looked at.
fn shortened(random: &mut Random, lines: Lines) -> Vec<u8> {
    let mut page = render(&lines);
    let (start, _) = *random.pick(&records(&lines));
    page[start..start + 2].fill(255);
    page
}

/// A text is as long as it can be, or by so much longer.
fn stretched(random: &mut Random, mut lines: Lines, over: usize) -> Vec<u8> {
    let at = random.below(lines.len());
    let (number, text) = &mut lines[at];
    *text = padded(std::mem::take(text), 72 + over - number.to_string().len());
    render(&lines)
}

fn at_limit(random: &mut Random, lines: Lines) -> Vec<u8> {
    stretched(random, lines, 0)
}

fn over_limit(random: &mut Random, lines: Lines) -> Vec<u8> {
    let over = *random.pick(&[1, 1, 2, 8, 100, 175]);
    stretched(random, lines, over)
}

fn equal_numbers(random: &mut Random, mut lines: Lines) -> Vec<u8> {
    let at = random.between(1, lines.len() - 1);
    lines[at].0 = lines[at - 1].0;
    render(&lines)
}

fn falling_numbers(random: &mut Random, mut lines: Lines) -> Vec<u8> {
    let at = random.between(1, lines.len() - 1);
    let number = lines[at].0;
    lines[at].0 = std::mem::replace(&mut lines[at - 1].0, number);
    render(&lines)
}

/// The last number is too large, so that the numbers still rise.
fn high_number(random: &mut Random, mut lines: Lines) -> Vec<u8> {
    let number = random.between(32_768, 65_534) as u16;
    let last = lines.len() - 1;
    lines[last].0 = *random.pick(&[32_768, number]);
    render(&lines)
}

fn first_digit(random: &mut Random, mut lines: Lines) -> Vec<u8> {
    let at = random.below(lines.len());
    let digit = random.pick(b"0123456789");
    lines[at].1.insert(0, char::from(*digit));
    render(&lines)
}

fn no_reading(random: &mut Random, mut lines: Lines) -> Vec<u8> {
    let at = random.below(lines.len());
    lines[at].1 = random.pick(&NO_READINGS).to_string();
    render(&lines)
}

/// A text without its spaces, which may still be read.
fn squeezed(random: &mut Random, mut lines: Lines) -> Vec<u8> {
    let at = random.below(lines.len());
    lines[at].1.retain(|byte| byte != ' ');
    render(&lines)
}

/// One byte of a text is another one, which the text may still be read with.
fn one_letter(random: &mut Random, mut lines: Lines) -> Vec<u8> {
    let at = random.below(lines.len());
    let text = &mut lines[at].1;
    let letter = *random.pick(&[
        "A", "Z", "0", "9", " ", ":", "\"", "+", "-", "=", ",", ";", "_",
    ]);
    let place = random.below(text.len());
    text.replace_range(place..=place, letter);
    render(&lines)
}

/// Where each record begins, and the position behind it.
fn records(lines: &Lines) -> Vec<(usize, usize)> {
    let mut after = 0;
    lines
        .iter()
        .map(|(_, text)| {
            let start = after;
            after += text.len() + 4;
            (start, after)
        })
        .collect()
}

fn wrong_length(random: &mut Random, lines: Lines) -> Vec<u8> {
    let mut page = render(&lines);
    let (start, after) = *random.pick(&records(&lines));
    let length = (after - start) as u8;
    page[start + 2] = match random.below(4) {
        0 => length + 1,
        1 => length - 1,
        2 => random.below(5) as u8,
        _ => random.byte(),
    };
    page
}

/// The length of a record is that of two.
fn joined(random: &mut Random, lines: Lines) -> Vec<u8> {
    let mut page = render(&lines);
    let records = records(&lines);
    let first = random.below(records.len() - 1);
    page[records[first].0 + 2] = (records[first + 1].1 - records[first].0) as u8;
    page
}

fn no_cr(random: &mut Random, lines: Lines) -> Vec<u8> {
    let mut page = render(&lines);
    let (_, after) = *random.pick(&records(&lines));
    page[after - 1] = *random.pick(&[0, 10, 12, 14, 32, 58, 255]);
    page
}

/// The end mark is gone or half gone, and perhaps something else in its place.
fn no_mark(random: &mut Random, lines: Lines) -> Vec<u8> {
    let mut page = render(&lines);
    page.truncate(page.len() - random.between(1, 2));
    if random.percent(50) {
        page.push(random.below(255) as u8);
        page.extend(bytes(random, 8));
    }
    page
}

fn cut(random: &mut Random, lines: Lines) -> Vec<u8> {
    let mut page = render(&lines);
    page.truncate(random.below(page.len()));
    page
}

fn changed(random: &mut Random, lines: Lines) -> Vec<u8> {
    let mut page = render(&lines);
    spoil(random, &mut page);
    page
}

fn garbage(random: &mut Random, _: Lines) -> Vec<u8> {
    bytes(random, 60)
}

/// Texts that have one, for which ":" in them is a place.
#[rustfmt::skip]
const READINGS: [&str; 21] = [
    "END", " END ", "END:END", "END : END", "REM", "REM :A:", "REM~^`", "END:REM:END", "PR \":\":END", "PR \"~:\"",
    "IF A REM:END:", "DO:IF A END:DO", "REMARK:END", "IFA>B GOTOX", "IFA REMARK:", "PRINTA:PRI", "GOTOP", "FORI=1TOB:NEXTI",
    "PRINT#1FORB", "A=STATORTOPANDNOTB", "IF1THENIF2RETURN",
];

/// Pages of a record or less.
#[rustfmt::skip]
const BROKEN: [&[u8]; 22] = [
    b"", b"\0", b"\xff", b"\r", b"\xff\xff", b"\xff\xfe", b"\xfe\xff", b"\0\0", b"\r\r", b"\xff\0", b"\xff\xff\xff",
    b"\xff\xff\r", b"\xff\xff\0\x07\x07END\r", b"\0\xff\xff", b"\0\x07\0\r\xff\xff", b"\0\x07\x01\r\xff\xff",
    b"\0\x07\x03\r\xff\xff", b"\0\x07\x04\r\xff\xff", b"\0\x07\x05\r\xff\xff", b"\0\x07\x07END\r",
    b"\0\x07\x08END\r\xff\xff", b"\0\x07\x09END\r\xff\xff",
];

/// Pages at the edges of the rules.
pub fn edges() -> Vec<Vec<u8>> {
    let line = |number, text: &str| render(&vec![(number, text.to_string())]);
    let mut pages: Vec<Vec<u8>> = BROKEN.iter().map(|page| page.to_vec()).collect();
    let texts = READINGS.iter().chain(&NO_READINGS);
    pages.extend(texts.map(|text| line(7, text)));
    let numbers = [0, 255, 256, 32_767, 32_768, 65_279, 65_280, 65_534, 65_535];
    pages.extend(numbers.map(|number| line(number, "END")));
    for number in [0, 9, 10, 99, 100, 999, 1000, 9999, 10_000, 32_767] {
        for kept in [72, 73] {
            let length = kept - number.to_string().len();
            pages.push(line(number, &padded("REM".to_string(), length)));
        }
    }
    pages.extend([58, 59, 60].map(filled));
    pages
}

/// A page of 4,096 bytes that 64 records fill, with room for the end mark where the last text has 58 bytes.
fn filled(last: usize) -> Vec<u8> {
    let texts = RULES.iter().cycle().zip(0..64);
    let line = |(text, number): (&&str, u16)| {
        let length = if number == 63 { last } else { 60 };
        (number, padded(text.to_string(), length))
    };
    let mut page = render(&texts.map(line).collect());
    page.truncate(4096);
    page
}
