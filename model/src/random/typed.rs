//! Typed lines and replies, as bytes of the input.

use super::damage;
use super::pages::{spoil, squeeze, Lines};
use super::texts::{Scribe, Setting};
use super::{Random, Size};

/// Lines where the longest word, or the grammar, decides in a way that is easy
/// to get wrong.
#[rustfmt::skip]
const TRICKY: [&str; 70] = [
    "PRINT #1FOR 2", "PRINT #5AND 3", "PRINT #", "PRINT # 5", "PRINT1", "PRINTA", "PRINT 1<2<3",
    "PRINT 1< =2", "PRINT 1=<2", "PRINT 1><2", "PRINT 1<>=2", "PRINT -32768", "PRINT 32768",
    "PRINT 2--3", "PRINT 2*-3", "PRINT NOT -1", "PRINT @-1", "PRINT 1=-1", "PRINT (-1)", "PRINT",
    "PRINT 1,", "PRINT 1;2", "PRINT \"A\"\"B\"", "PRINT \"", "PRINT \"\"", "IF A=B=C", "A=B=C",
    "IF A B=C", "IF A=B C=1", "IF A@1=2", "IF A THEN THEN END", "IF A REM:", "REM", "REM1",
    "REMARK", "REM A:B", "A=1:B=2", "END:", ":", "GO TO 1", "GO  SUB 1", "GOTO", "GO 1",
    "LET RETURN", "$0=1", "$0=$1", "A=$1", "NEW 5", "GOTOX", "IFA>B GOTOX", "IFA>BGOTOX", "GOTOP", "GO TOP",
    "PRI", "PRIN", "AANDB", "A=AANDB", "A=BORC", "IFADO", "IFA DO", "FORI=1TOP", "FORI=1TOB", "PRINT#1FORB",
    "PRINT#5ANDB", "A=STATORTOP", "NEWA=1", "RUNX", "LISTA", "LIST10", "IF1THENEND",
];

/// The keywords and the commands.
#[rustfmt::skip]
pub const WORDS: [&str; 29] = [
    "LET", "GO", "TO", "SUB", "GOTO", "GOSUB", "RETURN", "PR", "PRINT", "IF", "THEN", "DO", "UNTIL",
    "FOR", "STEP", "NEXT", "INPUT", "REM", "END", "STAT", "TOP", "MOD", "AND", "OR", "NOT", "NEW",
    "CLEAR", "LIST", "RUN",
];

/// The kept bytes of a typed line: mostly one that has a reading.
pub fn line(random: &mut Random, setting: Setting) -> Vec<u8> {
    let mut line = match random.weighted(&[45, 14, 20, 14, 7, 11, 6, 2, 7, 5, 14]) {
        0 => b"RUN".to_vec(),
        1 => jump(random, setting),
        2 => immediate(random, setting),
        3 => numbered(random, setting),
        4 => deletion(random, setting),
        5 => command(random),
        6 => written(random, setting, Scribe::program_only),
        7 => vec![b' '; random.below(4)],
        8 => tricky(random),
        9 => heap(random),
        _ => damage::any(random),
    };
    if random.percent(12) {
        squeeze(random, &mut line);
    }
    if random.percent(9) {
        spoil(random, &mut line);
    }
    if random.percent(8) {
        line.insert(0, b' ');
    }
    line
}

fn tricky(random: &mut Random) -> Vec<u8> {
    let text = *random.pick(&TRICKY);
    perhaps_numbered(random, text)
}

fn perhaps_numbered(random: &mut Random, text: &str) -> Vec<u8> {
    match random.percent(40) {
        true => format!("{}{text}", random.below(40)).into_bytes(),
        false => text.as_bytes().to_vec(),
    }
}

/// Words, fronts of words, letters and other pieces, all written together.
fn heap(random: &mut Random) -> Vec<u8> {
    let mut text = String::new();
    for _ in 0..random.between(1, 4) {
        let word = *random.pick(&WORDS);
        text += match random.weighted(&[40, 10, 25, 25]) {
            0 => word,
            1 => &word[..random.between(1, word.len())],
            2 => *random.pick(&["A", "B", "I", "P", "X"]),
            _ => *random.pick(&["=", "1", "#1", ">", "(A)", ",", ":", " "]),
        };
    }
    perhaps_numbered(random, &text)
}

fn written<'a>(
    random: &'a mut Random,
    setting: Setting<'a>,
    write: fn(&mut Scribe<'a>),
) -> Vec<u8> {
    let mut scribe = Scribe::new(random, setting);
    write(&mut scribe);
    scribe.finish().into_bytes()
}

fn jump(random: &mut Random, setting: Setting) -> Vec<u8> {
    match random.percent(50) {
        true => written(random, setting, Scribe::goto),
        false => written(random, setting, Scribe::gosub),
    }
}

fn immediate(random: &mut Random, setting: Setting) -> Vec<u8> {
    match random.percent(6) {
        true => written(random, setting, Scribe::list),
        false => written(random, setting, Scribe::immediate),
    }
}

/// A line number, mostly at or beside one that is there.
fn number(random: &mut Random, setting: Setting) -> String {
    let number = match setting.lines {
        [] => random.below(40),
        lines => usize::from(*random.pick(lines)) + random.weighted(&[10, 5, 2]),
    };
    match random.below(25) {
        0 => "32768".to_string(),
        1 => "32767".to_string(),
        2 => random.below(100_000).to_string(),
        3 => format!("000{number}"),
        _ => number.to_string(),
    }
}

fn numbered(random: &mut Random, setting: Setting) -> Vec<u8> {
    let mut line = number(random, setting).into_bytes();
    if random.percent(60) {
        line.push(b' ');
    }
    line.extend(written(random, setting, Scribe::list));
    line
}

fn deletion(random: &mut Random, setting: Setting) -> Vec<u8> {
    let mut line = number(random, setting).into_bytes();
    line.extend(vec![b' '; random.below(3)]);
    line
}

fn command(random: &mut Random) -> Vec<u8> {
    let list = match random.below(8) {
        0 => "LIST 32768".to_string(),
        1 => "LIST #5".to_string(),
        2 => format!("LIST{}", random.below(30)),
        _ => format!("LIST {}", random.below(30)),
    };
    let commands = [
        "NEW", "CLEAR", "LIST", "LIST", &list, &list, "RUN 5", "CLEAR:",
    ];
    random.pick(&commands).as_bytes().to_vec()
}

/// Bytes that keep this line when they are typed: with slips and their
/// corrections, and bytes that are dropped.
pub fn with_slips(random: &mut Random, line: &[u8]) -> Vec<u8> {
    let mut typed = Vec::new();
    if random.percent(25) {
        let length = random.between(0, 90);
        typed.extend((0..length).map(|_| random.between(32, 126) as u8));
        typed.push(21);
    }
    for &byte in line {
        match random.below(12) {
            0 => typed.extend_from_slice(&[*random.pick(b"X\"1\x01"), 95]),
            1 => typed.push(*random.pick(&[0, 10])),
            _ => {}
        }
        typed.push(byte);
    }
    typed
}

/// A typed line as it comes in, with its CR or without.
pub fn typed_line(random: &mut Random, setting: Setting) -> Vec<u8> {
    let mut kept = line(random, setting);
    let stretched = match setting.size {
        Size::Small => 1,
        Size::Full => 4,
    };
    if random.percent(stretched) {
        // At, just below and above the limit of 72.
        let length = random.between(70, 75);
        kept.resize(length, b' ');
    }
    let mut typed = match random.percent(12) {
        true => with_slips(random, &kept),
        false => kept,
    };
    if random.percent(96) {
        typed.push(13);
    }
    typed
}

/// What stands behind a typed line, for INPUT statements to take.
pub fn replies(random: &mut Random, setting: Setting) -> Vec<u8> {
    let mut input = Vec::new();
    for _ in 0..random.below(5) {
        let mut reply = match random.weighted(&[60, 5, 3, 4, 4]) {
            0 => written(random, setting, Scribe::reply),
            1 => b"A\x01\xff \"".to_vec(),
            2 => Vec::new(),
            3 => vec![b'1'; random.between(70, 76)],
            _ => heap(random),
        };
        if random.percent(15) {
            squeeze(random, &mut reply);
        }
        if random.percent(15) {
            spoil(random, &mut reply);
        }
        if random.percent(8) {
            reply = with_slips(random, &reply);
        }
        input.extend(reply);
        if random.percent(95) {
            input.push(13);
        }
    }
    input
}

/// The numbers of a program's lines.
pub fn line_numbers(lines: &Lines) -> Vec<u16> {
    lines.iter().map(|(number, _)| *number).collect()
}
