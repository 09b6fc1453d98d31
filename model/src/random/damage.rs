//! Lines as they come out of a slip: good ones of every statement and command,
//! spoilt in one way, or seldom in two. Where one is wrong depends on what it is
//! a line of and on what went wrong, so both are told.

use std::collections::HashSet;
use std::ops::Range;

use super::pages::{render, squeeze};
use super::typed::WORDS;
use super::Random;
use crate::case::Case;
use crate::line::read_line;
use crate::tree::Tree;
use crate::typing::{class, is_text_byte, Class, LINE_LIMIT};
use crate::words::{Word, Words};

/// A line that came out of another one.
#[derive(Clone, Debug, PartialEq, Eq)]
pub struct Damaged {
    /// What the good line was, and what was done to it first.
    pub good: &'static str,
    pub way: &'static str,
    /// The bytes that are kept of it.
    pub line: Vec<u8>,
}

/// The table of refused lines that implementations are held to each other by.
const TABLE_SEED: u64 = 1976;
const TABLE_LENGTH: usize = 5_000;

/// Statements, by what they begin with or take.
#[rustfmt::skip]
pub const STATEMENTS: [(&str, &[&str]); 22] = [
    ("a variable", &["A=1", "B=-A+2*(C-1)", "Z = A<=B", "I=NOT I", "P=MOD(A+1,B)OR#1F", "A=B AND C OR D AND E"]),
    ("STAT", &["STAT=STAT OR 4", "STAT=(7)", "STAT = A OR B"]),
    ("@", &["@5=#1FF", "@(A+2)=@A", "@@7=TOP", "@MOD(A,8) = B AND C"]),
    ("$ and a string", &["$6=\"BARN\"", "$(A+1) = \"\"", "$A=\"IF:THEN\"", "$(B AND C)=\"OATS\""]),
    ("$ and $", &["$1=$0", "$(A OR B)=$(B*2)", "$A = $@5"]),
    ("LET", &["LET A=B+C", "LETSTAT=0", "LET @7=A=B", "LET $9=\"HAY\"", "LET$1=$2", "LET A = B OR C"]),
    ("GOTO", &["GOTO 10", "GOTOX", "GOTO A*10+(B>2)", "GO TO 30", "GO TO TOP", "GOTO A OR B"]),
    ("GOSUB", &["GOSUB 900", "GOSUBA", "GOSUB NOT A", "GO SUB 40", "GO SUBB/2", "GOSUB A AND (B OR C)"]),
    ("RETURN", &["RETURN"]),
    ("PR", &["PR A", "PR\"MILK\";", "PR 1,2,3", "PR$A,B-1", "PR A AND B,C OR D;"]),
    ("PRINT", &["PRINT \"COW\",C,STAT AND 3;", "PRINTA", "PRINT (A+B)*@7", "PRINT $5,\"A:B\"", "PRINT A OR B >= 2"]),
    ("IF", &["IF A=B C=1", "IFA>B GOTOX", "IF (A) AND B<>C RETURN", "IF 1 IF 2 END", "IF A@1=2", "IF A $1=\"X\"", "IF A GOTO B"]),
    ("THEN", &["IF A THEN END", "IF1THENPRINTA", "IF A<1 THEN IF B THEN DO", "IF NOT A THEN LET B=1"]),
    ("DO", &["DO"]),
    ("UNTIL", &["UNTIL A>9", "UNTILNOTA", "UNTIL (MOD(I,N)=0) OR (N>J)", "UNTIL A AND B"]),
    ("FOR", &["FOR I=1 TO 8", "FORI=1TOB", "FOR N = -1 TO (A+1)*2", "FOR I=#A TO TOP", "FOR I=A TO B"]),
    ("STEP", &["FOR I=9 TO 1 STEP -1", "FORI=1TO9STEPS", "FOR J=A TO B STEP MOD(A,3)"]),
    ("NEXT", &["NEXT I", "NEXTJ"]),
    ("INPUT", &["INPUT A", "INPUTA,B", "INPUT A , B,C"]),
    ("INPUT $", &["INPUT $5", "INPUT$(A+1)", "INPUT $ @B"]),
    ("REM", &["REM", "REMARK", "REM A:B \"C"]),
    ("END", &["END"]),
];

/// What is a whole line.
#[rustfmt::skip]
pub const LINES: [(&str, &[&str]); 6] = [
    ("NEW", &["NEW", " NEW "]),
    ("CLEAR", &["CLEAR", " CLEAR"]),
    ("LIST", &["LIST", "LIST 30", "LIST10", " LIST 32767"]),
    ("RUN", &["RUN", "  RUN"]),
    ("a number alone", &["10", "32767", " 00310 "]),
    ("a list", &[
        "10 A=1:B=2", "20FORI=1TO3:PRINTI;:NEXTI", "30 IF A DO:UNTIL B:REM :", "40 IF @(C+2)>M-5 THEN GOSUB 900: GOTO 40",
        "50 PRINT \"COW\",C,\" GATE \",STAT AND G;: IF A END: GO TO P OR Q", "60 FOR I=A TO B:T=T+@(I*2):NEXT I:$6=\"FULL\":IF A OR B STAT=4",
    ]),
];

/// Where a statement may stand. What is before it is good for any.
const PLACES: [&str; 6] = ["", "", "10 ", "32767", "10 A=1:", "IF B-1 THEN "];

type Way = fn(&mut Random, &mut Vec<u8>);

/// What may happen to a line that has a word. A way that finds nothing to spoil
/// leaves it.
pub const WAYS: [(&str, Way); 14] = [
    ("cut", cut),
    ("a byte changed", changed),
    ("a byte put in", put_in),
    ("a byte left out", left_out),
    ("two words swapped", swapped),
    ("a word doubled", doubled),
    ("a word left out", word_left_out),
    ("words joined", squeeze),
    ("a word parted", parted),
    ("a wrong keyword", wrong_keyword),
    ("a bracket or quote left out", unbracketed),
    ("a constant lengthened", lengthened),
    ("more behind it", more),
    ("a byte of no text", no_text),
];

fn cut(random: &mut Random, line: &mut Vec<u8>) {
    line.truncate(random.below(line.len()));
}

/// A byte that stands in texts.
fn text_byte(random: &mut Random) -> u8 {
    loop {
        let byte = match random.percent(60) {
            true => *random.pick(b"AEFGINOPRSTU#@$\"()=<>+-*/,;: 0129"),
            false => random.between(32, 126) as u8,
        };
        if is_text_byte(byte) {
            return byte;
        }
    }
}

fn changed(random: &mut Random, line: &mut Vec<u8>) {
    let at = random.below(line.len());
    line[at] = text_byte(random);
}

fn put_in(random: &mut Random, line: &mut Vec<u8>) {
    let at = random.below(line.len() + 1);
    line.insert(at, text_byte(random));
}

fn left_out(random: &mut Random, line: &mut Vec<u8>) {
    line.remove(random.below(line.len()));
}

/// The words of a line, as far as it has any.
fn words(line: &[u8]) -> Vec<Range<usize>> {
    let mut words = Words::new(line);
    let mut found = Vec::new();
    loop {
        match words.next_word() {
            (_, Word::Finish) => return found,
            (start, _) => found.push(start..words.position()),
        }
    }
}

fn swapped(random: &mut Random, line: &mut Vec<u8>) {
    let words = words(line);
    if words.len() > 1 {
        let at = random.below(words.len() - 1);
        let (left, right) = (words[at].clone(), words[at + 1].clone());
        let between = &line[left.end..right.start];
        let swapped = [&line[right.clone()], between, &line[left.clone()]].concat();
        line.splice(left.start..right.end, swapped);
    }
}

fn doubled(random: &mut Random, line: &mut Vec<u8>) {
    let word = random.pick(&words(line)).clone();
    let mut again = line[word.clone()].to_vec();
    if random.percent(50) {
        again.push(b' ');
    }
    line.splice(word.start..word.start, again);
}

fn word_left_out(random: &mut Random, line: &mut Vec<u8>) {
    let word = random.pick(&words(line)).clone();
    line.drain(word);
}

/// Puts a space into a word that has two bytes or more.
fn parted(random: &mut Random, line: &mut Vec<u8>) {
    let mut words = words(line);
    words.retain(|word| word.len() > 1);
    if !words.is_empty() {
        let word = random.pick(&words).clone();
        line.insert(random.between(word.start + 1, word.end - 1), b' ');
    }
}

/// Puts a keyword or a command in the place of a word.
fn wrong_keyword(random: &mut Random, line: &mut Vec<u8>) {
    let word = random.pick(&words(line)).clone();
    line.splice(word, random.pick(&WORDS).bytes());
}

fn unbracketed(random: &mut Random, line: &mut Vec<u8>) {
    let marks: Vec<usize> = (0..line.len())
        .filter(|&at| b"()\"".contains(&line[at]))
        .collect();
    if !marks.is_empty() {
        line.remove(*random.pick(&marks));
    }
}

/// Puts digits behind one.
fn lengthened(random: &mut Random, line: &mut Vec<u8>) {
    let digits: Vec<usize> = (0..line.len())
        .filter(|&at| line[at].is_ascii_digit())
        .collect();
    if !digits.is_empty() {
        let at = *random.pick(&digits) + 1;
        let more = (0..random.between(1, 5)).map(|_| random.between(48, 57) as u8);
        let more: Vec<u8> = more.collect();
        line.splice(at..at, more);
    }
}

fn more(random: &mut Random, line: &mut Vec<u8>) {
    let pieces = [
        " A", "A", " 1", "=", ")", ",", ";", ":", " THEN", "\"", "#", " B=2", ":END", "+", "$1",
        " TO",
    ];
    line.extend(random.pick(&pieces).bytes());
}

/// Changes a byte to one that is kept and stands in no text, or puts it in.
fn no_text(random: &mut Random, line: &mut Vec<u8>) {
    let byte = loop {
        let byte = random.byte();
        if class(byte) == Class::Other && !is_text_byte(byte) {
            break byte;
        }
    };
    let at = random.below(line.len());
    match random.percent(50) {
        true => line[at] = byte,
        false => line.insert(at, byte),
    }
}

/// A good line of a kind: of all kinds, those of statements come first.
fn good(random: &mut Random, kind: usize) -> (&'static str, Vec<u8>) {
    let Some((name, statements)) = STATEMENTS.get(kind) else {
        let (name, lines) = LINES[kind - STATEMENTS.len()];
        return (name, random.pick(lines).as_bytes().to_vec());
    };
    let place = *random.pick(&PLACES);
    let statement = *random.pick(statements);
    (name, [place, statement].concat().into_bytes())
}

/// A damaged line of a kind. It may still have a reading. Without a second slip
/// now and then there would be only so many lines of DO.
fn damaged(random: &mut Random, kind: usize) -> Damaged {
    let (good, mut line) = good(random, kind);
    let (way, spoil) = *random.pick(&WAYS);
    spoil(random, &mut line);
    if random.percent(10) && !words(&line).is_empty() {
        let (_, spoil) = *random.pick(&WAYS);
        spoil(random, &mut line);
    }
    line.truncate(LINE_LIMIT);
    Damaged { good, way, line }
}

/// A damaged line of any kind.
pub fn any(random: &mut Random) -> Vec<u8> {
    let kind = random.below(STATEMENTS.len() + LINES.len());
    damaged(random, kind).line
}

/// So many different damaged lines that have no reading, of each kind in turn.
pub fn refused(random: &mut Random, count: usize) -> Vec<Damaged> {
    let mut seen = HashSet::new();
    let mut refused = Vec::with_capacity(count);
    while refused.len() < count {
        let kind = refused.len() % (STATEMENTS.len() + LINES.len());
        let damaged = damaged(random, kind);
        let none = read_line(&mut Tree::default(), &damaged.line).is_none();
        if none && seen.insert(damaged.line.clone()) {
            refused.push(damaged);
        }
    }
    refused
}

/// The table: the same at every call.
pub fn table() -> Vec<Damaged> {
    refused(&mut Random::new(TABLE_SEED), TABLE_LENGTH)
}

/// The call that types a line on a page with a line in it and room for more.
pub fn typed(line: &[u8]) -> Case {
    let mut page = render(&vec![(20, " END".to_string())]);
    page.resize(100, 0);
    Case {
        memory: vec![13; 8],
        output: vec![0; 20],
        budget: 5,
        ..Case::typed(page, &[line, b"\r"].concat())
    }
}
