//! Does a piece of work round after round, for its time to be held against that of the proved code.
//!
//!     rounds <INPUT               the work; writes the sum of what the rounds found
//!     rounds input WORK ROUNDS    writes such an input
//!
//! The input has the work's number, the number of rounds (at most 32,767), LF, and the bytes to work on. A WORK with a letter
//! behind its number is the same work on other bytes.

#![forbid(unsafe_code)]

use std::hint::black_box;
use std::io::{self, Read, Write};

use model::line::LineNumber;
use model::page::{read_page, records, store, Program, END_MARK};
use model::reader::read_list;
use model::rules::{empty_page, full_page, RULES, TOGETHER};
use model::table::{walk, TABLE_LEAST};
use model::tree::Tree;
use model::value::printed;
use model::words::{Word, Words};
use model::{continue_run, load, save, take_line};
use model::{ForEntry, ForStack, Lent, Pause, Place, PlaceStack, Record};

/// A line in the middle of a full page of rule lines, and the texts that it has in turn, of which the second is its own.
const MIDDLE: LineNumber = LineNumber(510);
const EDITS: [&str; 2] = [RULES[0], RULES[3]];

/// The same line as it is typed, with one of two digits, and where the page has the digit.
const LINES: [&str; 2] = [
    "510 PRINT \"COW\",C,\" GATE \",STAT AND 3;: REM OPEN: SHUT\r",
    "510 PRINT \"COW\",C,\" GATE \",STAT AND 4;: REM OPEN: SHUT\r",
];
const CHANGED: usize = 2005;

/// Rule lines without remarks, one after the other, as many as fit a page.
fn text() -> Vec<u8> {
    let rules = RULES.iter().filter(|rule| !rule.contains("REM"));
    let text: Vec<u8> = rules
        .cycle()
        .take(200)
        .flat_map(|rule| [rule, ":"].concat().into_bytes())
        .collect();
    text[..4096].to_vec()
}

/// The sum of the numbers of a text's words, up to its end or to where no word stands.
fn words(text: &[u8]) -> u16 {
    let mut words = Words::new(text);
    let mut sum: u16 = 0;
    loop {
        let number = match words.next_word().1 {
            Word::Variable(letter) => u16::from(letter),
            Word::Keyword(keyword) => 128 + keyword as u16,
            Word::Decimal(value) | Word::Hex(value) => value,
            Word::Quoted(..) => 0,
            Word::Mark(byte) => u16::from(byte),
            Word::AtMost => 1,
            Word::AtLeast => 2,
            Word::Unequal => 3,
            Word::Finish | Word::Nothing => return sum,
        };
        sum = sum.wrapping_add(number);
    }
}

/// A page of 200 lines, each of one statement.
fn lines() -> Vec<u8> {
    program(4096, numbers().map(|number| (number.0, RULES[0])))
}

fn numbers() -> impl Iterator<Item = LineNumber> {
    (0..200).map(|line| LineNumber(line * 7))
}

/// A page of 190 lines, each of one statement, whose numbers have one to five digits.
fn wide_lines() -> Vec<u8> {
    let numbers = (0..5).flat_map(|power| {
        let least = 10u16.pow(power);
        let last = least.saturating_mul(10).min(32_768);
        (least..last).step_by(usize::from((last - least) / 45).max(1))
    });
    program(4096, numbers.map(|number| (number, RULES[0])))
}

/// A page of 600 lines, as short as can be: of the numbers below 660 every eleventh is not there.
fn short_lines() -> Vec<u8> {
    let numbers = (0..660).filter(|number| number % 11 != 10);
    program(3602, numbers.map(|number| (number, "DO")))
}

/// Every third number, all over that page: 200 are there, and 20 are not.
fn spread() -> impl Iterator<Item = LineNumber> {
    (0..660).step_by(3).map(LineNumber)
}

/// A table of a page, to be lent.
fn table(page: &[u8]) -> Vec<u16> {
    let mut table = walk(page);
    table.resize(TABLE_LEAST, 0);
    table
}

fn read(page: &[u8]) -> Program {
    read_page(page).expect("a good page")
}

fn add(sum: u16, found: impl Into<usize>) -> u16 {
    sum.wrapping_add(found.into() as u16)
}

/// The sum of where the members of a page's texts end.
fn members(page: &[u8]) -> u16 {
    let mut tree = Tree::with_room(page.len());
    let mut sum = 0;
    for (_, text) in records(page) {
        read_list(&mut tree, text, |member| sum = add(sum, member.end)).expect("a reading");
    }
    black_box(tree);
    sum
}

/// The middle line gets one text and then the other; a byte behind it after each. What `read` answers is the page read.
fn edits<P: std::borrow::Borrow<Program>>(page: &mut [u8], read: [impl Fn(&[u8]) -> P; 2]) -> u16 {
    let mut sum = 0;
    for (text, read) in EDITS.iter().zip(read) {
        let program = read(page);
        assert!(store(page, program.borrow(), MIDDLE, text.as_bytes()));
        sum = add(sum, page[2600]);
    }
    sum
}

/// A line's record is replaced where a walk along the records finds it, and the end mark where the walk ends.
fn replace(page: &mut [u8], number: LineNumber, text: &[u8]) {
    let number = number.0.to_be_bytes();
    let (mut at, mut gone, mut end) = (0, 0, 0);
    for (start, text) in records(page) {
        end = start + text.len() + 4;
        if page[start..start + 2] == number {
            (at, gone) = (start, text.len() + 4);
        }
    }
    let past = at + text.len() + 4;
    page.copy_within(at + gone..end + 2, past);
    page[at..at + 2].copy_from_slice(&number);
    page[at + 2] = (past - at) as u8;
    page[at + 3..past - 1].copy_from_slice(text);
    page[past - 1] = b'\r';
}

/// The same edits by that walk.
fn walked_edits(page: &mut [u8]) -> u16 {
    EDITS.iter().fold(0, |sum, text| {
        replace(page, black_box(MIDDLE), text.as_bytes());
        add(sum, page[2600])
    })
}

/// The place before each line of the page, by a program that is read or by one that is made anew for each.
fn finds<P: std::borrow::Borrow<Program>>(read: impl Fn() -> P) -> u16 {
    numbers().fold(0, |sum, number| {
        let program = read();
        let step = program.borrow().find(black_box(number));
        match step.map(|step| program.borrow().pause_before(step)) {
            None => sum,
            Some(Pause::Start) => add(sum, 1usize),
            Some(Pause::After(place)) => add(sum, place.0 + 2),
        }
    })
}

/// The same of these numbers by a walk along the records.
fn walks(page: &[u8], numbers: impl Iterator<Item = LineNumber>) -> u16 {
    numbers.fold(0, |sum, number| {
        let number = black_box(number).0.to_be_bytes();
        let found = records(black_box(page)).find(|&(start, _)| page[start..start + 2] == number);
        add(sum, found.map_or(0, |(start, _)| start + 1))
    })
}

/// The same by halves over a table of the page.
fn halves(page: &[u8], table: &[u16], numbers: impl Iterator<Item = LineNumber>) -> u16 {
    let places = &table[1..=usize::from(table[0])];
    numbers.fold(0, |sum, number| {
        let number = black_box(number).0.to_be_bytes();
        let found = places.binary_search_by_key(&number, |&place| {
            let at = usize::from(place);
            [page[at], page[at + 1]]
        });
        add(sum, found.map_or(0, |line| usize::from(places[line]) + 1))
    })
}

/// A page of these lines.
fn program(length: usize, lines: impl IntoIterator<Item = (u16, &'static str)>) -> Vec<u8> {
    let mut page = empty_page(length);
    for (number, text) in lines {
        let program = read(&page);
        let number = LineNumber(number);
        assert!(store(&mut page, &program, number, text.as_bytes()));
    }
    page
}

/// A loop of assignments that has no end.
fn assigning() -> Vec<u8> {
    let texts = [" FOR I=1 TO 1000", " A=A+I*2:B=A-1", " NEXT I:GOTO 0"];
    program(256, (0..).zip(texts))
}

/// Two loops in one another, with an IF in the inner one.
fn nested() -> Vec<u8> {
    let texts = [
        " FOR I=1 TO 1000",
        " FOR J=1 TO 1000",
        " A=I*3-J/7",
        " IF A>J B=B+1",
        " NEXT J",
        " NEXT I",
        " GOTO 10",
    ];
    program(256, (10..).step_by(10).zip(texts))
}

/// A GOSUB to the last of 336 lines, again and again.
fn calling() -> Vec<u8> {
    let front = [(0, " GOSUB 335"), (1, " GOTO 0")];
    let between = (2..335).map(|number| (number, " A=A+B*2"));
    let lines = front.into_iter().chain(between);
    program(4096, lines.chain([(335, " RETURN")]))
}

/// A run from the program's start, lent no more than the page and perhaps its table: its steps, and variable A.
fn steps(page: &mut [u8], table: Option<&mut [u16]>) -> u16 {
    let mut record = Record {
        paused: Some(Pause::Start),
        ..Record::default()
    };
    let lent = Lent {
        page,
        memory: &mut [0],
        input: &[],
        output: &mut [0],
        input_position: 0,
        output_position: 0,
        sense: 0,
        budget: 32_767,
        table,
    };
    let answer = continue_run(&mut record, lent);
    add(record.variables[0] as u16, answer.steps as usize)
}

/// A record whose stacks are full and that is paused: 21 places, all of them the CR of the line before the middle one.
fn full() -> Record {
    let place = Place(1968);
    let stack = PlaceStack {
        depth: 8,
        places: [place; 8],
    };
    let entry = ForEntry {
        variable: 8,
        limit: 8,
        step: 1,
        place,
    };
    Record {
        gosubs: stack,
        dos: stack,
        fors: ForStack {
            depth: 4,
            entries: [entry; 4],
        },
        paused: Some(Pause::After(place)),
        ..Record::default()
    }
}

/// A typed line: the stop, the column, how far the input was taken, and how many places are left.
fn take(page: &mut [u8], mut record: Record, input: &[u8]) -> u16 {
    let lent = Lent {
        input,
        page,
        memory: &mut [0],
        output: &mut [0],
        input_position: 0,
        output_position: 0,
        sense: 0,
        budget: 0,
        table: None,
    };
    let answer = take_line(&mut record, lent);
    let found = [
        answer.stop as usize,
        answer.column as usize,
        answer.input_position as usize,
        record.gosubs.depth,
    ];
    found.into_iter().fold(0, add)
}

/// The middle line of a full page is typed anew, with the other one of two digits: the page stays as full as it was. Its sum
/// has the page's byte that the line changes.
fn typed(page: &mut [u8], record: Record) -> u16 {
    let line = LINES[usize::from(page[CHANGED] == b'3')];
    let sum = take(page, record, line.as_bytes());
    add(sum, page[CHANGED])
}

/// A line that prints, typed on a page: the steps that it takes till the output is full or nothing is left to print, where its
/// output ends, and a byte of it.
fn prints(page: &mut [u8], line: &str) -> u16 {
    let output = &mut [0; 4096];
    let lent = Lent {
        input: line.as_bytes(),
        page,
        memory: &mut [0],
        output,
        input_position: 0,
        output_position: 0,
        sense: 0,
        budget: 32_767,
        table: None,
    };
    let answer = take_line(&mut Record::default(), lent);
    let found = [answer.steps as usize, answer.output_position as usize];
    add(found.into_iter().fold(0, add), output[2000])
}

/// Bytes of the memory that is saved, and of the form of a full page with it.
const MEMORY: usize = 1024;
const FORM: usize = 56 + 4096 + MEMORY;

/// A page and its memory lent, and this room for a form.
fn lent<'a>(page: &'a mut [u8], memory: &'a mut [u8], output: &'a mut [u8]) -> Lent<'a> {
    Lent {
        page,
        memory,
        input: &[],
        output,
        input_position: 0,
        output_position: 0,
        sense: 0,
        budget: 0,
        table: None,
    }
}

/// A page and a memory are saved: the stop, where the form ends, and a byte of it.
fn saves(page: &mut [u8]) -> u16 {
    let output = &mut [0; FORM];
    let answer = save(&Record::default(), lent(page, &mut [7; MEMORY], output));
    let found = [answer.stop as usize, answer.output_position as usize];
    add(found.into_iter().fold(0, add), output[2000])
}

/// A form is loaded: the stop, a byte of the page, and one of the memory.
fn loads(form: &[u8]) -> u16 {
    let (page, memory) = (&mut [0; 4096], &mut [0; MEMORY]);
    let answer = load(&mut Record::default(), lent(page, memory, &mut []), form);
    let found = [page[2000], memory[1000]].map(usize::from);
    found.into_iter().fold(answer.stop as u16, add)
}

/// The form of a full page.
fn saved() -> Vec<u8> {
    let mut output = vec![0; FORM];
    let mut page = full_page(&RULES);
    save(
        &Record::default(),
        lent(&mut page, &mut [7; MEMORY], &mut output),
    );
    output
}

/// Numbers of one to five digits, and a program that prints them till the output is full.
const NUMBERS: [i16; 5] = [7, 42, -510, 1976, -30005];

fn printing() -> Vec<u8> {
    program(256, [(0, " PRINT 7,42,-510,1976,-30005;:GOTO 0")])
}

/// How many values are written: these numbers again and again.
const VALUES: usize = 1000;

/// The two bytes of each of them, and room to write them behind.
fn values() -> Vec<u8> {
    let numbers = NUMBERS.iter().cycle().take(VALUES);
    let values = numbers.flat_map(|number| number.to_be_bytes());
    values.chain([0; 5000]).collect()
}

/// The values of the first bytes are written behind them, one after the other: where they end, and the last digit.
fn numbers_written(bytes: &mut [u8]) -> u16 {
    let (values, room) = bytes.split_at_mut(2 * VALUES);
    let mut end = 0;
    for value in values.chunks(2) {
        let item = printed(i16::from_be_bytes([value[0], value[1]]));
        room[end..end + item.len()].copy_from_slice(item.as_bytes());
        end += item.len();
    }
    add(add(0, values.len() + end), room[end - 2])
}

/// A line that is typed on an empty page.
fn alone(line: &[u8]) -> u16 {
    take(&mut [END_MARK[0]; 128], Record::default(), line)
}

/// Lines for it: three that are refused, of which the second's spot takes long to find, and some that are not.
const ALONE: [(&str, &str); 7] = [
    ("14a", "PRIMT A\r"),
    (
        "14b",
        "10 IF A=1 IF B=1 IF C=1 IF D=1 X \"#####################################\"\r",
    ),
    (
        "14c",
        "A=B AND C AND D AND E AND F AND G AND H AND I AND J AND K AND L AND M AN\r",
    ),
    ("14d", "LET B=A*2\r"),
    ("14e", "A=A+1\r"),
    ("14f", "LIST 10\r"),
    ("14g", "10 IF A>B GOTO 10\r"),
];

/// What a piece of work works on.
fn input(work: &str) -> Option<Vec<u8>> {
    match work {
        "0" => Some(text()),
        "1t" => Some(full_page(&TOGETHER)),
        "1" | "2" | "3" | "4" | "8" | "10" | "11" | "21" => Some(full_page(&RULES)),
        "5" | "6" | "7" => Some(lines()),
        "9" => Some(assigning()),
        "12" => Some(nested()),
        "13" | "17" => Some(calling()),
        "15" | "16" => Some(short_lines()),
        "18" => Some(values()),
        "19" => Some(printing()),
        "20" => Some(wide_lines()),
        "22" => Some(saved()),
        _ => {
            let (_, line) = ALONE.iter().find(|(name, _)| *name == work)?;
            Some(line.as_bytes().to_vec())
        }
    }
}

/// Splits an input into the work's number, the number of rounds and the bytes.
fn parts(input: &[u8]) -> Option<(&str, u16, &[u8])> {
    let end = input.iter().position(|&byte| byte == b'\n')?;
    let head = std::str::from_utf8(&input[..end]).ok()?;
    let (work, rounds) = head.split_once(' ')?;
    Some((work, rounds.parse().ok()?, &input[end + 1..]))
}

/// The sum of what the rounds find.
fn repeat(rounds: u16, mut round: impl FnMut() -> u16) -> u16 {
    (0..rounds).fold(0, |sum, _| sum.wrapping_add(round()))
}

fn run(input: &[u8]) -> Option<u16> {
    let (work, rounds, bytes) = parts(input)?;
    let page = &mut bytes.to_vec()[..];
    match work {
        "0" => Some(repeat(rounds, || words(black_box(bytes)))),
        "1" => Some(repeat(rounds, || members(black_box(bytes)))),
        "2" => {
            let before = &read(page);
            store(page, before, MIDDLE, EDITS[0].as_bytes());
            let between = &read(page);
            let page = &mut bytes.to_vec()[..];
            Some(repeat(rounds, || {
                edits(
                    black_box(page),
                    [before, between].map(|read| move |_: &[u8]| read),
                )
            }))
        }
        "3" => Some(repeat(rounds, || edits(black_box(page), [read, read]))),
        "4" => Some(repeat(rounds, || walked_edits(black_box(page)))),
        "5" => {
            let program = &read(page);
            Some(repeat(rounds, || finds(|| black_box(program))))
        }
        "6" => Some(repeat(rounds, || finds(|| read(black_box(page))))),
        "7" => Some(repeat(rounds, || walks(page, numbers()))),
        "8" => Some(repeat(rounds, || {
            read_page(black_box(page)).is_some().into()
        })),
        "9" | "12" | "13" => Some(repeat(rounds, || steps(black_box(page), None))),
        "10" => Some(repeat(rounds, || typed(black_box(page), Record::default()))),
        "11" => Some(repeat(rounds, || typed(black_box(page), full()))),
        "14" => Some(repeat(rounds, || alone(black_box(bytes)))),
        "15" => Some(repeat(rounds, || walks(page, spread()))),
        "16" => {
            let table = &table(page);
            Some(repeat(rounds, || {
                halves(black_box(page), black_box(table), spread())
            }))
        }
        "17" => {
            let table = &mut table(page);
            Some(repeat(rounds, || steps(black_box(page), Some(table))))
        }
        "18" => Some(repeat(rounds, || numbers_written(black_box(page)))),
        "19" => Some(repeat(rounds, || prints(black_box(page), "RUN\r"))),
        "20" => Some(repeat(rounds, || prints(black_box(page), "LIST\r"))),
        "21" => Some(repeat(rounds, || saves(black_box(page)))),
        "22" => Some(repeat(rounds, || loads(black_box(bytes)))),
        _ => None,
    }
}

fn main() -> io::Result<()> {
    let arguments: Vec<String> = std::env::args().skip(1).collect();
    if let [order, work, rounds] = arguments.as_slice() {
        assert_eq!(order, "input");
        let bytes = input(work).expect("a known work");
        let number = work.trim_end_matches(|end: char| end.is_ascii_lowercase());
        io::stdout().write_all(format!("{number} {rounds}\n").as_bytes())?;
        return io::stdout().write_all(&bytes);
    }
    let mut given = Vec::new();
    io::stdin().read_to_end(&mut given)?;
    let sum = run(&given).expect("an input of a known work");
    println!("{sum}");
    Ok(())
}
