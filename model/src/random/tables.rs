//! Tables of line places: true ones, false ones of each kind and short ones; and lists of cases that lend them, always the
//! same ones, to hold implementations to each other by.

use super::pages::{render, Lines};
use super::{Random, Size};
use crate::case::{Call, Case};
use crate::page::{read_page, END_MARK};
use crate::record::{Pause, Place};
use crate::stop::Stop;
use crate::table::{walk, TABLE_LEAST};

/// Spoils a true table of a page with so many lines.
pub type Way = fn(table: &mut [u16], lines: usize);

/// Ways that make a table false, if the page has the lines they need.
#[rustfmt::skip]
pub const FALSE: [(&str, Way); 17] = [
    ("a count one low", |table, _| table[0] = table[0].wrapping_sub(1)),
    ("a count one high", |table, _| table[0] += 1),
    ("a count of 0", |table, _| table[0] = 0),
    ("a count with another high byte", |table, _| table[0] ^= 256),
    ("the highest count", |table, _| table[0] = u16::MAX),
    ("the count left out", |table, _| table.rotate_left(1)),
    ("a number before the count", |table, _| table.rotate_right(1)),
    ("the first place one high", |table, lines| change(places(table, lines).first_mut(), 1)),
    ("a middle place one high", |table, lines| change(places(table, lines).get_mut(lines / 2), 1)),
    ("a middle place with another high byte", |table, lines| change(places(table, lines).get_mut(lines / 2), 256)),
    ("the last place one low", |table, lines| change(places(table, lines).last_mut(), u16::MAX)),
    ("the last place one high", |table, lines| change(places(table, lines).last_mut(), 1)),
    ("the last two places swapped", |table, lines| if lines > 1 { table.swap(lines - 1, lines) }),
    ("the first and the last place swapped", |table, lines| table.swap(lines.min(1), lines)),
    ("the first place left out", |table, _| table.copy_within(2.., 1)),
    ("the first place twice", |table, lines| table.copy_within(1..lines.max(1), 2)),
    ("the places of the texts", |table, lines| places(table, lines).iter_mut().for_each(|place| *place += 3)),
];

/// Lengths below the least.
const SHORT: [usize; 6] = [0, 1, 2, 4, 683, TABLE_LEAST - 1];

fn places(table: &mut [u16], lines: usize) -> &mut [u16] {
    &mut table[1..=lines]
}

fn change(place: Option<&mut u16>, by: u16) {
    if let Some(place) = place {
        *place = place.wrapping_add(by);
    }
}

/// What a table of this page begins with; of a bad page, that of one without lines.
fn front(page: &[u8]) -> Vec<u16> {
    read_page(page).map_or(vec![0], |_| walk(page))
}

/// A table that describes the page, if that is good. Past the last line it holds what a longer program left, or anything.
pub fn true_table(random: &mut Random, size: Size, page: &[u8]) -> Vec<u16> {
    let mut table = front(page);
    for more in 0..random.below(8) {
        let number = match random.below(3) {
            0 => random.below(65_536),
            1 => random.below(page.len() + 4),
            _ => 8 * (table.len() + more),
        };
        table.push(number as u16);
    }
    let length = match (size, random.below(8)) {
        (Size::Full, 0) => random.between(TABLE_LEAST, 6000),
        (_, 1) => TABLE_LEAST + 1,
        _ => TABLE_LEAST,
    };
    let filler = *random.pick(&[0, 0, 1, 6, 4096, 65_535]);
    table.resize(length, filler);
    table
}

/// None, a true one, one that is false in most pages, or a short one.
pub fn any_table(random: &mut Random, size: Size, page: &[u8]) -> Option<Vec<u16>> {
    let mut table = true_table(random, size, page);
    let lines = front(page).len() - 1;
    match random.weighted(&[35, 52, 8, 3, 2]) {
        0 => return None,
        1 => {}
        2 => random.pick(&FALSE).1(&mut table, lines),
        3 => table[random.below(lines + 2)] = random.below(page.len() + 4) as u16,
        _ => table.truncate(*random.pick(&SHORT)),
    }
    Some(table)
}

/// A true table of the least length, in which every number past the last line is another one.
fn tabled(page: &[u8]) -> Vec<u16> {
    let mut table = front(page);
    let behind = table.len() as u16;
    table.extend((behind..TABLE_LEAST as u16).map(|at| 40_000 + at));
    table
}

/// The same, made false in a way.
fn falsely(page: &[u8], way: Way) -> Vec<u16> {
    let mut table = tabled(page);
    way(&mut table, front(page).len() - 1);
    table
}

/// A call with a GOSUB open that fits any page.
fn call(call: Call, page: Vec<u8>, input: &[u8], table: Option<Vec<u16>>) -> Case {
    let mut case = Case {
        call,
        memory: vec![13; 8],
        output: vec![0; 60],
        budget: 9,
        table,
        ..Case::typed(page, input)
    };
    case.record.gosubs.push(Place::IMMEDIATE);
    case
}

fn program(lines: &[(u16, &str)], room: usize) -> Vec<u8> {
    let lines: Lines = lines
        .iter()
        .map(|&(number, text)| (number, text.to_string()))
        .collect();
    let mut page = render(&lines);
    page.resize(page.len() + room, 171);
    page
}

/// Every table, beside everything else that may be refused: each case with the refusal that comes first, if there is one.
/// The order is 1, 18, 26, 19, and 7 of a typed line.
pub fn refusals() -> Vec<(Case, Option<Stop>)> {
    let page = program(
        &[(10, " A=A+1"), (20, " IF A<3 GOTO 10"), (300, " END")],
        20,
    );
    let mut tables = vec![(None, None), (Some(tabled(&page)), None)];
    tables.extend(FALSE.map(|(_, way)| (Some(falsely(&page, way)), Some(Stop::BadTable))));
    tables.extend(SHORT.map(|length| {
        let table = tabled(&page)[..length].to_vec();
        (Some(table), Some(Stop::OutOfRange))
    }));
    let mut cases = Vec::new();
    for (table, refusal) in tables {
        for made in [Call::Line, Call::Continue] {
            let plain = call(made, page.clone(), b"NEW\r", table.clone());
            cases.extend((0..32).map(|faults| with_faults(&plain, faults, refusal)));
        }
    }
    cases
}

/// The case with those of five things wrong, or paused, whose bits are set, and its first refusal, where this is the
/// table's.
fn with_faults(plain: &Case, faults: u8, refusal: Option<Stop>) -> (Case, Option<Stop>) {
    let mut case = plain.clone();
    let [far, bad, unfit, cut, paused] = [1, 2, 4, 8, 16].map(|bit| faults & bit != 0);
    if far {
        case.budget = 65_536;
    }
    if bad {
        case.page[0] = 128;
    }
    if unfit {
        case.record.flags = 8;
    }
    if cut {
        case.input.pop();
    }
    if paused {
        case.record.paused = Some(Pause::After(Place(9)));
    }
    let wrong = [
        (far || refusal == Some(Stop::OutOfRange), Stop::OutOfRange),
        (bad, Stop::BadPage),
        (refusal.is_some(), Stop::BadTable),
        (unfit, Stop::BadRecord),
        (cut && case.call == Call::Line, Stop::NoCr),
    ];
    let first = wrong.into_iter().find(|(wrong, _)| *wrong);
    (case, first.map(|(_, stop)| stop))
}

/// Lines that edit a page, and some that do not.
const ASIDE: [&str; 9] = [
    "NEW", "", "CLEAR", "RUN", "LIST", "A=1", "GOTO 20", "GOSUB 30", "NO",
];
const TEXTS: [&str; 4] = ["", "DO", " END", " REM 12345678"];

/// Each program of up to three lines, each of two texts, on a page that it fills and on one with some room; each line typed
/// there; with no table, with a true one and with a false one, of each kind in turn.
pub fn edits() -> Vec<Case> {
    let mut typed: Vec<String> = ASIDE.map(String::from).to_vec();
    for number in [5, 10, 15, 20, 25, 30, 35] {
        typed.extend(TEXTS.map(|text| format!("{number}{text}")));
    }
    let mut ways = FALSE.iter().cycle();
    let mut cases = Vec::new();
    for page in small_pages() {
        for line in &typed {
            let (_, way) = *ways.next().expect("a cycle has no end");
            let tables = [None, Some(tabled(&page)), Some(falsely(&page, way))];
            let input = format!("{line}\r");
            cases.extend(tables.map(|table| {
                let page = page.clone();
                call(Call::Line, page, input.as_bytes(), table)
            }));
        }
    }
    cases
}

fn small_pages() -> Vec<Vec<u8>> {
    let mut pages = Vec::new();
    for choice in 0..27 {
        let texts = [choice % 3, choice / 3 % 3, choice / 9].map(|at| ["", "END", " REM 12"][at]);
        let mut lines = vec![(10, texts[0]), (20, texts[1]), (30, texts[2])];
        lines.retain(|(_, text)| !text.is_empty());
        pages.extend([0, 14].map(|room| program(&lines, room)));
    }
    pages
}

/// Pages of any number of lines, with a table or none, and a GOTO or a GOSUB to numbers that are there and beside them.
/// Nothing is run then: the pause tells where the line was found.
pub fn jumps() -> Vec<Case> {
    let mut cases = Vec::new();
    for lines in (0..=24).chain([63, 64, 65, 341, 682]) {
        let numbers: Vec<(u16, &str)> = (1..=lines).map(|line| (3 * line, "DO")).collect();
        let page = program(&numbers, 0);
        let far = usize::from(lines / 60 * 3 + 1);
        for number in (0..3 * lines + 5).step_by(far).chain([32_767]) {
            for (word, table) in [("GOTO", true), ("GOSUB", true), ("GOTO", false)] {
                let table = table.then(|| tabled(&page));
                let input = format!("{word} {number}\r");
                let case = call(Call::Line, page.clone(), input.as_bytes(), table);
                cases.push(Case { budget: 0, ..case });
            }
        }
    }
    cases
}

/// All of these cases.
pub fn written() -> Vec<Case> {
    let refusals = refusals().into_iter().map(|(case, _)| case);
    refusals.chain(edits()).chain(jumps()).collect()
}

/// A table for a page on which nothing has been typed, or none.
pub fn first_table(random: &mut Random) -> Option<Vec<u16>> {
    let table = true_table(random, Size::Full, &END_MARK);
    random.percent(60).then_some(table)
}
