//! The herd list, the list of visits and the list of washes.

use std::collections::HashMap;

use crate::sheet::{Cells, Sheet};
use crate::times::{parse, Calendar, DAY, WEEK};

/// A cow as the herd list has her.
#[derive(Clone, Debug)]
pub struct Cow {
    pub number: u16,
    /// The box of her group.
    pub home: u8,
    pub litres: u8,
    /// Tenths of a litre a minute.
    pub flow: u8,
    /// Minutes that she stays in the box when her milk has stopped.
    pub lingers: u16,
    /// Days since calving, on Monday.
    pub days: u16,
    pub blocked_until: u16,
    /// The minutes at which she came in to the last milking before her first visit, and left the box after it: below 0 for
    /// one before the week.
    pub last_start: i32,
    pub last_end: i32,
}

/// A cow at the gate of a box.
#[derive(Clone, Copy, Debug)]
pub struct Visit {
    pub minute: u16,
    pub at: u8,
    /// Her place in the herd list.
    pub cow: usize,
    /// The minute from which on she stood at the gate.
    pub arrived: u16,
    /// The minute at which she left the box, if the list has it: it counts if she is let in.
    pub left: Option<u16>,
}

/// A box is washed at this minute of every day, for so long.
#[derive(Clone, Copy, Debug)]
pub struct Wash {
    pub at: u8,
    pub start: u16,
    pub minutes: u16,
}

impl Wash {
    pub fn is_on(&self, at: u8, minute: u16) -> bool {
        self.at == at && (minute + DAY - self.start) % DAY < self.minutes
    }
}

/// The longest time before the week, in minutes, that a list may name: ten years.
const LONG_AGO: i64 = 10 * 366 * DAY as i64;
/// The most that a program's 16 bits can say.
const MOST: i64 = i16::MAX as i64;

/// The calendar of a list of visits: that of the first one with a date.
pub fn calendar(visits: &Sheet) -> Result<Calendar, String> {
    visits.needs(MINUTE)?;
    let times = visits.map(|cells| Ok(cells.some(MINUTE).and_then(|cell| parse(cell.text()))))?;
    let weeks = times.into_iter().flatten().map(Calendar::of);
    Ok(weeks
        .into_iter()
        .find(|week| week.monday.is_some())
        .unwrap_or_default())
}

const MINUTE: &[&str] = &["minute", "time"];
const COW: &[&str] = &["cow"];
const BOX: &[&str] = &["box"];

/// Where there is one box, its number need not be written.
fn needs_box(sheet: &Sheet, boxes: u8) -> Result<(), String> {
    match boxes {
        1 => Ok(()),
        _ => sheet.needs(BOX),
    }
}

fn number_of_box(cells: &Cells, boxes: u8) -> Result<u8, String> {
    match cells.some(BOX) {
        None if boxes == 1 => Ok(1),
        _ => Ok(cells.one(BOX).whole(1, boxes.into())? as u8),
    }
}

pub fn herd(sheet: &Sheet, boxes: u8, week: Calendar) -> Result<Vec<Cow>, String> {
    let needed: [&[&str]; 5] = [
        COW,
        &["litres"],
        &["flow", "flow_dl"],
        &["days"],
        &["last_end"],
    ];
    for names in needed {
        sheet.needs(names)?;
    }
    needs_box(sheet, boxes)?;
    let mut lines = HashMap::new();
    sheet.map(|cells| {
        let number = cells.one(COW).whole(1, MOST)? as u16;
        if let Some(before) = lines.insert(number, cells.one(COW).line()) {
            let allowed = format!("each cow once: she stands in line {before}, too");
            return Err(cells.one(COW).wrong(allowed));
        }
        cow(&cells, number, boxes, week)
    })
}

fn cow(cells: &Cells, number: u16, boxes: u8, week: Calendar) -> Result<Cow, String> {
    let or_none = |names, high| cells.some(names).map_or(Ok(0), |cell| cell.whole(0, high));
    let flow = match cells.some(&["flow_dl"]) {
        Some(cell) => cell.whole(1, 255)?,
        None => cells.one(&["flow"]).scaled(10, 1, 255)?,
    };
    let last_end = week.read(cells.one(&["last_end"]), -LONG_AGO, WEEK.into())?;
    let last_start = match cells.some(&["last_start"]) {
        Some(cell) => week.read(cell, -LONG_AGO, last_end)?,
        None => last_end,
    };
    let blocked = cells.some(&["blocked_until"]);
    let blocked = blocked.map_or(Ok(0), |cell| week.read(cell, -LONG_AGO, LONG_AGO))?;
    Ok(Cow {
        number,
        home: number_of_box(cells, boxes)?,
        litres: cells.one(&["litres"]).scaled(1, 0, 255)? as u8,
        flow: flow as u8,
        lingers: or_none(&["lingers"], DAY.into())? as u16,
        days: cells.one(&["days"]).whole(0, MOST)? as u16,
        blocked_until: blocked.clamp(0, MOST) as u16,
        last_start: last_start as i32,
        last_end: last_end as i32,
    })
}

/// The visits in order of their minutes.
pub fn visits(
    sheet: &Sheet,
    herd: &[Cow],
    boxes: u8,
    week: Calendar,
) -> Result<Vec<Visit>, String> {
    for names in [MINUTE, COW] {
        sheet.needs(names)?;
    }
    needs_box(sheet, boxes)?;
    let places = herd
        .iter()
        .enumerate()
        .map(|(at, cow)| (i64::from(cow.number), at));
    let places: HashMap<i64, usize> = places.collect();
    let mut visits = sheet.map(|cells| {
        let number = cells.one(COW).whole(1, MOST)?;
        let cow = places.get(&number).copied();
        let cow = cow.ok_or_else(|| cells.one(COW).wrong("a cow of the herd list"))?;
        let last = i64::from(WEEK) - 1;
        let minute = week.read(cells.one(MINUTE), 0, last)?;
        let arrived = cells
            .some(&["arrived"])
            .map(|cell| week.read(cell, -LONG_AGO, minute));
        let left = cells
            .some(&["left"])
            .map(|cell| week.read(cell, minute, 2 * last));
        Ok(Visit {
            minute: minute as u16,
            at: number_of_box(&cells, boxes)?,
            cow,
            arrived: arrived.unwrap_or(Ok(minute))?.max(0) as u16,
            left: left.transpose()?.map(|minute| minute as u16),
        })
    })?;
    visits.sort_by_key(|visit| visit.minute);
    Ok(visits)
}

pub fn washes(sheet: &Sheet, boxes: u8) -> Result<Vec<Wash>, String> {
    for names in [&["from"], &["minutes"]] {
        sheet.needs(names)?;
    }
    needs_box(sheet, boxes)?;
    sheet.map(|cells| {
        let from = cells.one(&["from"]);
        let start = parse(&format!("Mon {}", from.text()));
        let start = start.and_then(|time| Calendar::default().minute(time));
        Ok(Wash {
            at: number_of_box(&cells, boxes)?,
            start: start.ok_or_else(|| from.wrong("a time of day, as 05:40"))? as u16,
            minutes: cells.one(&["minutes"]).whole(1, DAY.into())? as u16,
        })
    })
}
