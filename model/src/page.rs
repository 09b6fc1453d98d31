//! The page: checking and reading it, finding lines, and editing.

use crate::line::LineNumber;
use crate::reader::read_list;
use crate::record::{Pause, Place};
use crate::tree::{StatementId, Tree};
use crate::typing::{is_text_byte, CR, LINE_LIMIT};

/// Stands where the next record would begin.
pub const END_MARK: [u8; 2] = [255, 255];

/// A record's bytes beside its text: number, length and CR.
const FRAME: usize = 4;

/// A line of the program.
#[derive(Clone, Copy, Debug)]
pub struct Line {
    pub number: LineNumber,
    /// The position of its record in the page.
    pub start: usize,
    /// The position behind its record.
    pub after: usize,
    /// The first of its statements, counted through the whole program.
    pub first: usize,
}

impl Line {
    pub fn text<'a>(&self, page: &'a [u8]) -> &'a [u8] {
        &page[self.start + 3..self.after - 1]
    }
}

/// A member of a line's statement list.
#[derive(Clone, Copy, Debug)]
pub struct Step {
    pub statement: StatementId,
    /// The place that ends it.
    pub place: Place,
    /// Which line it stands in, counted from 0.
    pub line: usize,
}

/// A page that has been read. Statements are counted through the whole page,
/// so the one after the statement counted `n` is `n + 1`, also in the next
/// record; the count of all statements stands for "past the last line".
#[derive(Clone, Debug, Default)]
pub struct Program {
    pub tree: Tree,
    pub lines: Vec<Line>,
    pub steps: Vec<Step>,
    /// The position of the end mark.
    end: usize,
}

/// Reads a page; `None` if it is bad.
pub fn read_page(page: &[u8]) -> Option<Program> {
    let mut program = Program {
        tree: Tree::with_room(page.len()),
        ..Program::default()
    };
    while page.get(program.end..program.end + 2)? != END_MARK {
        program.read_record(&page[program.end..])?;
    }
    Some(program)
}

/// The position and the text of each record of a good page.
pub fn records(page: &[u8]) -> impl Iterator<Item = (usize, &[u8])> {
    let mut at = 0;
    std::iter::from_fn(move || {
        let start = at;
        (page[start..start + 2] != END_MARK).then(|| {
            at += usize::from(page[start + 2]);
            (start, &page[start + 3..at - 1])
        })
    })
}

/// The number, the text and the length of the record a page goes on with, if
/// its frame is sound.
fn frame(rest: &[u8]) -> Option<(LineNumber, &[u8], usize)> {
    let &[high, low, length, ..] = rest else {
        return None;
    };
    let number = LineNumber(u16::from_be_bytes([high, low]));
    let length = usize::from(length);
    let text = rest.get(3..length.checked_sub(1)?)?;
    let sound = number.0 <= 32_767 && rest.get(length - 1) == Some(&CR);
    sound.then_some((number, text, length))
}

/// What a text must be before it is read. The limit comes first: it bounds
/// the reader's recursion. That a text begins with no digit needs no look of
/// its own, since no statement does.
fn is_storable(number: LineNumber, text: &[u8]) -> bool {
    text.len() + number.digits() <= LINE_LIMIT && text.iter().copied().all(is_text_byte)
}

impl Program {
    fn read_record(&mut self, rest: &[u8]) -> Option<()> {
        let (number, text, length) = frame(rest)?;
        let rising = self.lines.last().is_none_or(|line| line.number < number);
        if !rising || !is_storable(number, text) {
            return None;
        }
        let (start, line) = (self.end, self.lines.len());
        let (first, steps) = (self.steps.len(), &mut self.steps);
        read_list(&mut self.tree, text, |member| {
            let place = Place((start + 3 + member.end) as u16);
            steps.push(Step {
                statement: member.statement,
                place,
                line,
            });
        })?;
        self.end = start + length;
        self.lines.push(Line {
            number,
            start,
            after: self.end,
            first,
        });
        Some(())
    }

    /// The page's used bytes with the end mark, which is TOP.
    pub fn used(&self) -> usize {
        self.end + END_MARK.len()
    }

    /// The finder: the first statement of the line with this number.
    pub fn find(&self, number: LineNumber) -> Option<usize> {
        let found = self.lines.binary_search_by_key(&number, |line| line.number);
        found.ok().map(|index| self.lines[index].first)
    }

    /// How many lines have a smaller number.
    pub fn lines_before(&self, number: LineNumber) -> usize {
        self.lines.partition_point(|line| line.number < number)
    }

    /// The statement after a place, or `None` if that is no place of the page.
    pub fn after(&self, place: Place) -> Option<usize> {
        let found = self.steps.binary_search_by_key(&place, |step| step.place);
        found.ok().map(|index| index + 1)
    }

    /// The first statement of the record after the one this statement is in.
    pub fn next_line(&self, step: usize) -> usize {
        let next = self.lines.get(self.steps[step].line + 1);
        next.map_or(self.steps.len(), |line| line.first)
    }

    /// The number of the line a statement is in.
    pub fn number(&self, step: usize) -> LineNumber {
        self.lines[self.steps[step].line].number
    }

    /// The pause after which this statement comes next.
    pub fn pause_before(&self, step: usize) -> Pause {
        match step.checked_sub(1) {
            None => Pause::Start,
            Some(previous) => Pause::After(self.steps[previous].place),
        }
    }

    /// The statement a paused run goes on with.
    pub fn resume(&self, pause: Pause) -> Option<usize> {
        match pause {
            Pause::Start => Some(0),
            Pause::After(place) => self.after(place),
        }
    }

    /// Where in the page a line's record is, or would be inserted: its start
    /// and the position behind it. The two are equal for an absent line.
    fn record_room(&self, number: LineNumber) -> (usize, usize) {
        match self.lines.get(self.lines_before(number)) {
            Some(line) if line.number == number => (line.start, line.after),
            Some(line) => (line.start, line.start),
            None => (self.end, self.end),
        }
    }
}

/// Takes a line out of the page and says whether it was there.
pub fn delete(page: &mut [u8], program: &Program, number: LineNumber) -> bool {
    let (start, after) = program.record_room(number);
    page.copy_within(after..program.used(), start);
    start != after
}

/// Puts a line into the page, in the place of one with its number. Says
/// whether there was room; if not, the page is as before.
pub fn store(page: &mut [u8], program: &Program, number: LineNumber, text: &[u8]) -> bool {
    let (start, after) = program.record_room(number);
    let length = text.len() + FRAME;
    if program.used() - (after - start) + length > page.len() {
        return false;
    }
    page.copy_within(after..program.used(), start + length);
    let record = &mut page[start..start + length];
    record[..2].copy_from_slice(&number.0.to_be_bytes());
    record[2] = length as u8;
    record[3..length - 1].copy_from_slice(text);
    record[length - 1] = CR;
    true
}
