//! What a host can read off a page of the controller: its lines, and where a place lies.

use crate::reading::Typed;

/// What a line that was obeyed did to the program.
#[derive(Clone, Copy, Debug, PartialEq, Eq)]
pub enum Change {
    Nothing,
    Stored(u16),
    Replaced(u16),
    /// Replaced by itself.
    Kept(u16),
    Deleted(u16),
    /// There was no line to delete.
    Absent(u16),
    /// NEW; or a command, and there is no program.
    Empty,
}

/// One record: its line number, and where its text begins and ends. At the end stands its CR.
#[derive(Clone, Copy, Debug, PartialEq, Eq)]
pub struct Line {
    pub number: u16,
    pub begin: usize,
    pub end: usize,
}

const END_MARK: [u8; 2] = [255, 255];
/// The line number and the length byte.
const HEAD: usize = 3;

/// The lines in order. What is no good page ends where it stops being one.
pub fn lines(page: &[u8]) -> Vec<Line> {
    let table = nibl::table_of(page);
    let line = |at: &u16| {
        let at = usize::from(*at);
        Line {
            number: u16::from_be_bytes([page[at], page[at + 1]]),
            begin: at + HEAD,
            end: at + usize::from(page[at + 2]) - 1,
        }
    };
    let count = usize::from(table[0]);
    table[1..=count].iter().map(line).collect()
}

/// The bytes that the program takes, with its end mark: what TOP says.
pub fn used(page: &[u8]) -> usize {
    lines(page).last().map_or(0, |line| line.end + 1) + END_MARK.len()
}

/// The line in which a position lies.
pub fn line_at(page: &[u8], position: usize) -> Option<Line> {
    let holds = |line: &Line| (line.begin..=line.end).contains(&position);
    lines(page).into_iter().find(holds)
}

/// The text of a line, if it is there.
pub fn text(page: &[u8], number: u16) -> Option<&[u8]> {
    let line = lines(page).into_iter().find(|line| line.number == number)?;
    Some(&page[line.begin..line.end])
}

/// A line as LIST writes it, without its end.
pub fn listed(page: &[u8], line: &Line) -> String {
    let text = String::from_utf8_lossy(&page[line.begin..line.end]);
    format!("{}{text}", line.number)
}

/// What came of a typed line on this page, which became the other.
pub fn change(typed: &Typed, before: &[u8], after: &[u8]) -> Change {
    match typed {
        Typed::Store(line, _) => match text(before, *line) {
            None => Change::Stored(*line),
            Some(was) if text(after, *line) == Some(was) => Change::Kept(*line),
            Some(_) => Change::Replaced(*line),
        },
        Typed::Delete(line) if text(before, *line).is_none() => Change::Absent(*line),
        Typed::Delete(line) => Change::Deleted(*line),
        Typed::Command("NEW" | "LIST" | "RUN") if lines(after).is_empty() => Change::Empty,
        Typed::Command(_) | Typed::Statement(_) | Typed::Blank => Change::Nothing,
    }
}

#[cfg(test)]
mod tests {
    use super::*;
    use crate::reading::read;

    /// A page of 64 bytes with these lines.
    fn page(lines: &[(u16, &str)]) -> Vec<u8> {
        let mut page = Vec::new();
        for (number, text) in lines {
            page.extend(number.to_be_bytes());
            page.push(text.len() as u8 + 4);
            page.extend(text.as_bytes());
            page.push(13);
        }
        page.extend(END_MARK);
        page.resize(64, 0);
        page
    }

    #[test]
    fn lines_are_found_with_their_texts() {
        let page = page(&[(10, " END"), (300, " A=1:END")]);
        let found: Vec<_> = lines(&page)
            .iter()
            .map(|l| (l.number, &page[l.begin..l.end]))
            .collect();
        assert_eq!(
            found,
            [(10, b" END".as_slice()), (300, b" A=1:END".as_slice())]
        );
        assert_eq!(used(&page), 8 + 12 + 2);
        assert_eq!(line_at(&page, 7).map(|l| l.number), Some(10));
        assert_eq!(line_at(&page, 8), None);
        assert_eq!(line_at(&page, 15).map(|l| l.number), Some(300));
    }

    #[test]
    fn a_bad_page_has_the_lines_before_its_fault() {
        let mut bad = page(&[(10, " END"), (20, " END")]);
        bad[10] = 200;
        assert_eq!(lines(&bad).len(), 1);
        bad[2] = 0;
        assert_eq!(lines(&bad).len(), 0);
        assert_eq!(lines(&[255]).len(), 0);
    }

    #[test]
    fn changes_are_told_apart() {
        let (none, one) = (page(&[]), page(&[(10, " END")]));
        let other = page(&[(10, " A=1")]);
        let told = |line: &str, before: &[u8], after: &[u8]| {
            change(&read(line.as_bytes()).expect("a reading"), before, after)
        };
        assert_eq!(told("10 END", &none, &one), Change::Stored(10));
        assert_eq!(told("10 A=1", &one, &other), Change::Replaced(10));
        assert_eq!(told("10 END", &one, &one), Change::Kept(10));
        assert_eq!(told("10", &one, &none), Change::Deleted(10));
        assert_eq!(told("20", &one, &one), Change::Absent(20));
        assert_eq!(told("NEW", &one, &none), Change::Empty);
        assert_eq!(told("LIST", &none, &none), Change::Empty);
        assert_eq!(told("RUN", &one, &one), Change::Nothing);
        assert_eq!(told("A=1", &none, &none), Change::Nothing);
    }
}
