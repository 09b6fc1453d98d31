//! A line in one row of a window, however long it is.

/// So many columns of a line are shown at least: two marks and the cursor.
pub const LEAST_ROOM: usize = 3;
/// Stands where a line goes on that is cut off.
const GOES_ON: char = '…';

/// The part of a line that a row has room for, and the cursor's column in it.
#[derive(Debug, PartialEq, Eq)]
pub struct Row {
    pub text: String,
    pub cursor: usize,
}

impl Row {
    /// As much of a line as a row of `room` columns shows around the cursor. A cut end is marked, and no mark hides what the cursor is on.
    pub fn around(line: &[char], cursor: usize, room: usize) -> Row {
        let room = room.max(LEAST_ROOM);
        let begin = begin(line.len(), cursor, room);
        let end = line.len().min(begin + room);
        let mut shown: Vec<char> = line[begin..end].iter().map(|c| shape(*c)).collect();
        if begin > 0 {
            shown[0] = GOES_ON;
        }
        if end < line.len() {
            shown[room - 1] = GOES_ON;
        }
        Row {
            text: shown.into_iter().collect(),
            cursor: cursor - begin,
        }
    }
}

/// Where the part begins. It moves along by half a row, so that the cursor has some of the line on both sides and most keys move only the
/// cursor; and no further than to the line's end with the cursor behind it.
fn begin(count: usize, cursor: usize, room: usize) -> usize {
    let (step, margin) = (room / 2, (room / 4).max(1));
    let parts = match cursor.checked_sub(room - margin) {
        None => 0,
        Some(past) => past / step + 1,
    };
    (parts * step).min((count + 1).saturating_sub(room))
}

/// One column for a character: a control character would move the cursor, and has a picture.
pub fn shape(c: char) -> char {
    match c {
        '\0'..='\x1f' => char::from_u32(0x2400 + u32::from(c)).unwrap_or('?'),
        '\x7f' => '\u{2421}',
        _ if c.is_control() => char::REPLACEMENT_CHARACTER,
        _ => c,
    }
}

#[cfg(test)]
mod tests {
    use super::*;

    fn row(line: &str, cursor: usize, room: usize) -> (String, usize) {
        let line: Vec<char> = line.chars().collect();
        let row = Row::around(&line, cursor, room);
        (row.text, row.cursor)
    }

    fn is(text: &str, cursor: usize) -> (String, usize) {
        (text.to_string(), cursor)
    }

    #[test]
    fn what_has_room_is_shown_whole() {
        assert_eq!(row("12345", 5, 6), is("12345", 5));
        assert_eq!(row("12345", 0, 6), is("12345", 0));
        assert_eq!(row("A\tB\x15", 4, 9), is("A␉B␕", 4));
    }

    #[test]
    fn a_longer_line_moves_along_by_half_a_row() {
        assert_eq!(row("123456", 6, 6), is("…3456", 5));
        assert_eq!(row("1234567", 0, 6), is("12345…", 0));
        assert_eq!(row("ABCDEFGHIJKLMNOPQRST", 0, 8), is("ABCDEFG…", 0));
        assert_eq!(row("ABCDEFGHIJKLMNOPQRST", 5, 8), is("ABCDEFG…", 5));
        assert_eq!(row("ABCDEFGHIJKLMNOPQRST", 6, 8), is("…FGHIJK…", 2));
        assert_eq!(row("ABCDEFGHIJKLMNOPQRST", 9, 8), is("…FGHIJK…", 5));
        assert_eq!(row("ABCDEFGHIJKLMNOPQRST", 10, 8), is("…JKLMNO…", 2));
        assert_eq!(row("ABCDEFGHIJKLMNOPQRST", 14, 8), is("…NOPQRST", 2));
        assert_eq!(row("ABCDEFGHIJKLMNOPQRST", 19, 8), is("…OPQRST", 6));
        assert_eq!(row("ABCDEFGHIJKLMNOPQRST", 20, 8), is("…OPQRST", 7));
    }

    #[test]
    fn what_the_cursor_is_on_is_seen_in_a_row_of_any_room() {
        let line: Vec<char> = ('A'..='Z').cycle().take(200).collect();
        for room in LEAST_ROOM..=210 {
            for count in [0, 1, room - 1, room, room + 1, 200] {
                let line = &line[..count.min(200)];
                for cursor in 0..=line.len() {
                    let row = Row::around(line, cursor, room);
                    assert!(row.text.chars().count() <= room && row.cursor < room);
                    assert_eq!(row.text.chars().nth(row.cursor), line.get(cursor).copied());
                }
            }
        }
    }
}
