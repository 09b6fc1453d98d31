//! What the dealer sees: program output, the desk's own words, and the line that is being typed.

use std::io::Write;

use crate::row::{shape, Row};

/// Stands before every line that the dealer types. It is none of the characters that program output is shown in, where the terminal
/// has it.
pub const PROMPT: &str = "» ";
/// Stands before what the desk says of a line.
pub const SAID: &str = "« ";
/// Stands before a part of a line that is shown again: as wide as what stands before a line.
pub const QUOTED: &str = "  ";
/// Stands below the first byte of a line that is wrong.
const POINTER: &str = "^";
/// What stands for the desk's own signs where the terminal has ASCII alone. Each takes one column, as the sign does.
const ASCII: [(char, char); 6] = [
    ('»', '>'),
    ('«', '<'),
    ('›', '>'),
    ('‹', '<'),
    ('…', '~'),
    ('·', '.'),
];
const BOLD: &str = "\x1b[1m";
const DIM: &str = "\x1b[2m";
const PLAIN: &str = "\x1b[0m";
const PASTE_MARKS_ON: &str = "\x1b[?2004h";
const PASTE_MARKS_OFF: &str = "\x1b[?2004l";
const WHERE_IS_THE_CURSOR: &str = "\x1b[6n";
const CLEAR_FROM_HERE: &str = "\x1b[J";

/// What a terminal can show.
#[derive(Clone, Copy, Debug, Default)]
pub struct Abilities {
    /// Bold, the marks of a paste, and a cursor that can be moved and asked for.
    pub styles: bool,
    /// More than ASCII.
    pub signs: bool,
}

/// What stands in the row of the line being typed. It was drawn there for a window of some width.
#[derive(Clone, Copy, Debug, Default)]
struct Drawn {
    columns: usize,
    cursor: usize,
    width: usize,
}

impl Drawn {
    /// How many rows above the cursor's the row begins, in a window that is narrower now. Most terminals break the row there and carry the
    /// cursor along, to the next row's front or to the end of its own; others cut it off and leave the cursor in the last column.
    fn rows_above(self, width: usize, column: usize) -> usize {
        let (rows, carried) = (self.cursor / width, self.cursor % width);
        match carried {
            _ if column == carried => rows,
            0 if column + 1 == width => rows - 1,
            _ => 0,
        }
    }
}

pub struct Screen<W: Write> {
    out: W,
    able: Abilities,
    /// Is the cursor at the front of a line?
    fresh: bool,
    /// The line being typed, as it was last drawn.
    drawn: Drawn,
    /// Nothing more can be written.
    broken: bool,
}

impl<W: Write> Screen<W> {
    pub fn new(out: W, able: Abilities) -> Screen<W> {
        let mut screen = Screen {
            out,
            able,
            fresh: true,
            drawn: Drawn::default(),
            broken: false,
        };
        if able.styles {
            screen.put(PASTE_MARKS_ON);
        }
        screen
    }

    pub fn is_broken(&self) -> bool {
        self.broken
    }

    /// Shows what a program wrote.
    pub fn program(&mut self, output: &[u8]) {
        if !output.is_empty() {
            self.put(&visible(output));
            self.fresh = output.ends_with(b"\r\n");
        }
    }

    /// One line of the desk's own words; those of a refusal stand out.
    pub fn say(&mut self, words: &str, stands_out: bool) {
        self.fresh_line();
        let words = format!("{SAID}{}", words.chars().map(shape).collect::<String>());
        let styled = self.styled(if stands_out { BOLD } else { DIM }, &words);
        self.put(&format!("{styled}\r\n"));
    }

    /// Shows a part of a line again, below itself.
    pub fn quote(&mut self, row: &Row) {
        self.fresh_line();
        self.put(&format!("{QUOTED}{}\r\n", row.text));
    }

    /// Points at a column of the row above, and says something of it.
    pub fn point(&mut self, column: usize, words: &str) {
        self.fresh_line();
        let words: String = words.chars().map(shape).collect();
        let styled = self.styled(BOLD, format!("{POINTER} {words}").trim_end());
        self.put(&format!("{}{styled}\r\n", " ".repeat(column)));
    }

    /// Is the line drawn for a window of another width?
    pub fn is_for_another_width(&self, width: usize) -> bool {
        self.drawn.columns > 0 && self.drawn.width != width
    }

    /// Asks the terminal where the cursor is, if that has to be known, and can be, to take the row away in a window of this width.
    pub fn asks_for_cursor(&mut self, width: usize) -> bool {
        let asks = self.able.styles && self.drawn.cursor >= width;
        if asks {
            self.put(WHERE_IS_THE_CURSOR);
        }
        asks
    }

    /// Takes the row away that was drawn for a window of another width, whatever the terminal has made of it. The column is the one that the
    /// cursor is in; where it is not known, the row stays, and the line goes on below.
    pub fn take_away(&mut self, width: usize, column: Option<usize>) {
        let column = match self.drawn.cursor < width {
            true => self.able.styles.then_some(self.drawn.cursor),
            false => column,
        };
        match column.map(|column| self.drawn.rows_above(width, column)) {
            Some(0) => self.put(&format!("\r{CLEAR_FROM_HERE}")),
            Some(rows) => self.put(&format!("\x1b[{rows}A\r{CLEAR_FROM_HERE}")),
            None if self.drawn.columns >= width => self.put("\r\n"),
            None => return, // it is drawn over itself
        }
        self.drawn = Drawn::default();
    }

    /// Several lines that the dealer asked for.
    pub fn tell(&mut self, text: &str) {
        self.fresh_line();
        self.put(&text.replace('\n', "\r\n"));
    }

    /// Draws the line being typed, in one row of a window. Carriage returns and blanks are all that it takes, so any terminal can.
    pub fn draw(&mut self, prompt: &str, row: &Row, width: usize) {
        self.fresh_line();
        let drawn = Drawn {
            columns: columns(prompt) + columns(&row.text),
            cursor: columns(prompt) + row.cursor,
            width,
        };
        let blanks = " ".repeat(self.drawn.columns.saturating_sub(drawn.columns));
        let before: String = row.text.chars().take(row.cursor).collect();
        let prompt = self.styled(BOLD, prompt);
        self.put(&format!("\r{prompt}{}{blanks}\r{prompt}{before}", row.text));
        self.drawn = drawn;
    }

    /// The line is complete: draws it whole, over several rows if need be, and begins a new one.
    pub fn complete(&mut self, prompt: &str, text: &str) {
        let shown: String = text.chars().map(shape).collect();
        let taken = columns(prompt) + columns(&shown);
        let blanks = " ".repeat(self.drawn.columns.saturating_sub(taken));
        let prompt = self.styled(BOLD, prompt);
        self.put(&format!("\r{prompt}{shown}{blanks}\r\n"));
        self.drawn = Drawn::default();
    }

    /// Begins a new line, unless one has just been begun.
    fn fresh_line(&mut self) {
        if !self.fresh {
            self.put("\r\n");
            self.fresh = true;
        }
    }

    fn styled(&self, style: &str, text: &str) -> String {
        match self.able.styles {
            true => format!("{style}{text}{PLAIN}"),
            false => text.to_string(),
        }
    }

    fn put(&mut self, text: &str) {
        let text = match self.able.signs {
            true => text.to_string(),
            false => text.chars().map(ascii).collect(),
        };
        let written = self
            .out
            .write_all(text.as_bytes())
            .and_then(|()| self.out.flush());
        self.broken |= written.is_err();
    }
}

impl<W: Write> Drop for Screen<W> {
    fn drop(&mut self) {
        if self.able.styles {
            self.put(PASTE_MARKS_OFF);
        }
    }
}

/// A character as ASCII has it.
fn ascii(c: char) -> char {
    let known = ASCII.iter().find(|(sign, _)| *sign == c);
    match known {
        Some((_, plain)) => *plain,
        None if c.is_ascii() => c,
        None => '?',
    }
}

fn columns(text: &str) -> usize {
    text.chars().count()
}

/// Program output as a terminal may show it. A string in memory may hold any byte but CR: what is neither text nor a line end
/// could move the cursor, change colours or be read as the prompt, and is shown as its hex number instead.
fn visible(output: &[u8]) -> String {
    let mut shown = String::new();
    let mut rest = output;
    while let Some((byte, behind)) = rest.split_first() {
        rest = behind;
        match byte {
            13 if behind.first() == Some(&10) => {
                shown += "\r\n";
                rest = &behind[1..];
            }
            32..=126 => shown.push(char::from(*byte)),
            _ => shown += &format!("‹{byte:02X}›"),
        }
    }
    shown
}

#[cfg(test)]
mod tests {
    use super::*;

    const SIGNS: Abilities = Abilities {
        styles: false,
        signs: true,
    };

    fn shown_by(able: Abilities, work: impl FnOnce(&mut Screen<&mut Vec<u8>>)) -> String {
        let mut bytes = Vec::new();
        work(&mut Screen::new(&mut bytes, able));
        String::from_utf8(bytes).expect("UTF-8")
    }

    fn shown(work: impl FnOnce(&mut Screen<&mut Vec<u8>>)) -> String {
        shown_by(SIGNS, work)
    }

    #[test]
    fn program_output_is_text_and_line_ends() {
        assert_eq!(visible(b" 42 \r\nCOW~"), " 42 \r\nCOW~");
        assert_eq!(visible(b"\x1b[2J\n\r\x7f\0"), "‹1B›[2J‹0A›‹0D›‹7F›‹00›");
        assert_eq!(visible(PROMPT.as_bytes()), "‹C2›‹BB› ");
    }

    #[test]
    fn no_output_looks_like_the_prompt_or_the_desks_words() {
        let all: Vec<u8> = (0..=255).collect();
        for first in 0..=255 {
            let pair: Vec<u8> = all.iter().flat_map(|second| [first, *second]).collect();
            let text = visible(&pair);
            assert!(!text.contains('»') && !text.contains('«') && !text.contains('\x1b'));
        }
    }

    #[test]
    fn words_begin_a_line_of_their_own() {
        let text = shown(|screen| {
            screen.program(b"BOX");
            screen.say("20: END", false);
            screen.program(b"BOX\r\n");
            screen.say("0: done", false);
        });
        assert_eq!(text, "BOX\r\n« 20: END\r\nBOX\r\n« 0: done\r\n");
    }

    #[test]
    fn the_pointer_stands_in_its_column() {
        assert_eq!(shown(|screen| screen.point(3, "")), "   ^\r\n");
        assert_eq!(shown(|screen| screen.point(0, "END?")), "^ END?\r\n");
    }

    fn row(text: &str, cursor: usize) -> Row {
        Row {
            text: text.to_string(),
            cursor,
        }
    }

    #[test]
    fn a_part_of_a_line_stands_where_the_line_would() {
        let text = shown(|screen| {
            screen.program(b"BOX");
            screen.quote(&row("…PRIMT…", 4));
        });
        assert_eq!(text, "BOX\r\n  …PRIMT…\r\n");
    }

    #[test]
    fn a_line_is_drawn_over_itself() {
        let text = shown(|screen| {
            screen.draw(PROMPT, &row("RUN", 1), 80);
            screen.draw(PROMPT, &row("R", 1), 80);
            screen.complete(PROMPT, "R");
        });
        assert_eq!(text, "\r» RUN\r» R\r» R  \r» R\r» R\r\n");
    }

    #[test]
    fn styles_only_where_they_are_known() {
        let text = shown_by(STYLES, |screen| screen.say("0: done", true));
        assert_eq!(text, "\x1b[?2004h\x1b[1m« 0: done\x1b[0m\r\n\x1b[?2004l");
        assert_eq!(shown(|screen| screen.say("A\x1bB", true)), "« A␛B\r\n");
    }

    #[test]
    fn where_there_is_ascii_alone_every_sign_has_a_form() {
        let text = shown_by(Abilities::default(), |screen| {
            screen.program(b"\x1b");
            screen.say("0: done ä", false);
            screen.draw(PROMPT, &row("…A\u{2409}", 0), 80);
        });
        assert_eq!(text, "<1B>\r\n< 0: done ?\r\n\r> ~A?\r> ");
    }

    const STYLES: Abilities = Abilities {
        styles: true,
        signs: true,
    };

    /// What takes a row of 40 columns away that has the cursor in some column, in a window of this width, where the terminal says that
    /// the cursor is in another one now.
    fn taken_away(able: Abilities, cursor: usize, width: usize, column: Option<usize>) -> String {
        let mut screen = Screen::new(Vec::new(), able);
        screen.draw("", &row(&"A".repeat(40), cursor), 80);
        assert!(!screen.is_for_another_width(80) && screen.is_for_another_width(width));
        let begin = screen.out.len();
        let asked = screen.asks_for_cursor(width);
        screen.take_away(width, column.filter(|_| asked));
        String::from_utf8(screen.out[begin..].to_vec()).expect("UTF-8")
    }

    #[test]
    fn a_row_that_the_terminal_broke_is_taken_away() {
        assert_eq!(taken_away(STYLES, 40, 60, None), "\r\x1b[J");
        assert_eq!(taken_away(STYLES, 40, 41, None), "\r\x1b[J");
        assert_eq!(taken_away(STYLES, 9, 30, None), "\r\x1b[J");
        assert_eq!(
            taken_away(STYLES, 40, 30, Some(10)),
            "\x1b[6n\x1b[1A\r\x1b[J"
        );
        assert_eq!(
            taken_away(STYLES, 40, 12, Some(4)),
            "\x1b[6n\x1b[3A\r\x1b[J"
        );
        assert_eq!(
            taken_away(STYLES, 40, 20, Some(0)),
            "\x1b[6n\x1b[2A\r\x1b[J"
        );
        assert_eq!(
            taken_away(STYLES, 40, 20, Some(19)),
            "\x1b[6n\x1b[1A\r\x1b[J"
        );
    }

    #[test]
    fn a_row_that_the_terminal_cut_off_is_taken_away() {
        assert_eq!(taken_away(STYLES, 40, 30, Some(29)), "\x1b[6n\r\x1b[J");
        assert_eq!(taken_away(STYLES, 40, 40, Some(39)), "\x1b[6n\r\x1b[J");
    }

    #[test]
    fn a_row_that_cannot_be_found_stays_and_the_line_goes_on_below() {
        assert_eq!(taken_away(STYLES, 40, 30, None), "\x1b[6n\r\n");
        assert_eq!(taken_away(SIGNS, 40, 30, None), "\r\n");
        assert_eq!(taken_away(SIGNS, 9, 40, None), "\r\n");
        assert_eq!(taken_away(SIGNS, 9, 41, None), "");
    }
}
