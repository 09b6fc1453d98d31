//! The dealer at the desk: a keyboard and a screen.

use std::io::Write;

use nibl::Stop;

use crate::desk::{Dealer, Reply};
use crate::editor::{Editor, Pressed};
use crate::history::History;
use crate::keyboard::Keyboard;
use crate::raw;
use crate::row::LEAST_ROOM;
use crate::screen::{Screen, PROMPT, QUOTED};
use crate::show::{spot, Spot};

/// What the dealer was asked for, and answered.
#[derive(Debug, PartialEq, Eq)]
pub enum Asked {
    Line(String),
    Interrupted,
    Closed,
}

pub struct Seat<W: Write> {
    pub screen: Screen<W>,
    keyboard: Keyboard,
    typed: History,
    replies: History,
}

impl<W: Write> Seat<W> {
    pub fn new(screen: Screen<W>, keyboard: Keyboard) -> Seat<W> {
        Seat {
            screen,
            keyboard,
            typed: History::default(),
            replies: History::default(),
        }
    }

    /// Waits for a typed line; some text may stand there already.
    pub fn line(&mut self, text: &str) -> Asked {
        let (screen, keyboard) = (&mut self.screen, &mut self.keyboard);
        ask(screen, keyboard, &mut self.typed, PROMPT, text)
    }

    /// Asks a question that is answered by y, or by anything else. One that has no room before its answer is said above it.
    pub fn agrees(&mut self, question: &str) -> bool {
        let choice = format!("y or n {PROMPT}");
        let whole = format!("{question} {choice}");
        let prompt = match whole.chars().count() + LEAST_ROOM < raw::width() {
            true => whole,
            false => {
                self.screen.say(question, true);
                choice
            }
        };
        let (screen, keyboard) = (&mut self.screen, &mut self.keyboard);
        let answer = ask(screen, keyboard, &mut History::default(), &prompt, "");
        matches!(answer, Asked::Line(line) if line.trim().eq_ignore_ascii_case("y"))
    }

    /// Points at the spot of a refused line that stands above, behind some text, and says why it is one. What has no room there stands in a
    /// row of its own.
    pub fn point(&mut self, before: &str, line: &[u8], reply: &Reply) {
        if reply.stop != Stop::NoReading {
            return;
        }
        let why = match reply.more.over {
            0 => reply.more.why.as_deref().unwrap_or(""),
            _ => "", // the reply says it
        };
        let width = raw::width();
        let spot = spot(line, reply.column, before.chars().count(), width);
        let at = spot.map(|spot| self.column_of(&spot));
        let beside = at.filter(|at| at + 2 + why.chars().count() < width);
        if let Some(at) = at {
            self.screen.point(at, beside.map_or("", |_| why));
        }
        if beside.is_none() && !why.is_empty() {
            self.screen.say(why, true);
        }
    }

    /// The column of a spot in the row above, which may have to be shown first.
    fn column_of(&mut self, spot: &Spot) -> usize {
        match spot {
            Spot::Above(column) => *column,
            Spot::Part(row) => {
                self.screen.quote(row);
                QUOTED.len() + row.cursor
            }
        }
    }

    /// Is nobody there any more?
    pub fn has_left(&self) -> bool {
        self.keyboard.is_gone() || self.screen.is_broken()
    }
}

/// Lets a line be typed behind a prompt. The window may be made wider or narrower meanwhile.
fn ask<W: Write>(
    screen: &mut Screen<W>,
    keyboard: &mut Keyboard,
    history: &mut History,
    prompt: &str,
    text: &str,
) -> Asked {
    let mut editor = Editor::holding(text);
    loop {
        if !keyboard.has_more() {
            draw(screen, keyboard, prompt, &editor);
        }
        let pressed = editor.press(keyboard.key(), history);
        if pressed == Pressed::Editing {
            continue;
        }
        screen.complete(prompt, &editor.text());
        return match pressed {
            Pressed::Entered(line) => {
                history.add(&line);
                Asked::Line(line)
            }
            Pressed::Closed => Asked::Closed,
            Pressed::Interrupted | Pressed::Editing => Asked::Interrupted,
        };
    }
}

/// Draws the line that is being typed; what stands there for a window of another width is taken away first.
fn draw<W: Write>(screen: &mut Screen<W>, keyboard: &mut Keyboard, prompt: &str, editor: &Editor) {
    let width = raw::width();
    if screen.is_for_another_width(width) {
        let asked = screen.asks_for_cursor(width);
        let column = asked.then(|| keyboard.cursor_column()).flatten();
        screen.take_away(width, column);
    }
    let prompt = end_of(prompt, width.saturating_sub(LEAST_ROOM + 1));
    let room = width.saturating_sub(prompt.chars().count() + 1); // the last column stays free: terminals differ there
    screen.draw(&prompt, &editor.row(room), width);
}

/// A prompt, or its end where there is no room for more.
fn end_of(prompt: &str, room: usize) -> String {
    let count = prompt.chars().count();
    match count <= room {
        true => prompt.to_string(),
        false => {
            let dropped = (count + 1).saturating_sub(room);
            "…".chars().chain(prompt.chars().skip(dropped)).collect()
        }
    }
}

impl<W: Write> Dealer for Seat<W> {
    fn show(&mut self, output: &[u8]) {
        self.screen.program(output);
    }

    fn reply(&mut self, line: u16) -> Option<Vec<u8>> {
        let prompt = format!("line {line} asks {PROMPT}");
        let (screen, keyboard) = (&mut self.screen, &mut self.keyboard);
        match ask(screen, keyboard, &mut self.replies, &prompt, "") {
            Asked::Line(reply) => Some(reply.into_bytes()),
            Asked::Interrupted | Asked::Closed => None,
        }
    }

    fn interrupts(&mut self) -> bool {
        self.keyboard.interrupted() || self.has_left()
    }
}
