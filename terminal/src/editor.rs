//! The line under the dealer's hands: a pure function of keys to a text and a cursor.

use crate::history::History;
use crate::keys::Key;
use crate::row::Row;

/// What a key led to.
#[derive(Debug, PartialEq, Eq)]
pub enum Pressed {
    Editing,
    Entered(String),
    Interrupted,
    Closed,
}

#[derive(Debug, Default)]
pub struct Editor {
    text: Vec<char>,
    cursor: usize,
    /// Which line of the history stands here, if one does.
    recalled: Option<usize>,
    /// What stood here before the history was looked through.
    draft: Vec<char>,
}

impl Editor {
    /// One that begins with a text.
    pub fn holding(text: &str) -> Editor {
        let mut editor = Editor::default();
        editor.replace(text.chars().collect());
        editor
    }

    pub fn text(&self) -> String {
        self.text.iter().collect()
    }

    pub fn press(&mut self, key: Key, history: &History) -> Pressed {
        match key {
            Key::Char('_') if !self.is_for_the_desk() => {
                self.drop_from(self.cursor.saturating_sub(1))
            }
            Key::Char(c) => {
                self.text.insert(self.cursor, c);
                self.cursor += 1;
            }
            Key::Left => self.cursor = self.cursor.saturating_sub(1),
            Key::Right => self.cursor = self.text.len().min(self.cursor + 1),
            Key::Home => self.cursor = 0,
            Key::End => self.cursor = self.text.len(),
            Key::Backspace => self.drop_from(self.cursor.saturating_sub(1)),
            Key::Delete => self.delete(),
            Key::DropBefore => self.drop_from(0),
            Key::DropAfter => self.text.truncate(self.cursor),
            Key::DropWord => self.drop_from(self.word_before()),
            Key::Up => self.older(history),
            Key::Down => self.newer(history),
            Key::Enter => return Pressed::Entered(self.text()),
            Key::Interrupt => return Pressed::Interrupted,
            Key::Close if self.text.is_empty() => return Pressed::Closed,
            Key::Close => self.delete(),
            Key::WindowChanged | Key::CursorIn(_) => {}
        }
        Pressed::Editing
    }

    /// The line in a row of `room` columns.
    pub fn row(&self, room: usize) -> Row {
        Row::around(&self.text, self.cursor, room)
    }

    /// A line that begins with a dot is no line of the controller's: there `_` takes nothing back, and may stand in a file's name.
    fn is_for_the_desk(&self) -> bool {
        let first = self.text.iter().find(|c| **c != ' ');
        first == Some(&'.')
    }

    /// Takes away what stands between a position and the cursor.
    fn drop_from(&mut self, begin: usize) {
        self.text.drain(begin..self.cursor);
        self.cursor = begin;
    }

    fn delete(&mut self) {
        if self.cursor < self.text.len() {
            self.text.remove(self.cursor);
        }
    }

    /// Where the word before the cursor begins, with the blanks behind it.
    fn word_before(&self) -> usize {
        let mut at = self.cursor;
        while at > 0 && self.text[at - 1] == ' ' {
            at -= 1;
        }
        while at > 0 && self.text[at - 1] != ' ' {
            at -= 1;
        }
        at
    }

    fn older(&mut self, history: &History) {
        let at = self.recalled.unwrap_or(history.count());
        let Some(line) = at.checked_sub(1).and_then(|at| history.get(at)) else {
            return;
        };
        if self.recalled.is_none() {
            self.draft = std::mem::take(&mut self.text);
        }
        self.recalled = Some(at - 1);
        self.replace(line.chars().collect());
    }

    fn newer(&mut self, history: &History) {
        let Some(at) = self.recalled else { return };
        let newer = history.get(at + 1);
        self.recalled = newer.map(|_| at + 1);
        let text = match newer {
            Some(line) => line.chars().collect(),
            None => std::mem::take(&mut self.draft),
        };
        self.replace(text);
    }

    fn replace(&mut self, text: Vec<char>) {
        self.cursor = text.len();
        self.text = text;
    }
}

#[cfg(test)]
mod tests {
    use super::*;
    use Key::*;

    fn typed(text: &str) -> Vec<Key> {
        text.chars().map(Char).collect()
    }

    /// The text with `|` where the cursor stands, after some keys.
    fn after(keys: &[Key], history: &[&str]) -> String {
        let mut past = History::default();
        history.iter().for_each(|line| past.add(line));
        let mut editor = Editor::default();
        for key in keys {
            assert_eq!(editor.press(*key, &past), Pressed::Editing);
        }
        let mut text = editor.text.clone();
        text.insert(editor.cursor, '|');
        text.into_iter().collect()
    }

    fn edited(text: &str, keys: &[Key]) -> String {
        after(&[typed(text), keys.to_vec()].concat(), &[])
    }

    #[test]
    fn moves_and_stays_within_the_line() {
        assert_eq!(edited("RUN", &[Left]), "RU|N");
        assert_eq!(edited("RUN", &[Home, Left]), "|RUN");
        assert_eq!(edited("RUN", &[Home, Right]), "R|UN");
        assert_eq!(edited("RUN", &[Right]), "RUN|");
        assert_eq!(edited("RUN", &[Home, End]), "RUN|");
        assert_eq!(edited("UN", &[Home, Char('R')]), "R|UN");
    }

    #[test]
    fn takes_characters_away() {
        assert_eq!(edited("RUN", &[Left, Backspace]), "R|N");
        assert_eq!(edited("RUN", &[Home, Backspace]), "|RUN");
        assert_eq!(edited("RUN", &[Home, Delete]), "|UN");
        assert_eq!(edited("RUN", &[Delete]), "RUN|");
        assert_eq!(edited("RUN", &[Left, Left, DropBefore]), "|UN");
        assert_eq!(edited("RUN", &[Left, Left, DropAfter]), "R|");
        assert_eq!(edited("10 GOTO  20 ", &[DropWord]), "10 GOTO  |");
        assert_eq!(edited("10 GOTO  20 ", &[DropWord, DropWord]), "10 |");
        assert_eq!(edited("10", &[DropWord, DropWord]), "|");
    }

    #[test]
    fn an_underline_takes_back_what_stands_before_it_as_typing_does() {
        assert_eq!(edited("PRIM_NT", &[]), "PRINT|");
        assert_eq!(edited("PRIMT", &[Left, Char('_')]), "PRI|T");
        assert_eq!(edited("_", &[]), "|");
        assert_eq!(edited(".load my_rules.nib", &[]), ".load my_rules.nib|");
    }

    #[test]
    fn a_line_may_be_there_to_be_changed() {
        let mut editor = Editor::holding("20 END");
        editor.press(Backspace, &History::default());
        assert_eq!(editor.text(), "20 EN");
    }

    #[test]
    fn history_comes_back_and_the_draft_too() {
        let past = ["10 END", "RUN"];
        assert_eq!(after(&[Up], &past), "RUN|");
        assert_eq!(after(&[Up, Up], &past), "10 END|");
        assert_eq!(after(&[Up, Up, Up], &past), "10 END|");
        assert_eq!(after(&[Up, Up, Down], &past), "RUN|");
        assert_eq!(after(&[Char('L'), Up, Down], &past), "L|");
        assert_eq!(after(&[Char('L'), Up, Up, Down, Down, Down], &past), "L|");
        assert_eq!(after(&[Up, Up, Left, Delete], &past), "10 EN|");
        assert_eq!(after(&[Char('L'), Up, Down], &[]), "L|");
    }

    #[test]
    fn enter_sends_the_whole_line_wherever_the_cursor_is() {
        let mut editor = Editor::default();
        for key in typed("RUN") {
            editor.press(key, &History::default());
        }
        editor.press(Home, &History::default());
        let pressed = editor.press(Enter, &History::default());
        assert_eq!(pressed, Pressed::Entered("RUN".to_string()));
    }

    #[test]
    fn close_ends_only_an_empty_line() {
        let none = History::default();
        assert_eq!(Editor::default().press(Close, &none), Pressed::Closed);
        assert_eq!(
            Editor::default().press(Interrupt, &none),
            Pressed::Interrupted
        );
        assert_eq!(edited("RUN", &[Home, Close]), "|UN");
    }
}
