//! The bytes that a terminal sends, made into keys.

/// What a dealer pressed, or pasted.
#[derive(Clone, Copy, Debug, PartialEq, Eq)]
pub enum Key {
    Char(char),
    Enter,
    Backspace,
    Delete,
    Left,
    Right,
    Up,
    Down,
    Home,
    End,
    /// Ctrl-U: all before the cursor goes.
    DropBefore,
    /// Ctrl-K: all from the cursor on goes.
    DropAfter,
    /// Ctrl-W: the word before the cursor goes.
    DropWord,
    /// Ctrl-C.
    Interrupt,
    /// Ctrl-D, or the terminal is gone.
    Close,
    /// No key: the window was made wider or narrower.
    WindowChanged,
    /// No key: the terminal was asked where its cursor stands, and says the column, counted from 0.
    CursorIn(usize),
}

const ESC: u8 = 27;
const CR: u8 = 13;
const LF: u8 = 10;
const PASTE_BEGINS: &[u8] = b"200~";
const PASTE_ENDS: &[u8] = b"201~";
/// No key's sequence is longer; a longer one is thrown away.
const SEQUENCE_LIMIT: usize = 16;

#[derive(Debug, Default, PartialEq, Eq)]
enum State {
    #[default]
    Plain,
    /// After Esc.
    Escape,
    /// After Esc and `O`.
    Function,
    /// After Esc and `[`, with what has come since.
    Sequence(Vec<u8>),
}

/// Takes bytes one at a time and gives the keys that are complete.
#[derive(Debug, Default)]
pub struct Decoder {
    state: State,
    /// Between the marks of a paste bytes are text, whatever key would send them.
    pasting: bool,
    /// A LF directly behind CR belongs to the same line end.
    after_cr: bool,
    /// The first bytes of a character of several.
    partial: Vec<u8>,
}

impl Decoder {
    pub fn feed(&mut self, byte: u8) -> impl Iterator<Item = Key> {
        let cut = self.cut_short(byte);
        [cut, self.next(byte)].into_iter().flatten()
    }

    /// The mark for what is no UTF-8, where this byte does not go on with the character that has begun.
    fn cut_short(&mut self, byte: u8) -> Option<Key> {
        if self.partial.is_empty() || matches!(byte, 128..=191) {
            return None;
        }
        self.partial.clear();
        Some(Key::Char(char::REPLACEMENT_CHARACTER))
    }

    fn next(&mut self, byte: u8) -> Option<Key> {
        match std::mem::take(&mut self.state) {
            State::Plain => self.plain(byte),
            State::Escape => {
                self.state = match byte {
                    b'[' => State::Sequence(Vec::new()),
                    b'O' => State::Function,
                    ESC => State::Escape,
                    _ => State::Plain, // Alt and a key: no key here
                };
                None
            }
            State::Function => final_key(byte),
            State::Sequence(bytes) => self.sequence(bytes, byte),
        }
    }

    /// Is more expected behind an Esc?
    pub fn is_waiting(&self) -> bool {
        self.state != State::Plain
    }

    /// Nothing came behind an Esc: it was the key itself, which does nothing.
    pub fn give_up(&mut self) {
        self.state = State::Plain;
    }

    fn plain(&mut self, byte: u8) -> Option<Key> {
        let after_cr = std::mem::replace(&mut self.after_cr, byte == CR);
        match byte {
            ESC => {
                self.state = State::Escape;
                None
            }
            LF if after_cr => None,
            CR | LF => Some(Key::Enter),
            0..=127 if self.pasting => Some(Key::Char(char::from(byte))),
            9 | 32..=126 => Some(Key::Char(char::from(byte))),
            0..=31 | 127 => control_key(byte),
            128..=255 => self.part_of_character(byte),
        }
    }

    /// UTF-8; what is none becomes the mark for that.
    fn part_of_character(&mut self, byte: u8) -> Option<Key> {
        self.partial.push(byte);
        let read = match std::str::from_utf8(&self.partial) {
            Ok(text) => text.chars().next(),
            Err(error) if error.error_len().is_none() => return None,
            Err(_) => Some(char::REPLACEMENT_CHARACTER),
        };
        self.partial.clear();
        read.map(Key::Char)
    }

    fn sequence(&mut self, mut bytes: Vec<u8>, byte: u8) -> Option<Key> {
        let is_last = matches!(byte, 64..=126) && !(bytes.is_empty() && byte == b'[');
        bytes.push(byte);
        if !is_last {
            if bytes.len() < SEQUENCE_LIMIT {
                self.state = State::Sequence(bytes);
            }
            return None;
        }
        match bytes.as_slice() {
            PASTE_BEGINS => self.pasting = true,
            PASTE_ENDS => self.pasting = false,
            _ if self.pasting => {}
            _ if byte == b'~' => return numbered_key(&bytes),
            _ if byte == b'R' => return cursor_report(&bytes),
            _ if bytes.first() != Some(&b'[') => return final_key(byte),
            _ => {}
        }
        None
    }
}

fn control_key(byte: u8) -> Option<Key> {
    Some(match byte {
        1 => Key::Home,
        2 => Key::Left,
        3 => Key::Interrupt,
        4 => Key::Close,
        5 => Key::End,
        6 => Key::Right,
        8 | 127 => Key::Backspace,
        11 => Key::DropAfter,
        14 => Key::Down,
        16 => Key::Up,
        21 => Key::DropBefore,
        23 => Key::DropWord,
        _ => return None,
    })
}

/// A sequence that its last byte names, whatever modifiers stand before it.
fn final_key(byte: u8) -> Option<Key> {
    Some(match byte {
        b'A' => Key::Up,
        b'B' => Key::Down,
        b'C' => Key::Right,
        b'D' => Key::Left,
        b'F' => Key::End,
        b'H' => Key::Home,
        _ => return None,
    })
}

/// A sequence that its first number names.
fn numbered_key(bytes: &[u8]) -> Option<Key> {
    let digits = bytes.split(|b| !b.is_ascii_digit()).next()?;
    Some(match digits {
        b"1" | b"7" => Key::Home,
        b"3" => Key::Delete,
        b"4" | b"8" => Key::End,
        _ => return None,
    })
}

/// What a terminal says of its cursor: row and column, each counted from 1.
fn cursor_report(bytes: &[u8]) -> Option<Key> {
    let text = std::str::from_utf8(bytes).ok()?.strip_suffix('R')?;
    let (_, column) = text.split_once(';')?;
    let column: usize = column.parse().ok()?;
    Some(Key::CursorIn(column.checked_sub(1)?))
}

#[cfg(test)]
mod tests {
    use super::*;

    fn keys(bytes: &[u8]) -> Vec<Key> {
        let mut decoder = Decoder::default();
        bytes.iter().flat_map(|b| decoder.feed(*b)).collect()
    }

    fn typed(text: &str) -> Vec<Key> {
        text.chars().map(Key::Char).collect()
    }

    #[test]
    fn text_is_text_and_the_line_end_is_enter_once() {
        assert_eq!(keys(b"A_~"), typed("A_~"));
        assert_eq!(keys(b"\r"), [Key::Enter]);
        assert_eq!(keys(b"\r\n"), [Key::Enter]);
        assert_eq!(keys(b"\n\n"), [Key::Enter, Key::Enter]);
        assert_eq!(keys(b"\rA\n"), [Key::Enter, Key::Char('A'), Key::Enter]);
    }

    #[test]
    fn arrows_and_their_relatives_in_all_spellings() {
        assert_eq!(
            keys(b"\x1b[A\x1b[B\x1b[C\x1b[D"),
            [Key::Up, Key::Down, Key::Right, Key::Left]
        );
        assert_eq!(keys(b"\x1bOA\x1bOH\x1bOF"), [Key::Up, Key::Home, Key::End]);
        assert_eq!(keys(b"\x1b[H\x1b[1~\x1b[7~"), [Key::Home; 3]);
        assert_eq!(keys(b"\x1b[F\x1b[4~\x1b[8~"), [Key::End; 3]);
        assert_eq!(keys(b"\x1b[3~\x1b[3;5~"), [Key::Delete; 2]);
        assert_eq!(keys(b"\x1b[1;5D"), [Key::Left]);
        assert_eq!(
            keys(b"\x10\x0e\x02\x06"),
            [Key::Up, Key::Down, Key::Left, Key::Right]
        );
    }

    #[test]
    fn control_keys() {
        let pressed = [1, 5, 21, 11, 23, 8, 127, 3, 4];
        let wanted = [
            Key::Home,
            Key::End,
            Key::DropBefore,
            Key::DropAfter,
            Key::DropWord,
            Key::Backspace,
            Key::Backspace,
            Key::Interrupt,
            Key::Close,
        ];
        assert_eq!(keys(&pressed), wanted);
    }

    #[test]
    fn keys_that_mean_nothing_leave_nothing_behind() {
        assert_eq!(keys(b"\x1b[5~\x1b[6~\x1b[15~A"), typed("A"));
        assert_eq!(keys(b"\x1b[[AB"), typed("B")); // F1 of the Linux console
        assert_eq!(keys(b"\x1bfB\x1a\x1c"), typed("B"));
        let long = [b"\x1b[".as_slice(), &[b'1'; SEQUENCE_LIMIT], b"B"].concat();
        assert_eq!(keys(&long), typed("B"));
    }

    #[test]
    fn the_terminal_says_where_its_cursor_is() {
        assert_eq!(
            keys(b"\x1b[24;1R\x1b[7;132R"),
            [Key::CursorIn(0), Key::CursorIn(131)]
        );
        assert_eq!(keys(b"\x1b[R\x1b[24;0R\x1b[1;2;3RA"), typed("A"));
    }

    #[test]
    fn an_escape_alone_is_given_up() {
        let mut decoder = Decoder::default();
        assert_eq!(decoder.feed(ESC).next(), None);
        assert!(decoder.is_waiting());
        decoder.give_up();
        assert!(!decoder.is_waiting());
        assert_eq!(decoder.feed(b'A').next(), Some(Key::Char('A')));
    }

    #[test]
    fn pasted_bytes_are_text_but_for_line_ends() {
        let pasted = keys(b"\x1b[200~A\x03\tB\r\n\x15C\x1b[A\x1b[201~\x03");
        let mut wanted = typed("A\x03\tB");
        wanted.push(Key::Enter);
        wanted.extend(typed("\x15C"));
        wanted.push(Key::Interrupt);
        assert_eq!(pasted, wanted);
    }

    #[test]
    fn characters_of_several_bytes() {
        assert_eq!(keys("ä€🐄".as_bytes()), typed("ä€🐄"));
        assert_eq!(keys(b"\xffA"), typed("\u{fffd}A"));
    }

    #[test]
    fn a_character_that_is_cut_short_is_seen() {
        assert_eq!(keys(b"K\xe4se"), typed("K\u{fffd}se"));
        assert_eq!(keys(b"\xe2\x82\xc3\xa4"), typed("\u{fffd}ä"));
        assert_eq!(
            keys(b"\xc3\r"),
            [Key::Char(char::REPLACEMENT_CHARACTER), Key::Enter]
        );
    }
}
