//! Splitting a text into words, always the longest that fits.

use crate::typing::{class, Class};

#[derive(Clone, Copy, Debug, PartialEq, Eq)]
pub enum Keyword {
    Let,
    Go,
    To,
    Sub,
    Goto,
    Gosub,
    Return,
    Pr,
    Print,
    If,
    Then,
    Do,
    Until,
    For,
    Step,
    Next,
    Input,
    Rem,
    End,
    Stat,
    Top,
    Mod,
    And,
    Or,
    Not,
}

#[derive(Clone, Copy, Debug, PartialEq, Eq)]
pub enum Word {
    /// A single capital, 0 for A to 25 for Z.
    Variable(u8),
    Keyword(Keyword),
    Decimal(u16),
    Hex(u16),
    /// A string; the positions are those of its text, without the quotes.
    Quoted(usize, usize),
    /// One of the marks that stand alone.
    Mark(u8),
    AtMost,
    AtLeast,
    Unequal,
    /// The text is used up.
    Finish,
    /// No word begins here, so no line that needs one here has a reading.
    Nothing,
}

/// The words of one text, handed out one at a time: what is not asked for is
/// not looked at, which the ignored rest of a reply depends on.
pub struct Words<'a> {
    text: &'a [u8],
    position: usize,
}

impl<'a> Words<'a> {
    pub fn new(text: &'a [u8]) -> Words<'a> {
        Words { text, position: 0 }
    }

    /// The position past the words handed out.
    pub fn position(&self) -> usize {
        self.position
    }

    /// Gives up what is left, as REM does.
    pub fn skip_rest(&mut self) {
        self.position = self.text.len();
    }

    /// The text bytes of a string this reader handed out.
    pub fn quoted(&self, start: usize, end: usize) -> &'a [u8] {
        &self.text[start..end]
    }

    /// The next word and the position of its first byte.
    pub fn next_word(&mut self) -> (usize, Word) {
        self.position = run_end(self.text, self.position, |byte| byte == b' ');
        let start = self.position;
        let Some(&first) = self.text.get(start) else {
            return (start, Word::Finish);
        };
        let (end, word) = match class(first) {
            Class::Capital => self.capitals(start),
            Class::Digit => self.decimal(start),
            Class::Quote => self.string(start),
            _ if first == b'#' => self.hex(start),
            _ => self.mark(start, first),
        };
        self.position = end;
        (start, word)
    }

    /// The longest keyword that begins here, or else a variable, if no letter
    /// follows. A letter that one follows is no variable, also where a keyword
    /// begins behind it.
    fn capitals(&self, start: usize) -> (usize, Word) {
        let rest = &self.text[start..];
        match rest.get(1) {
            Some(next) if next.is_ascii_uppercase() => match keyword(rest) {
                Some((spelling, keyword)) => (start + spelling.len(), Word::Keyword(keyword)),
                None => (start + 1, Word::Nothing),
            },
            // No keyword is a single letter.
            _ => (start + 1, Word::Variable(rest[0] - b'A')),
        }
    }

    fn decimal(&self, start: usize) -> (usize, Word) {
        let end = run_end(self.text, start, |byte| byte.is_ascii_digit());
        let word = decimal_value(&self.text[start..end]).map_or(Word::Nothing, Word::Decimal);
        (end, word)
    }

    fn hex(&self, start: usize) -> (usize, Word) {
        let digits = start + 1;
        let end = run_end(self.text, digits, |byte| hex_digit(byte).is_some());
        if end == digits {
            return (end, Word::Nothing);
        }
        // Shifting drops the high digits: the low 16 bits count.
        let value = self.text[digits..end]
            .iter()
            .filter_map(|&byte| hex_digit(byte))
            .fold(0u16, |value, digit| value << 4 | digit);
        (end, Word::Hex(value))
    }

    fn string(&self, start: usize) -> (usize, Word) {
        let inside = start + 1;
        let end = run_end(self.text, inside, |byte| byte != b'"');
        if end == self.text.len() {
            return (end, Word::Nothing);
        }
        (end + 1, Word::Quoted(inside, end))
    }

    fn mark(&self, start: usize, first: u8) -> (usize, Word) {
        let pair = match (first, self.text.get(start + 1)) {
            (b'<', Some(b'=')) => Some(Word::AtMost),
            (b'>', Some(b'=')) => Some(Word::AtLeast),
            (b'<', Some(b'>')) => Some(Word::Unequal),
            _ => None,
        };
        match pair {
            Some(word) => (start + 2, word),
            None if b"+-*/()=<>,;:@$".contains(&first) => (start + 1, Word::Mark(first)),
            None => (start + 1, Word::Nothing),
        }
    }
}

/// Where the run of bytes that `belongs` accepts ends.
pub fn run_end(text: &[u8], start: usize, belongs: impl Fn(u8) -> bool) -> usize {
    let run = text[start..].iter().position(|&byte| !belongs(byte));
    run.map_or(text.len(), |length| start + length)
}

/// The value of a run of digits, unless it is above 32,767.
pub fn decimal_value(digits: &[u8]) -> Option<u16> {
    let mut value: u32 = 0;
    for &digit in digits {
        value = value * 10 + u32::from(digit - b'0');
        if value > 32_767 {
            return None;
        }
    }
    u16::try_from(value).ok()
}

fn hex_digit(byte: u8) -> Option<u16> {
    match byte {
        b'0'..=b'9' => Some(u16::from(byte - b'0')),
        b'A'..=b'F' => Some(u16::from(byte - b'A') + 10),
        _ => None,
    }
}

type Spelt = (&'static [u8], Keyword);

/// The longest keyword that a text begins with. The text is not empty.
fn keyword(text: &[u8]) -> Option<Spelt> {
    let mut spelt = keywords_from(text[0]).iter();
    spelt.find(|(word, _)| text.starts_with(word)).copied()
}

/// The keywords that begin with a letter. Where one of them begins another,
/// the longer stands first.
fn keywords_from(letter: u8) -> &'static [Spelt] {
    match letter {
        b'A' => &[(b"AND", Keyword::And)],
        b'D' => &[(b"DO", Keyword::Do)],
        b'E' => &[(b"END", Keyword::End)],
        b'F' => &[(b"FOR", Keyword::For)],
        b'G' => &[
            (b"GOSUB", Keyword::Gosub),
            (b"GOTO", Keyword::Goto),
            (b"GO", Keyword::Go),
        ],
        b'I' => &[(b"IF", Keyword::If), (b"INPUT", Keyword::Input)],
        b'L' => &[(b"LET", Keyword::Let)],
        b'M' => &[(b"MOD", Keyword::Mod)],
        b'N' => &[(b"NEXT", Keyword::Next), (b"NOT", Keyword::Not)],
        b'O' => &[(b"OR", Keyword::Or)],
        b'P' => &[(b"PRINT", Keyword::Print), (b"PR", Keyword::Pr)],
        b'R' => &[(b"RETURN", Keyword::Return), (b"REM", Keyword::Rem)],
        b'S' => &[
            (b"STAT", Keyword::Stat),
            (b"STEP", Keyword::Step),
            (b"SUB", Keyword::Sub),
        ],
        b'T' => &[
            (b"THEN", Keyword::Then),
            (b"TOP", Keyword::Top),
            (b"TO", Keyword::To),
        ],
        b'U' => &[(b"UNTIL", Keyword::Until)],
        _ => &[],
    }
}
