//! Gathering a typed line or a reply from the input, byte by byte.

pub const CR: u8 = 13;
pub const LF: u8 = 10;

/// The most bytes a line keeps.
pub const LINE_LIMIT: usize = 72;

/// What a byte value means to the typist and to the word reader.
#[derive(Clone, Copy, Debug, PartialEq, Eq)]
pub enum Class {
    Dropped,
    Cr,
    Erase,
    Discard,
    Space,
    Digit,
    Capital,
    Quote,
    Other,
}

pub const fn class(byte: u8) -> Class {
    match byte {
        0 | LF => Class::Dropped,
        CR => Class::Cr,
        95 => Class::Erase,
        21 => Class::Discard,
        b' ' => Class::Space,
        b'0'..=b'9' => Class::Digit,
        b'A'..=b'Z' => Class::Capital,
        b'"' => Class::Quote,
        _ => Class::Other,
    }
}

/// May the byte stand in a stored text or in a line that has a reading?
pub const fn is_text_byte(byte: u8) -> bool {
    matches!(byte, 32..=126) && byte != 95
}

/// A line taken from the input.
#[derive(Clone, Debug)]
pub struct Gathered {
    bytes: [u8; LINE_LIMIT],
    length: usize,
    /// A 73rd byte would have been kept, and no later discard cleared it.
    pub over_long: bool,
    /// The input position after the line's CR.
    pub after: usize,
}

impl Gathered {
    /// The bytes kept.
    pub fn kept(&self) -> &[u8] {
        &self.bytes[..self.length]
    }

    fn keep(&mut self, byte: u8) {
        if self.length == LINE_LIMIT {
            self.over_long = true;
        } else {
            self.bytes[self.length] = byte;
            self.length += 1;
        }
    }

    fn discard(&mut self) {
        self.length = 0;
        self.over_long = false;
    }

    fn take(&mut self, byte: u8) {
        match class(byte) {
            Class::Dropped => {}
            Class::Discard => self.discard(),
            // Over-long stays over-long: only a discard clears that.
            Class::Erase => self.length = self.length.saturating_sub(1),
            _ => self.keep(byte),
        }
    }
}

/// The line that begins at `from`, or nothing if no CR is left.
pub fn gather(input: &[u8], from: usize) -> Option<Gathered> {
    let rest = input.get(from..)?;
    let typed = rest.iter().position(|&byte| byte == CR)?;
    let mut line = Gathered {
        bytes: [0; LINE_LIMIT],
        length: 0,
        over_long: false,
        after: from + typed + 1,
    };
    for &byte in &rest[..typed] {
        line.take(byte);
    }
    Some(line)
}
