//! As much of JSON as cases need: whole numbers, strings, lists, maps.

#[derive(Clone, Debug, PartialEq, Eq)]
pub enum Json {
    Null,
    Bool(bool),
    Number(i128),
    Text(String),
    List(Vec<Json>),
    /// The entries as they stand, a repeated key included.
    Map(Vec<(String, Json)>),
}

/// A case nests five deep; the limit keeps the reader's recursion small.
const DEPTH_LIMIT: usize = 16;

/// Reads one value that fills the text.
pub fn parse(text: &[u8]) -> Result<Json, String> {
    let mut parser = Parser { text, position: 0 };
    let value = parser.value(0)?;
    parser.skip_blanks();
    match parser.peek() {
        None => Ok(value),
        Some(_) => Err(parser.complaint("something after the value")),
    }
}

struct Parser<'a> {
    text: &'a [u8],
    position: usize,
}

impl Parser<'_> {
    fn complaint(&self, what: &str) -> String {
        format!("{what} at byte {}", self.position)
    }

    fn peek(&self) -> Option<u8> {
        self.text.get(self.position).copied()
    }

    fn skip_blanks(&mut self) {
        while matches!(self.peek(), Some(b' ' | b'\t' | b'\r' | b'\n')) {
            self.position += 1;
        }
    }

    fn accept(&mut self, byte: u8) -> bool {
        self.skip_blanks();
        let found = self.peek() == Some(byte);
        self.position += usize::from(found);
        found
    }

    fn expect(&mut self, byte: u8) -> Result<(), String> {
        match self.accept(byte) {
            true => Ok(()),
            false => Err(self.complaint(&format!("no {:?}", char::from(byte)))),
        }
    }

    fn value(&mut self, depth: usize) -> Result<Json, String> {
        if depth > DEPTH_LIMIT {
            return Err(self.complaint("too deep"));
        }
        self.skip_blanks();
        match self.peek() {
            Some(b'-' | b'0'..=b'9') => self.number(),
            Some(b'[') => self.list(depth),
            Some(b'{') => self.map(depth),
            Some(b'"') => Ok(Json::Text(self.string()?)),
            _ => self.name(),
        }
    }

    fn name(&mut self) -> Result<Json, String> {
        let names = [
            ("null", Json::Null),
            ("true", Json::Bool(true)),
            ("false", Json::Bool(false)),
        ];
        for (name, value) in names {
            if self.text[self.position..].starts_with(name.as_bytes()) {
                self.position += name.len();
                return Ok(value);
            }
        }
        Err(self.complaint("no value"))
    }

    fn number(&mut self) -> Result<Json, String> {
        let negative = self.accept(b'-');
        let start = self.position;
        while let Some(b'0'..=b'9') = self.peek() {
            self.position += 1;
        }
        let digits = &self.text[start..self.position];
        let leading_zero = digits.len() > 1 && digits[0] == b'0';
        if digits.is_empty() || leading_zero || matches!(self.peek(), Some(b'.' | b'e' | b'E')) {
            return Err(self.complaint("no whole number"));
        }
        let value = whole(digits).ok_or_else(|| self.complaint("too large a number"))?;
        Ok(Json::Number(if negative { -value } else { value }))
    }

    fn string(&mut self) -> Result<String, String> {
        self.expect(b'"')?;
        let mut bytes = Vec::new();
        loop {
            let byte = self.peek();
            self.position += 1;
            match byte {
                Some(b'"') => break,
                Some(b'\\') => self.escape(&mut bytes)?,
                Some(byte @ 32..) => bytes.push(byte),
                _ => return Err(self.complaint("no end of the string")),
            }
        }
        String::from_utf8(bytes).map_err(|_| self.complaint("no UTF-8"))
    }

    /// What stands behind a backslash.
    fn escape(&mut self, bytes: &mut Vec<u8>) -> Result<(), String> {
        let kind = self.peek();
        self.position += 1;
        let plain = match kind {
            Some(byte @ (b'"' | b'\\' | b'/')) => byte,
            Some(b'b') => 8,
            Some(b'f') => 12,
            Some(b'n') => b'\n',
            Some(b'r') => b'\r',
            Some(b't') => b'\t',
            Some(b'u') => return self.character(bytes),
            _ => return Err(self.complaint("no escape")),
        };
        bytes.push(plain);
        Ok(())
    }

    /// Four hex digits: a character that is no half of a pair, as all below 256.
    fn character(&mut self, bytes: &mut Vec<u8>) -> Result<(), String> {
        let digits = self.text.get(self.position..self.position + 4);
        let digits = digits.filter(|digits| digits.iter().all(u8::is_ascii_hexdigit));
        let number = digits.and_then(|digits| std::str::from_utf8(digits).ok());
        let number = number.and_then(|digits| u32::from_str_radix(digits, 16).ok());
        match number.and_then(char::from_u32) {
            None => Err(self.complaint("no character")),
            Some(character) => {
                self.position += 4;
                bytes.extend(character.encode_utf8(&mut [0; 4]).bytes());
                Ok(())
            }
        }
    }

    fn list(&mut self, depth: usize) -> Result<Json, String> {
        self.expect(b'[')?;
        let mut list = Vec::new();
        if self.accept(b']') {
            return Ok(Json::List(list));
        }
        loop {
            list.push(self.value(depth + 1)?);
            if !self.accept(b',') {
                self.expect(b']')?;
                return Ok(Json::List(list));
            }
        }
    }

    fn map(&mut self, depth: usize) -> Result<Json, String> {
        self.expect(b'{')?;
        let mut map = Vec::new();
        if self.accept(b'}') {
            return Ok(Json::Map(map));
        }
        loop {
            self.skip_blanks();
            let key = self.string()?;
            self.expect(b':')?;
            map.push((key, self.value(depth + 1)?));
            if !self.accept(b',') {
                self.expect(b'}')?;
                return Ok(Json::Map(map));
            }
        }
    }
}

/// The number of these digits. Most are few: then 64 bits do.
fn whole(digits: &[u8]) -> Option<i128> {
    const FEW: usize = 18;
    if digits.len() > FEW {
        return std::str::from_utf8(digits).ok()?.parse().ok();
    }
    let add = |value: i64, &digit: &u8| 10 * value + i64::from(digit - b'0');
    Some(digits.iter().fold(0, add).into())
}

/// Writes a list, each entry by `write`.
pub fn push_list<T>(out: &mut String, entries: &[T], write: impl Fn(&mut String, &T)) {
    out.push('[');
    for (index, entry) in entries.iter().enumerate() {
        if index > 0 {
            out.push(',');
        }
        write(out, entry);
    }
    out.push(']');
}

/// Writes bytes as a list of numbers, digit by digit: pages are long, and
/// formatting each number would take most of a driver's time.
pub fn push_bytes(out: &mut String, bytes: &[u8]) {
    out.reserve(4 * bytes.len() + 2);
    push_list(out, bytes, |out, &byte| {
        if byte >= 100 {
            out.push(char::from(b'0' + byte / 100));
        }
        if byte >= 10 {
            out.push(char::from(b'0' + byte / 10 % 10));
        }
        out.push(char::from(b'0' + byte % 10));
    });
}
