//! The words of a line, taken as the controller takes them, also of a line that has no reading.

use crate::reading::{longest, WORDS};

#[derive(Clone, Copy, Debug, PartialEq, Eq)]
pub enum Kind {
    Word(&'static str),
    Variable,
    Number,
    Hex,
    /// A quoted text; is it closed?
    Text(bool),
    Remark,
    /// Any other byte.
    Sign(u8),
}

/// A word and the bytes where it stands.
#[derive(Clone, Copy, Debug, PartialEq, Eq)]
pub struct Token {
    pub kind: Kind,
    pub begin: usize,
    pub end: usize,
}

/// All words of a line; blanks are none.
pub fn tokens(line: &[u8]) -> Vec<Token> {
    let mut found = Vec::new();
    let mut begin = 0;
    while begin < line.len() {
        if line[begin] == b' ' {
            begin += 1;
            continue;
        }
        let (kind, length) = first(&line[begin..]);
        let end = begin + length;
        found.push(Token { kind, begin, end });
        begin = end;
        if kind == Kind::Word("REM") && begin < line.len() {
            found.push(Token {
                kind: Kind::Remark,
                begin,
                end: line.len(),
            });
            begin = line.len();
        }
    }
    found
}

/// The word with which a text begins, and its length.
fn first(text: &[u8]) -> (Kind, usize) {
    let run = |holds: fn(&u8) -> bool, at: usize| {
        let inside = text[at..].iter().take_while(|byte| holds(byte));
        at + inside.count()
    };
    match text[0] {
        b'A'..=b'Z' => match longest(text, WORDS.iter()) {
            Some(word) => (Kind::Word(word), word.len()),
            None => (Kind::Variable, 1),
        },
        b'0'..=b'9' => (Kind::Number, run(u8::is_ascii_digit, 0)),
        b'#' => (Kind::Hex, run(is_hex, 1)),
        b'"' => {
            let end = run(|byte| *byte != b'"', 1);
            let closed = end < text.len();
            (Kind::Text(closed), end + usize::from(closed))
        }
        byte => (Kind::Sign(byte), 1),
    }
}

fn is_hex(byte: &u8) -> bool {
    matches!(byte, b'0'..=b'9' | b'A'..=b'F')
}

#[cfg(test)]
mod tests {
    use super::*;

    #[test]
    fn the_longest_word_is_taken() {
        let line = b"10 GOTOX:PR\"A B\",#5AND3<=TOP:REM A=1";
        let found: Vec<(Kind, &str)> = tokens(line)
            .iter()
            .map(|t| {
                (
                    t.kind,
                    std::str::from_utf8(&line[t.begin..t.end]).expect("text"),
                )
            })
            .collect();
        let wanted = [
            (Kind::Number, "10"),
            (Kind::Word("GOTO"), "GOTO"),
            (Kind::Variable, "X"),
            (Kind::Sign(b':'), ":"),
            (Kind::Word("PR"), "PR"),
            (Kind::Text(true), "\"A B\""),
            (Kind::Sign(b','), ","),
            (Kind::Hex, "#5A"),
            (Kind::Variable, "N"),
        ];
        assert_eq!(found[..wanted.len()], wanted);
        assert_eq!(found.last(), Some(&(Kind::Remark, " A=1")));
        assert_eq!(
            tokens(b"PR \"A").last().map(|t| t.kind),
            Some(Kind::Text(false))
        );
        assert!(tokens(b"  ").is_empty());
    }
}
