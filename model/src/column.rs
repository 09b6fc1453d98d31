//! The column of a line that has no reading: the length of its longest front
//! part that some line with a reading begins with, however long that line is.
//!
//! It is looked for just so: front parts are tried from the longest down. One
//! is tried by a reader that follows the grammar over its bytes and makes no
//! tree. This reader always halts, in one of two ways.
//!
//! - [`Halt::Ended`]: the text ended, and every word in it may stand where it
//!   stands. Then some line with a reading begins with it, for whatever is open
//!   can be written out: first the rest of the word the text ends in, if that
//!   is still to be finished, and then words with a space before each, which
//!   touch nothing.
//! - [`Halt::Wrong`]: what stands here is no word that may stand here, nor the
//!   front of one at the end of the text. Then no line with a reading begins
//!   so, for bytes behind a text change none of its words but one that they
//!   make reach over its end.
//!
//! Such a word may be two before: GOT is GO and T, and GOTO with an O behind
//! it. So a word that the text has begun goes before a shorter one that it has
//! whole, and where one that may stand at a place begins another that may, both
//! are asked for at once: GO, GOTO and GOSUB, and PR and PRINT. (TO begins TOP,
//! which may never stand where TO may; no text ends between the two.)

use crate::typing::{is_text_byte, Gathered, LINE_LIMIT};
use crate::words::{run_end, Word, Words};

/// The words that a statement begins with, if it does not begin with a variable
/// or a mark.
const STATEMENTS: [&str; 16] = [
    "LET", "GO", "GOTO", "GOSUB", "RETURN", "PR", "PRINT", "IF", "DO", "UNTIL", "FOR", "NEXT",
    "INPUT", "REM", "END", "STAT",
];

/// No command begins with a keyword, nor a keyword with a command.
const COMMANDS: [&str; 4] = ["NEW", "CLEAR", "LIST", "RUN"];

/// The column of a gathered line that is refused.
pub fn column(line: &Gathered) -> u32 {
    let column = match line.over_long {
        true => LINE_LIMIT,
        false => longest_front(line.kept()),
    };
    column as u32
}

/// The length of the longest front part of these bytes that is a front. A line
/// of no byte has a reading, so there is one.
pub fn longest_front(kept: &[u8]) -> usize {
    let mut lengths = (0..=kept.len()).rev();
    let longest = lengths.find(|&length| is_front(&kept[..length]));
    longest.unwrap_or(0)
}

/// Does some line with a reading begin with this text?
pub fn is_front(text: &[u8]) -> bool {
    let mut front = Front { text, at: 0 };
    text.iter().copied().all(is_text_byte) && front.line() == Err(Halt::Ended)
}

/// Why the reader goes no further.
#[derive(Clone, Copy, Debug, PartialEq, Eq)]
enum Halt {
    /// The text has ended, and a line with a reading can go on from there.
    Ended,
    /// No line with a reading has at this place what stands here.
    Wrong,
}

/// A part of the grammar was read, up to where the reader now stands, or it
/// halted there.
type Part<T = ()> = Result<T, Halt>;

struct Front<'a> {
    text: &'a [u8],
    at: usize,
}

impl<'a> Front<'a> {
    /// What is left behind spaces, if anything is.
    fn rest(&mut self) -> Part<&'a [u8]> {
        self.at = run_end(self.text, self.at, |byte| byte == b' ');
        match &self.text[self.at..] {
            [] => Err(Halt::Ended),
            rest => Ok(rest),
        }
    }

    /// The word that stands here, and where it ends.
    fn word(&mut self) -> Part<(Word, usize)> {
        let mut words = Words::new(self.rest()?);
        let (_, word) = words.next_word();
        Ok((word, self.at + words.position()))
    }

    /// Steps over the word that stands here if it is one of those wanted.
    fn take(&mut self, wanted: impl Fn(Word) -> bool) -> Part<bool> {
        let (word, end) = self.word()?;
        let found = wanted(word);
        if found {
            self.at = end;
        }
        Ok(found)
    }

    /// Steps over one of these marks, if it stands here.
    fn mark(&mut self, marks: &[u8]) -> Part<bool> {
        self.take(|word| matches!(word, Word::Mark(mark) if marks.contains(&mark)))
    }

    /// Steps over one of these keywords, if it is the word that stands here.
    /// Halts if the text ends within one.
    fn keyword(&mut self, keywords: &[&'static str]) -> Part<Option<&'static str>> {
        let rest = self.rest()?;
        if keywords.iter().any(|keyword| is_begun(keyword, rest)) {
            return Err(Halt::Ended);
        }
        let (_, end) = self.word()?;
        let word = &self.text[self.at..end];
        let found = keywords.iter().find(|keyword| keyword.as_bytes() == word);
        if found.is_some() {
            self.at = end;
        }
        Ok(found.copied())
    }

    /// The same of commands, which are no words of [`Words`].
    fn command(&mut self) -> Part<Option<&'static str>> {
        let rest = self.rest()?;
        if COMMANDS.iter().any(|command| is_begun(command, rest)) {
            return Err(Halt::Ended);
        }
        let found = COMMANDS
            .iter()
            .find(|command| rest.starts_with(command.as_bytes()));
        self.at += found.map_or(0, |command| command.len());
        Ok(found.copied())
    }

    /// Reads a whole line, and so halts.
    fn line(&mut self) -> Part {
        if self.rest()?[0].is_ascii_digit() {
            need(self.take(is_decimal)?)?;
            self.list()?;
        } else {
            match self.command()? {
                Some("LIST") => {
                    self.take(is_decimal)?;
                }
                Some(_) => {}
                None => self.statement()?,
            }
        }
        self.rest()?;
        Err(Halt::Wrong)
    }

    fn list(&mut self) -> Part {
        self.statement()?;
        while self.mark(b":")? {
            self.statement()?;
        }
        Ok(())
    }

    fn statement(&mut self) -> Part {
        match self.keyword(&STATEMENTS)? {
            None | Some("LET") => self.assignment(),
            Some("STAT") => self.value(),
            Some("GO") => {
                let found = self.keyword(&["TO", "SUB"])?;
                need(found.is_some())?;
                self.relation()
            }
            Some("GOTO" | "GOSUB" | "UNTIL") => self.relation(),
            Some("PR" | "PRINT") => self.print(),
            Some("IF") => {
                self.relation()?;
                self.keyword(&["THEN"])?;
                self.statement()
            }
            Some("FOR") => self.for_loop(),
            Some("NEXT") => self.variable(),
            Some("INPUT") => self.input(),
            // All text bytes may follow.
            Some("REM") => Err(Halt::Ended),
            Some(_) => Ok(()),
        }
    }

    fn assignment(&mut self) -> Part {
        if self.mark(b"$")? {
            self.factor()?;
            need(self.mark(b"=")?)?;
            return match self.mark(b"$")? {
                true => self.factor(),
                false => self.string().and_then(need),
            };
        }
        if self.mark(b"@")? {
            self.factor()?;
        } else if self.keyword(&["STAT"])?.is_none() {
            self.variable()?;
        }
        self.value()
    }

    /// What an assignment gives.
    fn value(&mut self) -> Part {
        need(self.mark(b"=")?)?;
        self.relation()
    }

    fn print(&mut self) -> Part {
        self.item()?;
        while self.mark(b",")? {
            self.item()?;
        }
        self.mark(b";")?;
        Ok(())
    }

    fn item(&mut self) -> Part {
        if self.mark(b"$")? {
            return self.factor();
        }
        match self.string()? {
            true => Ok(()),
            false => self.relation(),
        }
    }

    fn for_loop(&mut self) -> Part {
        self.variable()?;
        self.value()?;
        let found = self.keyword(&["TO"])?;
        need(found.is_some())?;
        self.relation()?;
        match self.keyword(&["STEP"])? {
            Some(_) => self.relation(),
            None => Ok(()),
        }
    }

    fn input(&mut self) -> Part {
        if self.mark(b"$")? {
            return self.factor();
        }
        self.variable()?;
        while self.mark(b",")? {
            self.variable()?;
        }
        Ok(())
    }

    fn relation(&mut self) -> Part {
        self.sum()?;
        match self.take(compares)? {
            true => self.sum(),
            false => Ok(()),
        }
    }

    fn sum(&mut self) -> Part {
        self.mark(b"+-")?;
        self.term()?;
        while self.mark(b"+-")? || self.keyword(&["OR"])?.is_some() {
            self.term()?;
        }
        Ok(())
    }

    fn term(&mut self) -> Part {
        self.factor()?;
        while self.mark(b"*/")? || self.keyword(&["AND"])?.is_some() {
            self.factor()?;
        }
        Ok(())
    }

    fn factor(&mut self) -> Part {
        if self.mark(b"(")? {
            self.relation()?;
            return need(self.mark(b")")?);
        }
        if self.mark(b"@")? {
            return self.factor();
        }
        match self.keyword(&["STAT", "TOP", "NOT", "MOD"])? {
            Some("NOT") => self.factor(),
            Some("MOD") => self.modulus(),
            Some(_) => Ok(()),
            None => self.operand(),
        }
    }

    fn modulus(&mut self) -> Part {
        need(self.mark(b"(")?)?;
        self.relation()?;
        need(self.mark(b",")?)?;
        self.relation()?;
        need(self.mark(b")")?)
    }

    /// A variable or a constant.
    fn operand(&mut self) -> Part {
        if self.rest()? == b"#" {
            return Err(Halt::Ended);
        }
        let operand = |word| matches!(word, Word::Variable(_) | Word::Decimal(_) | Word::Hex(_));
        need(self.take(operand)?)
    }

    fn variable(&mut self) -> Part {
        need(self.take(|word| matches!(word, Word::Variable(_)))?)
    }

    /// Steps over a string, if one stands here. One that is open takes every
    /// byte up to the end of the text, which it therefore halts at.
    fn string(&mut self) -> Part<bool> {
        let rest = self.rest()?;
        if rest[0] == b'"' && !rest[1..].contains(&b'"') {
            return Err(Halt::Ended);
        }
        self.take(|word| matches!(word, Word::Quoted(..)))
    }
}

/// Halts unless what must stand here was found.
fn need(found: bool) -> Part {
    match found {
        true => Ok(()),
        false => Err(Halt::Wrong),
    }
}

fn is_decimal(word: Word) -> bool {
    matches!(word, Word::Decimal(_))
}

fn compares(word: Word) -> bool {
    match word {
        Word::Mark(mark) => b"=<>".contains(&mark),
        Word::AtMost | Word::AtLeast | Word::Unequal => true,
        _ => false,
    }
}

/// Is what is left of a text the front of this word, and not all of it?
fn is_begun(word: &str, rest: &[u8]) -> bool {
    rest.len() < word.len() && word.as_bytes().starts_with(rest)
}
