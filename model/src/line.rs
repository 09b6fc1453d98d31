//! What a typed line is: blank, a deletion, a line to store, a command or one
//! statement.

use crate::reader::{read_list, read_statement};
use crate::tree::{StatementId, Tree};
use crate::typing::is_text_byte;
use crate::words::{decimal_value, run_end, Word, Words};

/// A number that stands before a line. It is never a place in the page.
#[derive(Clone, Copy, Debug, PartialEq, Eq, PartialOrd, Ord)]
pub struct LineNumber(pub u16);

impl LineNumber {
    /// How many decimal digits it is written with, without leading zeros.
    pub fn digits(self) -> usize {
        match self.0 {
            0..=9 => 1,
            10..=99 => 2,
            100..=999 => 3,
            1000..=9999 => 4,
            _ => 5,
        }
    }
}

#[derive(Clone, Copy, Debug, PartialEq, Eq)]
pub enum Command {
    New,
    Clear,
    Run,
    /// From this number on, or from the first line.
    List(LineNumber),
}

#[derive(Clone, Copy, Debug, PartialEq, Eq)]
pub enum TypedLine<'a> {
    Blank,
    Delete(LineNumber),
    /// The text is what follows the number's last digit.
    Store(LineNumber, &'a [u8]),
    Command(Command),
    Statement(StatementId),
}

/// Reads the kept bytes of a typed line; `None` if they have no reading. A
/// statement's nodes are put into `tree`.
pub fn read_line<'a>(tree: &mut Tree, kept: &'a [u8]) -> Option<TypedLine<'a>> {
    if !kept.iter().copied().all(is_text_byte) {
        return None;
    }
    let start = run_end(kept, 0, |byte| byte == b' ');
    match kept.get(start) {
        None => Some(TypedLine::Blank),
        Some(byte) if byte.is_ascii_digit() => numbered(tree, kept, start),
        Some(_) => match command(&kept[start..]) {
            Front::Other => read_statement(tree, kept).map(TypedLine::Statement),
            Front::Command(command) => Some(TypedLine::Command(command)),
            Front::Spoilt => None,
        },
    }
}

fn numbered<'a>(tree: &mut Tree, kept: &'a [u8], start: usize) -> Option<TypedLine<'a>> {
    let end = run_end(kept, start, |byte| byte.is_ascii_digit());
    let number = LineNumber(decimal_value(&kept[start..end])?);
    let text = &kept[end..];
    if text.iter().all(|&byte| byte == b' ') {
        return Some(TypedLine::Delete(number));
    }
    read_list(tree, text, |_| {})?;
    Some(TypedLine::Store(number, text))
}

/// What an immediate line begins with.
enum Front {
    Command(Command),
    /// A command word with more behind it than the command takes.
    Spoilt,
    Other,
}

/// No command begins another, so one that begins the text is the longest.
fn command(text: &[u8]) -> Front {
    let command = match text {
        [b'N', b'E', b'W', rest @ ..] => alone(Command::New, rest),
        [b'C', b'L', b'E', b'A', b'R', rest @ ..] => alone(Command::Clear, rest),
        [b'R', b'U', b'N', rest @ ..] => alone(Command::Run, rest),
        [b'L', b'I', b'S', b'T', rest @ ..] => list(rest),
        _ => return Front::Other,
    };
    command.map_or(Front::Spoilt, Front::Command)
}

fn alone(command: Command, rest: &[u8]) -> Option<Command> {
    (Words::new(rest).next_word().1 == Word::Finish).then_some(command)
}

fn list(rest: &[u8]) -> Option<Command> {
    let mut words = Words::new(rest);
    match words.next_word().1 {
        Word::Finish => Some(Command::List(LineNumber(0))),
        Word::Decimal(number) if words.next_word().1 == Word::Finish => {
            Some(Command::List(LineNumber(number)))
        }
        _ => None,
    }
}
