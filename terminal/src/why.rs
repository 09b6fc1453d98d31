//! Why a line was refused, in words: what stands at the spot where no line could go on, and what to type instead.
//!
//! That a line has no reading, and from which byte on, is the controller's to say. This only finds words for it, and has none where it
//! does not know better than the column.

use nibl::{Answer, Stop};

use crate::lexis::{tokens, Kind, Token};
use crate::reading::{longest, COMMANDS, NUMBER_MOST, WORDS};
use crate::words::counted;

/// Words of other BASICs, and what to type instead.
const FOREIGN: [(&str, &str); 44] = [
    (
        "ELSE",
        "there is no ELSE: the next line is run where the IF does not hold",
    ),
    ("ENDIF", "there is no ENDIF: an IF ends with its line"),
    ("STOP", "there is no STOP: type END"),
    ("ON", "there is no ON: GOTO works its line out, GOTO 100*X"),
    (
        "WHILE",
        "there is no WHILE: type DO, and UNTIL behind the loop",
    ),
    ("WEND", "there is no WEND: a loop is DO and UNTIL"),
    ("REPEAT", "there is no REPEAT: type DO"),
    ("LOOP", "there is no LOOP: type UNTIL"),
    ("DIM", "there are no arrays: @(A+I) is a byte of memory"),
    ("DATA", "there is no DATA: store values in memory, @A=5"),
    ("READ", "there is no READ: values stand in memory, B=@A"),
    (
        "RESTORE",
        "there is no RESTORE: values stand in memory, B=@A",
    ),
    ("PEEK", "there is no PEEK: @A is the byte at A"),
    ("POKE", "there is no POKE: type @A=5"),
    ("DEF", "there is no DEF: GOSUB runs a part of the program"),
    (
        "INT",
        "there is no INT: all numbers are whole, and / drops the remainder",
    ),
    ("ABS", "there is no ABS: type IF A<0 A=-A"),
    ("SGN", "there is no SGN: type (A>0)-(A<0)"),
    ("SQR", "there is no SQR"),
    ("XOR", "there is no XOR: type (A OR B)-(A AND B)"),
    ("TRUE", "there is no TRUE: type 1"),
    ("FALSE", "there is no FALSE: type 0"),
    ("TAB", "there is no TAB: write blanks in a string"),
    ("SPC", "there is no SPC: write blanks in a string"),
    (
        "CHR",
        "there is no CHR$: @A stores a byte, and $A is the string there",
    ),
    ("ASC", "there is no ASC: @A is a byte of the string at A"),
    ("LEN", "there is no LEN: a string ends with the byte 13"),
    ("VAL", "there is no VAL: INPUT takes numbers"),
    ("GET", "there is no GET: type INPUT"),
    ("CLS", "there is no CLS"),
    ("RND", "RND is left out here"),
    ("LINK", "LINK is left out here"),
    ("PAGE", "PAGE is left out here: there is one page"),
    ("USR", "there is no USR"),
    ("CALL", "there is no CALL: type GOSUB and a line number"),
    ("CONT", "there is no CONT: at the desk . goes on"),
    (
        "SAVE",
        "SAVE is no line of the controller: at the desk type .save FILE",
    ),
    (
        "LOAD",
        "LOAD is no line of the controller: at the desk type .load FILE",
    ),
    (
        "EDIT",
        "EDIT is no line of the controller: at the desk type .edit 10",
    ),
    ("DELETE", "there is no DELETE: type the line's number alone"),
    ("RENUM", "there is no RENUM"),
    (
        "HELP",
        "HELP is no line of the controller: at the desk type .help",
    ),
    (
        "QUIT",
        "QUIT is no line of the controller: at the desk type .quit",
    ),
    (
        "EXIT",
        "EXIT is no line of the controller: at the desk type .quit",
    ),
];

/// Signs of other BASICs and of word processors, and what to type instead.
const SIGNS: [(&str, &str); 20] = [
    (
        "\t",
        "a TAB stands here: between words there are only blanks",
    ),
    ("\u{a0}", "a blank stands here that is none: type it again"),
    ("\u{201c}", "a quote is \""),
    ("\u{201d}", "a quote is \""),
    ("\u{201e}", "a quote is \""),
    ("\u{2013}", "a minus is -"),
    ("\u{2212}", "a minus is -"),
    ("×", "type *"),
    ("÷", "type /"),
    ("≤", "type <="),
    ("≥", "type >="),
    ("≠", "type <>"),
    ("!=", "type <>"),
    ("?", "? is no word here: type PRINT, or PR"),
    ("'", "a remark begins with REM"),
    ("^", "there is no power: multiply"),
    ("&", "a hex number is #1F, bits are joined by AND"),
    ("\\", "/ drops the remainder"),
    (".", "numbers are whole"),
    (
        "%",
        "% is no sign here: a variable is one letter, a remainder MOD(A,B)",
    ),
];

/// Words with which a statement begins.
const OPENERS: [&str; 15] = [
    "LET", "GO", "GOTO", "GOSUB", "RETURN", "PR", "PRINT", "IF", "DO", "UNTIL", "FOR", "NEXT",
    "INPUT", "REM", "END",
];

/// What a check says of a refused line, given as it was kept, and by how many bytes it is over-long.
pub fn refusal(kept: &[u8], over: usize, answer: &Answer) -> String {
    match answer.stop {
        Stop::NoReading => no_reading(kept, over, answer.column)
            .unwrap_or_else(|| "no line goes on so".to_string()),
        stop => stop.words().to_string(),
    }
}

/// Why a line has no reading, where that can be said.
pub fn no_reading(kept: &[u8], over: usize, column: u16) -> Option<String> {
    if over > 0 {
        return Some(format!("over-long by {}", counted(over as u64, "byte")));
    }
    let spot = Spot::of(kept, usize::from(column));
    spot.number()
        .or_else(|| spot.pair())
        .or_else(|| spot.behind_word())
        .or_else(|| spot.word())
        .or_else(|| spot.end())
        .or_else(|| spot.statement())
        .or_else(|| spot.sign())
        .or_else(|| spot.item())
}

/// The spot of a line: its first byte with which no line could go on.
struct Spot<'a> {
    line: &'a [u8],
    at: usize,
    /// The words before it; the last may go on behind it.
    before: Vec<Token>,
    /// Has the line a number?
    numbered: bool,
}

impl<'a> Spot<'a> {
    fn of(line: &'a [u8], at: usize) -> Spot<'a> {
        let at = at.min(line.len());
        let before = tokens(&line[..at]);
        let numbered = before.first().map(|token| token.kind) == Some(Kind::Number);
        Spot {
            line,
            at,
            before,
            numbered,
        }
    }

    fn rest(&self) -> &'a [u8] {
        &self.line[self.at..]
    }

    fn byte(&self) -> Option<u8> {
        self.rest().first().copied()
    }

    /// The last word before the spot.
    fn last(&self) -> Option<Kind> {
        self.before.last().map(|token| token.kind)
    }

    fn last_word(&self) -> Option<&'static str> {
        match self.last() {
            Some(Kind::Word(word)) => Some(word),
            _ => None,
        }
    }

    /// The whole word of letters at the spot, or directly before it.
    fn letters(&self) -> (usize, &'a [u8]) {
        let is_letter = |byte: &&u8| byte.is_ascii_uppercase();
        let behind = self.rest().iter().take_while(is_letter).count();
        let before = self.line[..self.at].iter().rev();
        let begin = self.at - before.take_while(is_letter).count();
        (begin, &self.line[begin..self.at + behind])
    }

    /// A number that is too large: its digits go on past the spot.
    fn number(&self) -> Option<String> {
        let digits = |bytes: &mut dyn Iterator<Item = &u8>| {
            bytes.take_while(|byte| byte.is_ascii_digit()).count()
        };
        self.byte().filter(u8::is_ascii_digit)?;
        let before = digits(&mut self.line[..self.at].iter().rev());
        let begin = self.at - before;
        (before > 0).then(|| match self.line[..begin].iter().all(|b| *b == b' ') {
            true => format!("a line number is at most {NUMBER_MOST}"),
            false => format!("a number is at most {NUMBER_MOST}; #8000 is -32768"),
        })
    }

    /// Signs of a comparison in the wrong order, or apart.
    fn pair(&self) -> Option<String> {
        let sign = self.byte()?;
        let Kind::Sign(before) = self.last()? else {
            return None;
        };
        let touches = self.line[self.at - 1] != b' ';
        let words = match (before, sign) {
            (b'=', b'>') => "type >=",
            (b'=', b'<') => "type <=",
            (b'>', b'<') => "type <>",
            (b'=', b'=') => "type = once",
            (b'*', b'*') => "there is no power: multiply",
            (b'<' | b'>', b'=' | b'>') if !touches => "no blank stands in <=, >= and <>",
            _ => return None,
        };
        Some(words.to_string())
    }

    /// What a word wants behind it, and what else stands there.
    fn behind_word(&self) -> Option<String> {
        let rest = String::from_utf8_lossy(self.rest()).into_owned();
        let digits: String = rest.chars().take_while(char::is_ascii_digit).collect();
        let words = match (self.last_word(), self.byte()) {
            (Some("THEN"), Some(b'0'..=b'9')) => format!("type THEN GOTO {digits}"),
            (Some("INPUT"), Some(b'"')) => {
                "INPUT asks no text: type PRINT \"COW\";:INPUT C".to_string()
            }
            (Some("NEXT"), None | Some(b':')) => "NEXT names its variable: NEXT I".to_string(),
            _ => return self.behind_command(&digits),
        };
        Some(words)
    }

    fn behind_command(&self, digits: &str) -> Option<String> {
        let (begin, front) = (self.front(), &self.line[..self.at]);
        let command = longest(&front[begin..], COMMANDS.iter()).filter(|_| !self.numbered)?;
        Some(match (command, self.byte()?) {
            ("LIST", b',' | b'-') => {
                "LIST goes on to the end: at the desk .list 10 20 ends there".to_string()
            }
            ("RUN", b'0'..=b'9') => format!("RUN starts at the first line: type GOTO {digits}"),
            ("LIST", _) => "behind LIST there may only be a line number".to_string(),
            _ => format!("{command} stands alone"),
        })
    }

    /// Where the line's first word begins.
    fn front(&self) -> usize {
        let blanks = self.line[..self.at].iter().take_while(|b| **b == b' ');
        blanks.count()
    }

    /// A run of letters that is no word.
    fn word(&self) -> Option<String> {
        if matches!(self.last(), Some(Kind::Text(false) | Kind::Remark)) {
            return None;
        }
        let (begin, letters) = self.letters();
        let wrong = wrong_from(letters);
        match self.byte() {
            Some(b'a'..=b'z') => return Some("words are in capitals".to_string()),
            Some(b'A'..=b'Z') => {}
            _ if wrong + 1 < letters.len() => {}
            _ => return None, // what has ended here is good as it is
        }
        let tail = match begin + wrong <= self.at {
            true => &letters[wrong..],
            false => letters,
        };
        self.foreign(begin, letters, tail)
            .or_else(|| self.command_in_line(letters))
            .or_else(|| self.hidden(begin, letters, tail))
            .or_else(|| likely(letters).or_else(|| likely(tail)))
            .or_else(|| self.unknown(wrong < letters.len(), tail))
    }

    /// A word of another BASIC.
    fn foreign(&self, begin: usize, letters: &[u8], tail: &[u8]) -> Option<String> {
        let at_spot = &letters[(self.at - begin).min(letters.len())..];
        if at_spot.starts_with(b"MOD") {
            return Some("MOD stands before its two values: MOD(5,3)".to_string());
        }
        let begins = |text: &[u8], word: &str| {
            text == word.as_bytes() || (word.len() > 3 && text.starts_with(word.as_bytes()))
        };
        let found = FOREIGN.iter().find(|(word, _)| {
            [letters, tail, at_spot]
                .iter()
                .any(|text| begins(text, word))
        });
        found.map(|(_, words)| words.to_string())
    }

    fn command_in_line(&self, letters: &[u8]) -> Option<String> {
        let command = COMMANDS.iter().find(|word| word.as_bytes() == letters)?;
        let words = format!("{command} is a command, and stands alone in a line without a number");
        self.numbered.then_some(words)
    }

    /// A word that is hidden by what it touches.
    fn hidden(&self, begin: usize, letters: &[u8], tail: &[u8]) -> Option<String> {
        if self.line[..begin]
            .iter()
            .rev()
            .find(|b| !b.is_ascii_digit())
            == Some(&b'#')
        {
            return Some("letters up to F are digits of a hex number: a blank ends it".to_string());
        }
        if letters.starts_with(b"TOP") && self.at > begin {
            return Some("TOP is one word: type TO P".to_string());
        }
        let (first, behind) = tail.split_first()?;
        longest(behind, WORDS.iter())?;
        let first = char::from(*first);
        Some(format!(
            "a letter follows the variable {first}: put a blank behind it"
        ))
    }

    /// A word that is none at all.
    fn unknown(&self, wrong: bool, tail: &[u8]) -> Option<String> {
        let word = String::from_utf8_lossy(tail);
        let many = tail.len() > 1 && wrong;
        many.then(|| format!("{word} is no word, and a variable is one letter"))
    }

    /// The line ends here.
    fn end(&self) -> Option<String> {
        if self.byte().is_some() {
            return None;
        }
        let count = |sign| {
            self.before
                .iter()
                .filter(|t| t.kind == Kind::Sign(sign))
                .count()
        };
        let words = match self.last() {
            Some(Kind::Text(false)) => "the string has no closing quote".to_string(),
            Some(Kind::Word(word)) => {
                format!("the line ends too soon: something must follow {word}")
            }
            Some(Kind::Sign(b':')) => "a statement must follow the :".to_string(),
            Some(Kind::Sign(sign)) if sign != b')' => {
                format!(
                    "the line ends too soon: something must follow {}",
                    char::from(sign)
                )
            }
            _ if count(b'(') > count(b')') => "a ) is missing".to_string(),
            _ => "the line ends too soon".to_string(),
        };
        Some(words)
    }

    /// A statement that begins here without a `:` before it, or where none may begin.
    fn statement(&self) -> Option<String> {
        let opener = longest(self.rest(), WORDS.iter()).filter(|word| OPENERS.contains(word));
        match (self.byte()?, opener) {
            (b':', _) | (_, Some(_)) if !self.numbered && self.last().is_some() => {
                Some("without a number there is one statement only".to_string())
            }
            (_, Some(word)) => Some(format!("a : is missing before {word}")),
            (b'0'..=b'9', None) if matches!(self.last(), Some(Kind::Number | Kind::Sign(b':'))) => {
                Some("no statement begins with a number".to_string())
            }
            _ => None,
        }
    }

    /// A sign that has no meaning here.
    fn sign(&self) -> Option<String> {
        let rest = String::from_utf8_lossy(self.rest()).into_owned();
        let known = SIGNS.iter().find(|(sign, _)| rest.starts_with(sign));
        if let Some((_, words)) = known {
            return Some(words.to_string());
        }
        match (rest.chars().next()?, self.byte()?) {
            (char::REPLACEMENT_CHARACTER, byte) | (_, byte @ (0..=31 | 127)) => {
                Some(format!("the byte {byte} is no text"))
            }
            (letter, 128..) => Some(format!(
                "{letter} may not stand in a line, only what lies between blank and ~"
            )),
            _ => None,
        }
    }

    /// A value, or a list of them, that goes on in no such way.
    fn item(&self) -> Option<String> {
        let prints = self
            .before
            .iter()
            .any(|token| matches!(token.kind, Kind::Word("PRINT" | "PR")));
        let words = match (self.last()?, self.byte()?) {
            (Kind::Variable, b'$') => "a string stands at an address: $512",
            (Kind::Variable, b'(') => "there are no arrays: @(A+1) is a byte of memory",
            (Kind::Variable, b'0'..=b'9' | b'!') => "a variable is one letter",
            (Kind::Sign(b';'), _) => "; stands last: items are joined by commas",
            (_, b';') if !prints => "; stands at the end of PRINT alone",
            (_, b'=' | b'<' | b'>') => "one comparison only: put each in brackets, (A=1) AND (B=2)",
            (Kind::Sign(b'*' | b'/' | b'+' | b'-' | b'(') | Kind::Word(_), b'-' | b'+') => {
                "a sign stands only in front: put it in brackets, 2*(-3)"
            }
            (_, b')') => "this ) has no ( before it",
            (Kind::Text(true), _) | (_, b'"') if prints => "a comma is missing between two items",
            _ => return None,
        };
        Some(words.to_string())
    }
}

/// How many bytes of a run of letters are words of the language.
fn wrong_from(letters: &[u8]) -> usize {
    let mut at = 0;
    while let Some(word) = longest(&letters[at..], WORDS.iter()) {
        at += word.len();
    }
    at
}

/// The word that is nearly this one; of several the one that begins most like it.
fn likely(letters: &[u8]) -> Option<String> {
    let all = WORDS.iter().chain(&COMMANDS);
    let near = all.filter(|word| word.len() > 2 && is_near(letters, word.as_bytes()));
    let near = near.max_by_key(|word| common(letters, word.as_bytes()))?;
    let word = String::from_utf8_lossy(letters);
    Some(format!("{word} is no word: {near}?"))
}

/// So many bytes are the same at the front.
fn common(one: &[u8], other: &[u8]) -> usize {
    one.iter().zip(other).take_while(|(a, b)| a == b).count()
}

/// Is one made of the other by one letter more, less, or other, or by two in the wrong order?
fn is_near(one: &[u8], other: &[u8]) -> bool {
    let front = common(one, other);
    let (one, other) = (&one[front..], &other[front..]);
    let swapped = matches!((one, other), ([a, b, rest @ ..], [c, d, others @ ..]) if (a, b) == (d, c) && rest == others);
    let (less, more) = (one.get(1..).unwrap_or(&[]), other.get(1..).unwrap_or(&[]));
    swapped
        || (!one.is_empty() && !other.is_empty() && less == more)
        || (!one.is_empty() && less == other)
        || (!other.is_empty() && one == more)
}

#[cfg(test)]
mod tests {
    use super::*;
    use crate::gather::Kept;
    use nibl::{Call, Controller};

    /// What is said of a line that the controller refuses.
    fn said(line: &str) -> String {
        let mut controller = Controller::owned(4096, 64);
        let input = [line.as_bytes(), b"\r"].concat();
        let answer = controller.take_line(&input, &mut [0; 256], Call::at(0, 0, 0));
        assert_eq!(answer.stop, Stop::NoReading, "{line}");
        let kept = Kept::of(line.as_bytes());
        refusal(&kept.bytes, kept.over, &answer)
    }

    fn holds(rows: &[(&str, &str)]) {
        for (line, wanted) in rows {
            assert_eq!(said(line), *wanted, "{line}");
        }
    }

    #[test]
    fn letters_and_bytes() {
        holds(&[
            ("print 1", "words are in capitals"),
            ("10 Print A", "words are in capitals"),
            ("10 IF a=1 END", "words are in capitals"),
            (
                "PRINT\t1",
                "a TAB stands here: between words there are only blanks",
            ),
            ("PRINT “A“", "a quote is \""),
            (
                "PRINT \"Kä\"",
                "ä may not stand in a line, only what lies between blank and ~",
            ),
            ("PRINT \u{7}", "the byte 7 is no text"),
            ("10 IF A≥5 END", "type >="),
            ("PRINT 1.5", "numbers are whole"),
        ]);
        let long = format!("10 REM {}", "X".repeat(70));
        holds(&[(&long, "over-long by 5 bytes")]);
        assert_eq!(
            no_reading(b"PRINT \xff", 0, 6),
            Some("the byte 255 is no text".to_string())
        );
    }

    #[test]
    fn words_that_are_none() {
        holds(&[
            ("30 PRIMT 1", "PRIMT is no word: PRINT?"),
            ("PRIN", "PRIN is no word: PRINT?"),
            ("10 UNTI A", "UNTI is no word: UNTIL?"),
            ("10 PRIN, A", "PRIN is no word: PRINT?"),
            ("10 A=STA", "STA is no word: STAT?"),
            ("10 ENDE", "ENDE is no word: END?"),
            ("10 GOTU 5", "GOTU is no word: GOTO?"),
            ("10 RETRUN", "RETRUN is no word: RETURN?"),
            ("RUM", "RUM is no word: RUN?"),
            (
                "A=AANDB",
                "a letter follows the variable A: put a blank behind it",
            ),
            (
                "IFADO",
                "a letter follows the variable A: put a blank behind it",
            ),
            (
                "10 IFI<LGOTOX",
                "a letter follows the variable L: put a blank behind it",
            ),
            (
                "10 LIMIT=300",
                "LIMIT is no word, and a variable is one letter",
            ),
            (
                "10 TOTAL=5",
                "TOTAL is no word, and a variable is one letter",
            ),
            (
                "PRINTCOUNT",
                "COUNT is no word, and a variable is one letter",
            ),
            ("OPEN 1", "OPEN is no word, and a variable is one letter"),
            ("10FORI=1TOP", "TOP is one word: type TO P"),
            ("GO TOP", "TOP is one word: type TO P"),
            (
                "PRINT#5AND3",
                "letters up to F are digits of a hex number: a blank ends it",
            ),
            (
                "10 RUN",
                "RUN is a command, and stands alone in a line without a number",
            ),
            (
                "10 LIST",
                "LIST is a command, and stands alone in a line without a number",
            ),
        ]);
    }

    #[test]
    fn the_line_ends_too_soon() {
        holds(&[
            (
                "PRINT",
                "the line ends too soon: something must follow PRINT",
            ),
            (
                "10 GOTO",
                "the line ends too soon: something must follow GOTO",
            ),
            ("10 A=", "the line ends too soon: something must follow ="),
            ("10 A=1:", "a statement must follow the :"),
            ("PRINT \"BOX", "the string has no closing quote"),
            ("10 A=(B+1", "a ) is missing"),
            ("10 IF A=1", "the line ends too soon"),
            ("10 A", "the line ends too soon"),
        ]);
    }

    #[test]
    fn forms_of_other_basics() {
        holds(&[
            ("10 IF A=1 THEN 100", "type THEN GOTO 100"),
            ("10 NEXT", "NEXT names its variable: NEXT I"),
            ("10 NEXT:END", "NEXT names its variable: NEXT I"),
            (
                "10 INPUT \"COW\",C",
                "INPUT asks no text: type PRINT \"COW\";:INPUT C",
            ),
            ("10 IF A=>5 END", "type >="),
            ("10 IF A=<5 END", "type <="),
            ("10 IF A><5 END", "type <>"),
            ("10 IF A==5 END", "type = once"),
            ("10 IF A!=5 END", "type <>"),
            ("10 IF A< =5 END", "no blank stands in <=, >= and <>"),
            (
                "PRINT 5 MOD 3",
                "MOD stands before its two values: MOD(5,3)",
            ),
            (
                "10 IF A PRINT 1 ELSE PRINT 2",
                "there is no ELSE: the next line is run where the IF does not hold",
            ),
            (
                "10 IF A PRINT 1:ELSE PRINT 2",
                "there is no ELSE: the next line is run where the IF does not hold",
            ),
            ("10 STOP", "there is no STOP: type END"),
            (
                "LIST 10,20",
                "LIST goes on to the end: at the desk .list 10 20 ends there",
            ),
            (
                "LIST 10-20",
                "LIST goes on to the end: at the desk .list 10 20 ends there",
            ),
            ("LISTA", "behind LIST there may only be a line number"),
            ("RUN 100", "RUN starts at the first line: type GOTO 100"),
            ("NEWA=1", "NEW stands alone"),
            (
                "10 ON X GOTO 100,200",
                "there is no ON: GOTO works its line out, GOTO 100*X",
            ),
            (
                "10 DIM A(5)",
                "there are no arrays: @(A+I) is a byte of memory",
            ),
            ("10 POKE 5,6", "there is no POKE: type @A=5"),
            ("PRINT RND(1,6)", "RND is left out here"),
            ("10 A$=\"X\"", "a string stands at an address: $512"),
            (
                "10 A(1)=5",
                "there are no arrays: @(A+1) is a byte of memory",
            ),
            ("10 A1=5", "a variable is one letter"),
            ("10 PRINT A;B", "; stands last: items are joined by commas"),
            ("10 PRINT \"A\" B", "a comma is missing between two items"),
            ("10 ? A", "? is no word here: type PRINT, or PR"),
            ("10 'REMARK", "a remark begins with REM"),
            ("PRINT 2^3", "there is no power: multiply"),
            ("PRINT 2**3", "there is no power: multiply"),
            (
                "SAVE X",
                "SAVE is no line of the controller: at the desk type .save FILE",
            ),
        ]);
    }

    #[test]
    fn statements_and_values() {
        holds(&[
            (
                "L=300:PRINT L",
                "without a number there is one statement only",
            ),
            (
                "L=300 PRINT L",
                "without a number there is one statement only",
            ),
            ("10 A=1 PRINT A", "a : is missing before PRINT"),
            ("10 20 PRINT", "no statement begins with a number"),
            ("32768 END", "a line number is at most 32767"),
            ("PRINT 40000", "a number is at most 32767; #8000 is -32768"),
            (
                "PRINT 2*-3",
                "a sign stands only in front: put it in brackets, 2*(-3)",
            ),
            (
                "10 IF A=1 AND B=2 END",
                "one comparison only: put each in brackets, (A=1) AND (B=2)",
            ),
            (
                "PRINT 1<2<3",
                "one comparison only: put each in brackets, (A=1) AND (B=2)",
            ),
            ("PRINT 1)", "this ) has no ( before it"),
            ("PRINT ,", "no line goes on so"),
        ]);
    }

    #[test]
    fn words_are_found_for_most_lines_and_none_is_too_much() {
        let mut dice = crate::spoilt::Dice(2);
        let (mut refused, mut known) = (0, 0);
        while refused < 20_000 {
            let line = crate::spoilt::spoilt(&mut dice);
            let mut controller = Controller::owned(4096, 64);
            let input = [line.as_slice(), b"\r"].concat();
            let answer = controller.take_line(&input, &mut [0; 256], Call::at(0, 0, 0));
            if answer.stop == Stop::NoReading {
                refused += 1;
                known += usize::from(no_reading(&line, 0, answer.column).is_some());
            }
        }
        assert!(known * 3 > refused * 2, "{known} of {refused}");
    }

    #[test]
    fn near_words() {
        for (one, other) in [
            ("PRIMT", "PRINT"),
            ("RUN", "RUM"),
            ("PRIN", "PRINT"),
            ("ENDE", "END"),
            ("RETRUN", "RETURN"),
        ] {
            assert!(is_near(one.as_bytes(), other.as_bytes()));
            assert!(is_near(other.as_bytes(), one.as_bytes()));
        }
        assert!(!is_near(b"RUN", b"RUN") && !is_near(b"RUN", b"LIST") && !is_near(b"", b"END"));
    }

    #[test]
    fn no_foreign_word_is_one_of_ours() {
        for (word, _) in FOREIGN {
            assert!(!WORDS.contains(&word) && !COMMANDS.contains(&word));
        }
    }
}
