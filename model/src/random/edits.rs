//! Sequences of typed lines that edit a page: first lines, retyped ones, deletions, exact fits and refusals.

use std::collections::BTreeMap;

use super::pages::{padded, spoil};
use super::tables::first_table;
use super::texts::{Scribe, Setting};
use super::typed::{line, with_slips};
use super::{Random, Size};
use crate::line::{read_line, Command, LineNumber, TypedLine};
use crate::tree::Tree;
use crate::typing::{gather, is_text_byte, CR, LINE_LIMIT};

/// The length of a page that holds no line before, what is typed there, and its table, where one is lent.
pub struct Sequence {
    pub length: usize,
    pub typed: Vec<u8>,
    pub table: Option<Vec<u16>>,
}

/// The rule desk's lines that edit a page.
const DESK: &[u8] = b"10 END\r5 END\r10 REM X\r5\r";

/// Lengths of pages, how many pages there are of each, and how many lines are typed on such a page at random.
const PAGES: [(usize, usize, usize); 6] = [
    (2, 10, 6),
    (3, 10, 6),
    (20, 60, 12),
    (96, 80, 16),
    (256, 50, 24),
    (4096, 5, 80),
];

/// A longer page is filled first.
const MANY: usize = 1000;

/// Line numbers where something changes.
const EDGES: [u16; 10] = [0, 9, 10, 99, 100, 255, 256, 999, 10_000, 32_767];

/// The shortest statement.
const SHORTEST: &str = "DO";

/// A record's bytes beside its text, and the end mark's.
const FRAME: usize = 4;
const MARK: usize = 2;

/// Types on a page and keeps in mind what it holds.
struct Typist<'a> {
    random: &'a mut Random,
    length: usize,
    lines: BTreeMap<u16, Vec<u8>>,
    typed: Vec<u8>,
}

/// The desk's lines, and random ones on pages of each length.
pub fn sequences(random: &mut Random) -> Vec<Sequence> {
    let mut sequences = vec![Sequence {
        length: 96,
        typed: DESK.to_vec(),
        table: first_table(random),
    }];
    for (length, pages, lines) in PAGES {
        sequences.extend((0..pages).map(|_| sequence(random, length, lines)));
    }
    sequences
}

/// On a page of one of the lengths, the shorter ones more often.
pub fn any_sequence(random: &mut Random) -> Sequence {
    let weights = PAGES.map(|(_, pages, _)| pages);
    let (length, _, lines) = PAGES[random.weighted(&weights)];
    sequence(random, length, lines)
}

fn sequence(random: &mut Random, length: usize, lines: usize) -> Sequence {
    let mut typist = Typist {
        random,
        length,
        lines: BTreeMap::new(),
        typed: Vec::new(),
    };
    typist.fill();
    for _ in 0..lines {
        let line = typist.line();
        typist.type_line(line);
    }
    let mut typed = typist.typed;
    if random.percent(10) {
        // No CR follows.
        typed.extend(b"10 END");
    }
    Sequence {
        length,
        typed,
        table: first_table(random),
    }
}

impl Typist<'_> {
    /// On a page with room for many lines, types as many as leave room for about one more.
    fn fill(&mut self) {
        while self.length > MANY && self.free() > LINE_LIMIT {
            let number = self.number();
            let length = self.random.between(20, 67);
            let line = self.numbered(number, length);
            self.type_line(line);
        }
    }

    /// The bytes of the page that no record has, nor the end mark.
    fn free(&self) -> usize {
        let used: usize = self.lines.values().map(|text| text.len() + FRAME).sum();
        self.length - MARK - used
    }

    /// The bytes that a record of this number may have, in the place of one that is there.
    fn room(&self, number: u16) -> usize {
        let old = self.lines.get(&number);
        self.free() + old.map_or(0, |text| text.len() + FRAME)
    }

    fn type_line(&mut self, line: Vec<u8>) {
        let from = self.typed.len();
        match self.random.percent(12) {
            true => self.typed.extend(with_slips(self.random, &line)),
            false => self.typed.extend(line),
        }
        self.typed.push(CR);
        self.follow(from);
    }

    /// Keeps in mind what was typed from a position on: a spoilt line may have a CR in it.
    fn follow(&mut self, mut from: usize) {
        while let Some(gathered) = gather(&self.typed, from) {
            from = gathered.after;
            if gathered.over_long {
                continue;
            }
            match read_line(&mut Tree::default(), gathered.kept()) {
                Some(TypedLine::Store(LineNumber(number), text))
                    if text.len() + FRAME <= self.room(number) =>
                {
                    self.lines.insert(number, text.to_vec());
                }
                Some(TypedLine::Delete(LineNumber(number))) => {
                    self.lines.remove(&number);
                }
                Some(TypedLine::Command(Command::New)) => self.lines.clear(),
                _ => {}
            }
        }
    }

    /// The next line, without slips.
    fn line(&mut self) -> Vec<u8> {
        match self.random.weighted(&[20, 22, 8, 3, 18, 2, 5, 4, 2, 7, 3]) {
            0 => {
                let (number, length) = (self.number(), self.random.between(2, 30));
                self.numbered(number, length)
            }
            1 => self.retyped(),
            2 => self.old_number().to_string().into_bytes(),
            3 => format!("{}  ", self.number()).into_bytes(),
            4 => self.fitting(),
            // A long page is seldom given up: it takes many lines to fill it again.
            5 if self.length < MANY || self.random.percent(25) => b"NEW".to_vec(),
            6 => {
                let mut line = self.retyped();
                spoil(self.random, &mut line);
                line
            }
            7 => self.at_limit(),
            8 => vec![b' '; self.random.below(4)],
            9 => self.aside(),
            _ => self.any(),
        }
    }

    /// A line number: low, at an edge, or any.
    fn number(&mut self) -> u16 {
        let low = 4 * self.lines.len() + 12;
        match self.random.below(12) {
            0 => *self.random.pick(&EDGES),
            1 => self.random.below(32_768) as u16,
            _ => self.random.below(low) as u16,
        }
    }

    /// The number of a line that is there, if there is one.
    fn old_number(&mut self) -> u16 {
        let numbers: Vec<u16> = self.lines.keys().copied().collect();
        match numbers.is_empty() {
            true => self.number(),
            false => *self.random.pick(&numbers),
        }
    }

    /// A line to store, its text of this length or as long as a line may be.
    fn numbered(&mut self, number: u16, length: usize) -> Vec<u8> {
        let most = LINE_LIMIT - LineNumber(number).digits();
        let text = self.text(length.clamp(SHORTEST.len(), most));
        let before = match self.random.below(30) {
            0 => " ",
            1 => "00",
            _ => "",
        };
        format!("{before}{number}{text}").into_bytes()
    }

    /// A text of this length that has a reading.
    fn text(&mut self, length: usize) -> String {
        let setting = Setting {
            size: Size::Small,
            lines: &[],
            memory: 64,
        };
        let mut scribe = Scribe::new(self.random, setting);
        scribe.list();
        let mut text = scribe.finish();
        if self.random.percent(50) {
            text.insert(0, ' ');
        }
        if text.len() <= length && self.random.percent(70) {
            return padded(text, length);
        }
        self.remark(length)
    }

    /// A remark of this length with any bytes in it that a text may have.
    fn remark(&mut self, length: usize) -> String {
        if length < 3 {
            return SHORTEST.to_string();
        }
        let mut text = "REM ".to_string();
        text.truncate(length);
        while text.len() < length {
            let byte = self.random.between(32, 126) as u8;
            if is_text_byte(byte) {
                text.push(char::from(byte));
            }
        }
        text
    }

    /// A line that is there with another text, longer, shorter or as long, or with its own.
    fn retyped(&mut self) -> Vec<u8> {
        let number = self.old_number();
        let old = self.lines.get(&number).cloned().unwrap_or_default();
        let by = self.random.between(1, 12);
        let length = match self.random.below(8) {
            0 => return [number.to_string().as_bytes(), &old].concat(),
            1 | 2 => old.len(),
            3 | 4 => old.len().saturating_sub(by),
            _ => old.len() + by,
        };
        self.numbered(number, length)
    }

    /// A line, new or retyped, that leaves one byte of the page free, none, or is one byte too long, if a line can.
    fn fitting(&mut self) -> Vec<u8> {
        let number = match self.random.percent(50) {
            true => self.number(),
            false => self.old_number(),
        };
        let over = *self.random.pick(&[0, 1, 1, 1, 2, 2]);
        let length = (self.room(number) + over).saturating_sub(FRAME + 1);
        self.numbered(number, length)
    }

    /// A line of 72 kept bytes, its last one typed again, or one with a 73rd byte, erased or not.
    fn at_limit(&mut self) -> Vec<u8> {
        let number = self.number();
        let length = LINE_LIMIT - LineNumber(number).digits();
        let mut line = format!("{number}{}", self.remark(length)).into_bytes();
        let more: [&[u8]; 5] = [b"", b"\x5fZ", b"Z", b"Z\x5f", b"Z\x5f\x5f\x5f"];
        line.extend(*self.random.pick(&more));
        line
    }

    /// A line that leaves the page as it is.
    fn aside(&mut self) -> Vec<u8> {
        let list = format!("LIST {}", self.old_number());
        let lines = [
            &list, &list, &list, "LIST", "LIST", "CLEAR", "RUN", "A=A+1", "INPUT A",
        ];
        self.random.pick(&lines).as_bytes().to_vec()
    }

    fn any(&mut self) -> Vec<u8> {
        let numbers: Vec<u16> = self.lines.keys().copied().collect();
        let setting = Setting {
            size: Size::Small,
            lines: &numbers,
            memory: 64,
        };
        line(self.random, setting)
    }
}
