//! Statements and statement lists, written from the grammar.

use super::{Random, Size};
use crate::words::{Word, Words};

/// What a text may speak of.
#[derive(Clone, Copy, Debug)]
pub struct Setting<'a> {
    pub size: Size,
    /// The program's line numbers, for GOTO and GOSUB.
    pub lines: &'a [u16],
    /// The memory's length, for addresses.
    pub memory: usize,
}

/// Writes one text, word by word.
pub struct Scribe<'a> {
    pub random: &'a mut Random,
    setting: Setting<'a>,
    text: String,
    /// Where the word written last begins.
    last: usize,
}

/// P makes another word of TO before it.
const LETTERS: [&str; 9] = ["A", "B", "C", "I", "I", "J", "N", "P", "Z"];

impl<'a> Scribe<'a> {
    pub fn new(random: &'a mut Random, setting: Setting<'a>) -> Scribe<'a> {
        Scribe {
            random,
            setting,
            text: String::new(),
            last: 0,
        }
    }

    /// The text written so far; the scribe begins another.
    pub fn finish(&mut self) -> String {
        self.last = 0;
        std::mem::take(&mut self.text)
    }

    /// Adds a word. It may touch the one before where the two stay two words;
    /// letters and digits mostly have a space between them all the same.
    pub fn word(&mut self, word: &str) {
        let last = self.text.chars().next_back().unwrap_or(' ');
        let first = word.chars().next().unwrap_or(' ');
        let touching = last.is_ascii_alphanumeric() && first.is_ascii_alphanumeric();
        let chance = match (touching, self.setting.size) {
            (true, _) => 60,
            (false, Size::Small) => 8,
            (false, Size::Full) => 25,
        };
        if self.random.percent(chance) || touching && !self.stays_apart(word) {
            self.text.push(' ');
        }
        self.last = self.text.len();
        self.text.push_str(word);
    }

    /// Does the last word end where it does also with this one behind it?
    fn stays_apart(&self, word: &str) -> bool {
        let together = format!("{}{word}", &self.text[self.last..]);
        let mut words = Words::new(together.as_bytes());
        let found = words.next_word().1 != Word::Nothing;
        found && words.position() == self.text.len() - self.last
    }

    pub fn words(&mut self, words: &[&str]) {
        words.iter().for_each(|word| self.word(word));
    }

    pub fn letter(&mut self) {
        let letter = *self.random.pick(&LETTERS);
        self.word(letter);
    }

    fn constant(&mut self) {
        let word = match self.random.below(12) {
            0 => self.random.between(0, 32_767).to_string(),
            1 => format!("#{:X}", self.random.below(1 << 20)),
            2 => format!("#{:X}", self.random.below(300)),
            3 => "32767".to_string(),
            4 => format!("00{}", self.random.below(30)),
            _ => self.random.below(12).to_string(),
        };
        self.word(&word);
    }

    /// A constant that is mostly an address in the memory.
    fn memory_address(&mut self) {
        let edge = self.setting.memory + 3;
        let address = match self.random.below(6) {
            0 => self
                .random
                .between(self.setting.memory.saturating_sub(4), edge),
            _ => self.random.below(edge.min(30)),
        };
        self.word(&address.to_string());
    }

    pub fn factor(&mut self, depth: usize) {
        let depth = depth.saturating_sub(1);
        match self
            .random
            .weighted(&[30, 25, 3, 3, 3 * depth, 4 * depth, 3 * depth, 3 * depth])
        {
            0 => self.letter(),
            1 => self.constant(),
            2 => self.word("STAT"),
            3 => self.word("TOP"),
            4 => self.nested("(", depth),
            5 => {
                self.word("@");
                self.address(depth);
            }
            6 => {
                self.word("NOT");
                self.factor(depth);
            }
            _ => {
                self.words(&["MOD", "("]);
                self.relation(depth);
                self.word(",");
                self.relation(depth);
                self.word(")");
            }
        }
    }

    fn nested(&mut self, open: &str, depth: usize) {
        self.word(open);
        self.relation(depth);
        self.word(")");
    }

    /// A factor meant as an address.
    fn address(&mut self, depth: usize) {
        match self.random.below(10) {
            0 => self.factor(depth),
            1 => self.letter(),
            _ => self.memory_address(),
        }
    }

    fn sum(&mut self, depth: usize) {
        if self.random.percent(12) {
            let sign = *self.random.pick(&["-", "-", "+"]);
            self.word(sign);
        }
        self.factor(depth);
        while self.random.percent(30) {
            let operators = ["+", "-", "*", "/", "+", "-", "*", "AND", "OR", "+"];
            let operator = *self.random.pick(&operators);
            self.word(operator);
            self.factor(depth);
        }
    }

    pub fn relation(&mut self, depth: usize) {
        self.sum(depth);
        if self.random.percent(20) {
            let operator = *self.random.pick(&["=", "<", ">", "<=", ">=", "<>"]);
            self.word(operator);
            self.sum(depth);
        }
    }

    /// A relation as deep as the size allows.
    pub fn any_relation(&mut self) {
        let depth = match self.setting.size {
            Size::Small => self.random.between(1, 2),
            Size::Full => self.random.between(1, 4),
        };
        self.relation(depth);
    }

    pub fn string(&mut self) {
        const PIECES: [&str; 10] = ["A", ":", "COW", " ", "REM", "1", "z~", "PRINT", "$@#", "?"];
        let mut string = String::from("\"");
        for _ in 0..self.random.below(4) {
            let piece = *self.random.pick(&PIECES);
            string.push_str(piece);
        }
        string.push('"');
        self.word(&string);
    }

    /// The number of a line, mostly one that is there.
    fn target(&mut self) {
        match self.setting.lines {
            [] => self.constant(),
            _ if self.random.percent(8) => self.any_relation(),
            lines => {
                let line = self.random.pick(lines).to_string();
                self.word(&line);
            }
        }
    }

    pub fn goto(&mut self) {
        if self.random.percent(15) {
            self.words(&["GO", "TO"]);
        } else {
            self.word("GOTO");
        }
        self.target();
    }

    pub fn gosub(&mut self) {
        if self.random.percent(15) {
            self.words(&["GO", "SUB"]);
        } else {
            self.word("GOSUB");
        }
        self.target();
    }

    fn assignment(&mut self) {
        if self.random.percent(15) {
            self.word("LET");
        }
        match self.random.weighted(&[50, 6, 18, 12, 8]) {
            0 => self.letter(),
            1 => self.word("STAT"),
            2 => {
                self.word("@");
                self.address(1);
            }
            3 => {
                self.text_target();
                return self.string();
            }
            _ => {
                self.text_target();
                self.word("$");
                return self.address(2);
            }
        }
        self.word("=");
        self.any_relation();
    }

    fn text_target(&mut self) {
        self.word("$");
        self.address(2);
        self.word("=");
    }

    fn print(&mut self) {
        let word = *self.random.pick(&["PR", "PRINT"]);
        self.word(word);
        loop {
            match self.random.below(5) {
                0 => self.string(),
                1 => {
                    self.word("$");
                    self.address(2);
                }
                _ => self.any_relation(),
            }
            if !self.random.percent(30) {
                break;
            }
            self.word(",");
        }
        if self.random.percent(50) {
            self.word(";");
        }
    }

    pub fn for_loop(&mut self, letter: &str) {
        self.words(&["FOR", letter, "="]);
        self.any_relation();
        self.word("TO");
        self.any_relation();
        if self.random.percent(40) {
            self.word("STEP");
            self.any_relation();
        }
    }

    pub fn input(&mut self) {
        self.word("INPUT");
        if self.random.percent(35) {
            self.word("$");
            return self.address(2);
        }
        self.letter();
        while self.random.percent(35) {
            self.word(",");
            self.letter();
        }
    }

    /// The front of an IF, or of several in one another.
    fn condition(&mut self) {
        loop {
            self.word("IF");
            self.any_relation();
            if self.random.percent(50) {
                self.word("THEN");
            }
            if !self.random.percent(20) {
                return;
            }
        }
    }

    fn remark(&mut self) {
        self.word("REM");
        let rests = [
            "", " A:B", ":", "1", "ARK", " \"", " IF THEN", ":PRINT 1", " a~",
        ];
        let rest = *self.random.pick(&rests);
        self.text.push_str(rest);
    }

    /// A statement that may stand in an immediate line.
    pub fn immediate(&mut self) {
        if self.random.percent(15) {
            self.condition();
        }
        match self.random.weighted(&[30, 25, 10, 12, 10, 3, 6]) {
            0 => self.assignment(),
            1 => self.print(),
            2 => self.goto(),
            3 => self.gosub(),
            4 => self.word("RETURN"),
            5 => self.remark(),
            _ => self.word("END"),
        }
    }

    /// A statement that may not.
    pub fn program_only(&mut self) {
        if self.random.percent(15) {
            self.condition();
        }
        match self.random.weighted(&[20, 20, 15, 15, 40]) {
            0 => self.word("DO"),
            1 => {
                self.word("UNTIL");
                self.any_relation();
            }
            2 => {
                let letter = *self.random.pick(&LETTERS);
                self.for_loop(letter);
            }
            3 => {
                self.word("NEXT");
                self.letter();
            }
            _ => self.input(),
        }
    }

    /// Mostly a statement that leaves the run where it is, so that runs get
    /// somewhere before they stop.
    pub fn statement(&mut self) {
        match self.random.weighted(&[55, 25, 20]) {
            0 => self.calm(),
            1 => self.immediate(),
            _ => self.program_only(),
        }
    }

    fn calm(&mut self) {
        if self.random.percent(20) {
            self.condition();
        }
        match self.random.weighted(&[60, 35, 5]) {
            0 => self.assignment(),
            1 => self.print(),
            _ => self.remark(),
        }
    }

    pub fn list(&mut self) {
        self.statement();
        while self.random.percent(25) {
            self.word(":");
            self.statement();
        }
        if self.random.percent(5) {
            self.text.push(' ');
        }
    }

    /// A reply to an INPUT.
    pub fn reply(&mut self) {
        self.any_relation();
        while self.random.percent(45) {
            self.word(",");
            self.any_relation();
        }
        if self.random.percent(10) {
            let rests = [",", ",\"", ",\t", " 1", ";", ":", ",REM"];
            let rest = *self.random.pick(&rests);
            self.text.push_str(rest);
        }
    }
}
