//! What a typed line says, as far as a host wants to speak of it: its statements, with the bytes at which they stand.
//!
//! Which lines have a reading is the controller's to decide, and nobody else's. This reader is asked about lines that it took; the
//! tests hold the two to each other.

/// The words of the language but for the commands; where a letter stands, the longest that begins there is taken.
pub const WORDS: [&str; 25] = [
    "LET", "GO", "TO", "SUB", "GOTO", "GOSUB", "RETURN", "PR", "PRINT", "IF", "THEN", "DO",
    "UNTIL", "FOR", "STEP", "NEXT", "INPUT", "REM", "END", "STAT", "TOP", "MOD", "AND", "OR",
    "NOT",
];
/// They stand at the front of a line without a number.
pub const COMMANDS: [&str; 4] = ["NEW", "CLEAR", "LIST", "RUN"];
pub const NUMBER_MOST: u32 = 32_767;
const PAIRS: [&[u8]; 3] = [b"<=", b">=", b"<>"];

/// A typed line.
#[derive(Debug, PartialEq, Eq)]
pub enum Typed {
    Blank,
    Delete(u16),
    Store(u16, Vec<Statement>),
    Command(&'static str),
    Statement(Statement),
}

#[derive(Debug, PartialEq, Eq)]
pub struct Statement {
    /// Where its first word begins.
    pub begin: usize,
    pub does: Does,
}

#[derive(Debug, PartialEq, Eq)]
pub enum Does {
    /// A variable is given a value.
    Give(u8, Expr),
    /// PRINT, and stores that are to no variable: what they look at.
    Use(Vec<Expr>),
    Jump(Jump),
    Return,
    End,
    Do,
    Remark,
    If(Expr, Box<Statement>),
    Until(Expr),
    For(u8, Vec<Expr>),
    Next(u8),
    Ask(Vec<u8>),
    AskText(Expr),
}

#[derive(Debug, PartialEq, Eq)]
pub struct Jump {
    /// GOSUB, and not GOTO.
    pub comes_back: bool,
    pub to: Expr,
    /// Where the target is written.
    pub begin: usize,
    pub end: usize,
}

#[derive(Debug, PartialEq, Eq)]
pub enum Expr {
    Variable(u8),
    Number(u16),
    Stat,
    Top,
    Byte(Box<Expr>),
    Not(usize, Box<Expr>),
    Mod(Box<Expr>, Box<Expr>),
    Minus(Box<Expr>),
    /// Where the operator stands, and what it joins.
    Joined(usize, Joint, Box<Expr>, Box<Expr>),
}

#[derive(Clone, Copy, Debug, PartialEq, Eq)]
pub enum Joint {
    Times,
    Over,
    And,
    Plus,
    Less,
    Or,
    Equal,
    Unequal,
    Below,
    Above,
    AtMost,
    AtLeast,
}

impl Jump {
    /// The target, if it is a number as it stands.
    pub fn constant(&self) -> Option<u16> {
        match self.to {
            Expr::Number(line) => Some(line),
            _ => None,
        }
    }

    pub fn name(&self) -> &'static str {
        if self.comes_back {
            "GOSUB"
        } else {
            "GOTO"
        }
    }
}

impl Statement {
    /// The statement and those behind its IFs, the outermost first.
    pub fn all(&self) -> impl Iterator<Item = &Statement> {
        std::iter::successors(Some(self), |statement| match &statement.does {
            Does::If(_, then) => Some(then),
            _ => None,
        })
    }

    /// What the statement itself looks at, without what stands behind an IF.
    pub fn looks_at(&self) -> Vec<&Expr> {
        match &self.does {
            Does::Give(_, value) => vec![value],
            Does::Use(values) | Does::For(_, values) => values.iter().collect(),
            Does::Jump(jump) => vec![&jump.to],
            Does::If(value, _) | Does::Until(value) | Does::AskText(value) => vec![value],
            Does::Return | Does::End | Does::Do | Does::Remark => Vec::new(),
            Does::Next(_) | Does::Ask(_) => Vec::new(),
        }
    }

    /// The variables to which the statement itself gives a value.
    pub fn gives(&self) -> &[u8] {
        match &self.does {
            Does::Give(variable, _) | Does::For(variable, _) => std::slice::from_ref(variable),
            Does::Ask(variables) => variables,
            _ => &[],
        }
    }
}

impl Expr {
    /// Its own parts.
    pub fn parts(&self) -> Vec<&Expr> {
        match self {
            Expr::Variable(_) | Expr::Number(_) | Expr::Stat | Expr::Top => Vec::new(),
            Expr::Byte(of) | Expr::Not(_, of) | Expr::Minus(of) => vec![of],
            Expr::Mod(left, right) | Expr::Joined(_, _, left, right) => vec![left, right],
        }
    }

    /// Does this hold of it, or of anything in it?
    pub fn has(&self, holds: &dyn Fn(&Expr) -> bool) -> bool {
        holds(self) || self.parts().iter().any(|part| part.has(holds))
    }
}

/// The reading of a line as it was kept, if it has one.
pub fn read(line: &[u8]) -> Option<Typed> {
    let begin = line.iter().position(|byte| *byte != b' ');
    let Some(begin) = begin else {
        return Some(Typed::Blank);
    };
    let digits = line[begin..].iter().take_while(|b| b.is_ascii_digit());
    let end = begin + digits.count();
    if end == begin {
        return immediate(line, begin);
    }
    let number = decimal(&line[begin..end])?;
    match line[end..].iter().all(|byte| *byte == b' ') {
        true => Some(Typed::Delete(number)),
        false => Some(Typed::Store(number, members(line, end)?)),
    }
}

/// The statements of a program line from a byte on.
pub fn members(line: &[u8], at: usize) -> Option<Vec<Statement>> {
    let mut reader = Reader { line, at };
    let mut members = vec![reader.statement()?];
    while !reader.is_done() {
        reader.sign(b":")?;
        members.push(reader.statement()?);
    }
    Some(members)
}

fn immediate(line: &[u8], begin: usize) -> Option<Typed> {
    let mut reader = Reader { line, at: begin };
    let typed = match longest(&line[begin..], COMMANDS.iter().chain(&WORDS)) {
        Some(word) if COMMANDS.contains(&word) => {
            reader.at += word.len();
            if word == "LIST" && !reader.is_done() {
                reader.number()?;
            }
            Typed::Command(word)
        }
        _ => Typed::Statement(reader.statement()?),
    };
    reader.is_done().then_some(typed)
}

/// The longest of some words with which a text begins.
pub fn longest<'a>(
    text: &[u8],
    words: impl Iterator<Item = &'a &'static str>,
) -> Option<&'static str> {
    words
        .filter(|word| text.starts_with(word.as_bytes()))
        .max_by_key(|word| word.len())
        .copied()
}

fn decimal(digits: &[u8]) -> Option<u16> {
    let step = |value: Option<u32>, digit: &u8| {
        value
            .map(|value| value * 10 + u32::from(digit - b'0'))
            .filter(|value| *value <= NUMBER_MOST)
    };
    let value = digits.iter().fold(Some(0), step)?;
    u16::try_from(value).ok()
}

struct Reader<'a> {
    line: &'a [u8],
    at: usize,
}

impl Reader<'_> {
    fn rest(&self) -> &[u8] {
        &self.line[self.at..]
    }

    /// Passes over blanks; the byte that stands there.
    fn next(&mut self) -> Option<u8> {
        while self.rest().first() == Some(&b' ') {
            self.at += 1;
        }
        self.rest().first().copied()
    }

    fn is_done(&mut self) -> bool {
        self.next().is_none()
    }

    /// The word that stands here, which is not taken yet.
    fn word(&mut self) -> Option<&'static str> {
        self.next()?;
        longest(self.rest(), WORDS.iter())
    }

    /// Takes a word, if it is this one; where it stands.
    fn take(&mut self, word: &str) -> Option<usize> {
        (self.word() == Some(word)).then(|| {
            self.at += word.len();
            self.at - word.len()
        })
    }

    /// Takes a sign, if it is this one and no part of a pair; where it stands.
    fn sign(&mut self, sign: &[u8]) -> Option<usize> {
        self.next()?;
        let pair = PAIRS.iter().find(|pair| self.rest().starts_with(pair));
        let stands = self.rest().starts_with(sign) && pair.map_or(true, |pair| *pair == sign);
        stands.then(|| {
            self.at += sign.len();
            self.at - sign.len()
        })
    }

    fn number(&mut self) -> Option<u16> {
        self.next()?;
        let digits = self.rest().iter().take_while(|b| b.is_ascii_digit());
        let count = digits.count();
        let number = decimal(&self.rest()[..count]).filter(|_| count > 0)?;
        self.at += count;
        Some(number)
    }

    fn hex(&mut self) -> Option<u16> {
        self.sign(b"#")?;
        let is_digit = |b: &&u8| matches!(b, b'0'..=b'9' | b'A'..=b'F');
        let count = self.rest().iter().take_while(is_digit).count();
        let low = |value: u16, digit: &u8| {
            (value << 4) | (char::from(*digit).to_digit(16).unwrap_or(0) as u16)
        };
        let value = self.rest()[..count].iter().fold(0, low);
        self.at += count;
        (count > 0).then_some(value)
    }

    fn variable(&mut self) -> Option<u8> {
        let letter = self.next().filter(u8::is_ascii_uppercase)?;
        let alone = !self.rest().get(1).is_some_and(u8::is_ascii_uppercase);
        alone.then(|| {
            self.at += 1;
            letter - b'A'
        })
    }

    /// A quoted text, of which nothing is kept.
    fn text(&mut self) -> Option<()> {
        self.sign(b"\"")?;
        let count = self.rest().iter().position(|byte| *byte == b'"')?;
        let good = self.rest()[..count].iter().all(is_text);
        self.at += count + 1;
        good.then_some(())
    }

    fn statement(&mut self) -> Option<Statement> {
        self.next()?;
        let begin = self.at;
        let does = match self.word() {
            None => self.assignment()?,
            Some("STAT") => self.assignment()?,
            Some(word) => {
                self.at += word.len();
                self.behind(word)?
            }
        };
        Some(Statement { begin, does })
    }

    /// What follows a statement's first word.
    fn behind(&mut self, word: &str) -> Option<Does> {
        Some(match word {
            "LET" => self.assignment()?,
            "GO" if self.take("TO").is_some() => self.jump(false)?,
            "GO" if self.take("SUB").is_some() => self.jump(true)?,
            "GOTO" => self.jump(false)?,
            "GOSUB" => self.jump(true)?,
            "RETURN" => Does::Return,
            "PR" | "PRINT" => self.items()?,
            "IF" => {
                let value = self.relation()?;
                self.take("THEN");
                Does::If(value, Box::new(self.statement()?))
            }
            "DO" => Does::Do,
            "UNTIL" => Does::Until(self.relation()?),
            "FOR" => self.counting()?,
            "NEXT" => Does::Next(self.variable()?),
            "INPUT" => self.asking()?,
            "REM" => {
                let good = self.rest().iter().all(is_text);
                self.at = self.line.len();
                good.then_some(Does::Remark)?
            }
            "END" => Does::End,
            _ => return None,
        })
    }

    fn assignment(&mut self) -> Option<Does> {
        if self.sign(b"$").is_some() {
            let mut used = vec![self.factor()?];
            self.sign(b"=")?;
            if self.sign(b"$").is_some() {
                used.push(self.factor()?);
            } else {
                self.text()?;
            }
            return Some(Does::Use(used));
        }
        if self.sign(b"@").is_some() {
            let address = self.factor()?;
            self.sign(b"=")?;
            return Some(Does::Use(vec![address, self.relation()?]));
        }
        if self.take("STAT").is_some() {
            self.sign(b"=")?;
            return Some(Does::Use(vec![self.relation()?]));
        }
        let variable = self.variable()?;
        self.sign(b"=")?;
        Some(Does::Give(variable, self.relation()?))
    }

    fn jump(&mut self, comes_back: bool) -> Option<Does> {
        self.next()?;
        let begin = self.at;
        let to = self.relation()?;
        Some(Does::Jump(Jump {
            comes_back,
            to,
            begin,
            end: self.at,
        }))
    }

    fn items(&mut self) -> Option<Does> {
        let mut used = Vec::new();
        loop {
            if self.next()? == b'"' {
                self.text()?;
            } else if self.sign(b"$").is_some() {
                used.push(self.factor()?);
            } else {
                used.push(self.relation()?);
            }
            if self.sign(b",").is_none() {
                self.sign(b";");
                return Some(Does::Use(used));
            }
        }
    }

    fn counting(&mut self) -> Option<Does> {
        let variable = self.variable()?;
        self.sign(b"=")?;
        let mut values = vec![self.relation()?];
        self.take("TO")?;
        values.push(self.relation()?);
        if self.take("STEP").is_some() {
            values.push(self.relation()?);
        }
        Some(Does::For(variable, values))
    }

    fn asking(&mut self) -> Option<Does> {
        if self.sign(b"$").is_some() {
            return Some(Does::AskText(self.factor()?));
        }
        let mut variables = vec![self.variable()?];
        while self.sign(b",").is_some() {
            variables.push(self.variable()?);
        }
        Some(Does::Ask(variables))
    }

    fn relation(&mut self) -> Option<Expr> {
        let left = self.sum()?;
        let signs: [(&[u8], Joint); 6] = [
            (b"=", Joint::Equal),
            (b"<>", Joint::Unequal),
            (b"<=", Joint::AtMost),
            (b">=", Joint::AtLeast),
            (b"<", Joint::Below),
            (b">", Joint::Above),
        ];
        for (sign, joint) in signs {
            if let Some(at) = self.sign(sign) {
                return Some(joined(at, joint, left, self.sum()?));
            }
        }
        Some(left)
    }

    fn sum(&mut self) -> Option<Expr> {
        let minus = self.sign(b"-").is_some();
        if !minus {
            self.sign(b"+");
        }
        let mut left = self.term()?;
        if minus {
            left = Expr::Minus(Box::new(left));
        }
        loop {
            let (at, joint) = if let Some(at) = self.sign(b"+") {
                (at, Joint::Plus)
            } else if let Some(at) = self.sign(b"-") {
                (at, Joint::Less)
            } else if let Some(at) = self.take("OR") {
                (at, Joint::Or)
            } else {
                return Some(left);
            };
            left = joined(at, joint, left, self.term()?);
        }
    }

    fn term(&mut self) -> Option<Expr> {
        let mut left = self.factor()?;
        loop {
            let (at, joint) = if let Some(at) = self.sign(b"*") {
                (at, Joint::Times)
            } else if let Some(at) = self.sign(b"/") {
                (at, Joint::Over)
            } else if let Some(at) = self.take("AND") {
                (at, Joint::And)
            } else {
                return Some(left);
            };
            left = joined(at, joint, left, self.factor()?);
        }
    }

    fn factor(&mut self) -> Option<Expr> {
        let expr = match self.next()? {
            b'(' => self.bracket(b"(", b")")?,
            b'@' => {
                self.sign(b"@")?;
                Expr::Byte(Box::new(self.factor()?))
            }
            b'#' => Expr::Number(self.hex()?),
            b'0'..=b'9' => Expr::Number(self.number()?),
            _ => match self.word() {
                None => Expr::Variable(self.variable()?),
                Some(word) => {
                    let at = self.take(word)?;
                    self.factor_word(word, at)?
                }
            },
        };
        Some(expr)
    }

    /// What a word is as a factor, with what follows it.
    fn factor_word(&mut self, word: &str, at: usize) -> Option<Expr> {
        match word {
            "STAT" => Some(Expr::Stat),
            "TOP" => Some(Expr::Top),
            "NOT" => Some(Expr::Not(at, Box::new(self.factor()?))),
            "MOD" => {
                let left = self.bracket(b"(", b",")?;
                let right = self.relation()?;
                self.sign(b")")?;
                Some(Expr::Mod(Box::new(left), Box::new(right)))
            }
            _ => None,
        }
    }

    fn bracket(&mut self, opening: &[u8], closing: &[u8]) -> Option<Expr> {
        self.sign(opening)?;
        let inside = self.relation()?;
        self.sign(closing)?;
        Some(inside)
    }
}

fn joined(at: usize, joint: Joint, left: Expr, right: Expr) -> Expr {
    Expr::Joined(at, joint, Box::new(left), Box::new(right))
}

/// A byte that may stand in a stored line.
fn is_text(byte: &u8) -> bool {
    matches!(byte, 32..=126) && *byte != b'_'
}

#[cfg(test)]
mod tests {
    use super::*;
    use crate::spoilt::{spoilt, Dice, GOOD};
    use nibl::{Call, Controller, Stop};

    /// Does the controller find a reading?
    fn is_taken(line: &[u8]) -> bool {
        let mut controller = Controller::owned(4096, 64);
        let input = [line, b"\r"].concat();
        let answer = controller.take_line(&input, &mut [0; 256], Call::at(0, 0, 0));
        answer.stop != Stop::NoReading
    }

    #[test]
    fn a_line_has_a_reading_here_exactly_when_the_controller_takes_it() {
        let mut dice = Dice(1);
        let (mut taken, mut refused) = (0, 0);
        for _ in 0..60_000 {
            let line = spoilt(&mut dice);
            let wanted = is_taken(&line);
            assert_eq!(
                read(&line).is_some(),
                wanted,
                "{}",
                String::from_utf8_lossy(&line)
            );
            *(if wanted { &mut taken } else { &mut refused }) += 1;
        }
        assert!(taken > 10_000 && refused > 10_000, "{taken}, {refused}");
        assert!(GOOD.iter().all(|line| is_taken(line.as_bytes())));
    }

    fn statement(line: &str) -> Statement {
        match read(line.as_bytes()) {
            Some(Typed::Statement(statement)) => statement,
            other => panic!("{line} is {other:?}"),
        }
    }

    #[test]
    fn lines_are_told_apart() {
        assert_eq!(read(b"  "), Some(Typed::Blank));
        assert_eq!(read(b" 0240 "), Some(Typed::Delete(240)));
        assert_eq!(read(b"LIST 5"), Some(Typed::Command("LIST")));
        let Some(Typed::Store(10, members)) = read(b"10 A=1: IF A GOTO 20:END") else {
            panic!("it is stored");
        };
        let begins: Vec<usize> = members.iter().map(|member| member.begin).collect();
        assert_eq!(begins, [3, 8, 21]);
        let inner: Vec<usize> = members[1].all().map(|inner| inner.begin).collect();
        assert_eq!(inner, [8, 13]);
    }

    #[test]
    fn a_jump_knows_its_target() {
        let jump = |line: &str| match statement(line).does {
            Does::Jump(jump) => (
                jump.name(),
                jump.constant(),
                line[jump.begin..jump.end].to_string(),
            ),
            other => panic!("{line} is {other:?}"),
        };
        assert_eq!(jump("GO TO 20"), ("GOTO", Some(20), "20".to_string()));
        assert_eq!(jump("GOSUB #10"), ("GOSUB", Some(16), "#10".to_string()));
        assert_eq!(jump("GOTO 100*B"), ("GOTO", None, "100*B".to_string()));
    }

    #[test]
    fn operators_group_as_the_controller_groups_them() {
        let value = |line: &str| match statement(line).does {
            Does::Give(_, value) => value,
            other => panic!("{line} is {other:?}"),
        };
        let Expr::Joined(at, Joint::And, left, _) = value("A=(B=C) AND M AND 4") else {
            panic!("the last AND joins last");
        };
        assert_eq!(at, 14);
        assert!(matches!(*left, Expr::Joined(8, Joint::And, _, _)));
        let Expr::Joined(_, Joint::Equal, left, _) = value("A=NOT B=-1") else {
            panic!("NOT takes the variable alone");
        };
        assert!(matches!(*left, Expr::Not(2, _)));
    }
}
