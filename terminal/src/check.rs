//! Rule books in files, checked: their numbered lines are typed into a fresh controller, and nothing is run. The controller says which
//! lines have a reading; what is said beyond that goes by its readings.

use std::collections::BTreeMap;

use nibl::{Answer, Call, Controller, Stop};

use crate::bits::{self, Trap};
use crate::desk::{MEMORY, PAGE};
use crate::files::{rows, End};
use crate::flow::{self, Program};
use crate::gather::Kept;
use crate::reading::{read, Does, Expr, Jump, Statement, Typed};
use crate::warnings::Warning;
use crate::why;
use crate::words::counted;

const CR: u8 = 13;
const NUL: u8 = 0;
/// Room for what a statement without a number writes, which nobody sees.
const UNSEEN: usize = 8192;
/// Words that begin with REM and say that a remark follows.
const REMARKS: [&[u8]; 3] = [b"REMARK", b"REMEMBER", b"REMIND"];

#[derive(Clone, Copy, Debug, PartialEq, Eq)]
pub enum Grade {
    Error,
    Warning(Warning),
    /// Worth knowing, and no fault of this book.
    Note,
}

/// What was found at a byte of a file; rows and columns begin with 1.
#[derive(Clone, Debug, PartialEq, Eq)]
pub struct Finding {
    pub row: usize,
    pub column: usize,
    pub grade: Grade,
    pub words: String,
}

/// What was found in a file.
#[derive(Debug, Default, PartialEq, Eq)]
pub struct Checked {
    pub findings: Vec<Finding>,
    pub rows: usize,
    /// Lines behind a RUN that are no lines of NIBL, so that they are taken for replies to INPUT.
    pub replies: usize,
}

impl Checked {
    pub fn errors(&self) -> usize {
        self.count(|grade| grade == Grade::Error)
    }

    pub fn warnings(&self) -> usize {
        self.count(|grade| matches!(grade, Grade::Warning(_)))
    }

    fn count(&self, holds: impl Fn(Grade) -> bool) -> usize {
        let all = self.findings.iter();
        all.filter(|finding| holds(finding.grade)).count()
    }

    /// A row for each finding, as compilers write them.
    pub fn report(&self, file: &str) -> String {
        self.findings
            .iter()
            .map(|finding| format!("{file}:{finding}\n"))
            .collect()
    }
}

impl std::fmt::Display for Finding {
    fn fmt(&self, f: &mut std::fmt::Formatter) -> std::fmt::Result {
        let (row, column, words) = (self.row, self.column, &self.words);
        match self.grade {
            Grade::Error => write!(f, "{row}:{column}: error: {words}"),
            Grade::Note => write!(f, "{row}:{column}: note: {words}"),
            Grade::Warning(warning) => {
                write!(f, "{row}:{column}: warning: {words} [{}]", warning.name())
            }
        }
    }
}

/// The last row: what was found in all books.
pub fn total(books: &[Checked]) -> String {
    let sum = |of: fn(&Checked) -> usize| books.iter().map(of).sum::<usize>() as u64;
    let mut said = format!(
        "{}, {}: {}, {}",
        counted(books.len() as u64, "book"),
        counted(sum(|book| book.rows), "line"),
        counted(sum(Checked::errors), "error"),
        counted(sum(Checked::warnings), "warning"),
    );
    let replies = sum(|book| book.replies);
    if replies > 0 {
        let lines = counted(replies, "line");
        said += &format!("; {lines} behind RUN, GOTO or GOSUB taken for replies to INPUT");
    }
    said + "\n"
}

/// Checks a file's bytes; some warnings are not wanted.
pub fn check(bytes: &[u8], unwanted: &[Warning]) -> Checked {
    let mut checker = Checker::default();
    let rows = rows(bytes);
    checker.found.rows = rows.len();
    checker.ends(&rows);
    for (row, (line, _)) in (1..).zip(&rows) {
        checker.line(row, line);
    }
    checker.program_ends();
    let mut found = checker.found;
    let wanted = |finding: &Finding| match finding.grade {
        Grade::Warning(warning) => !unwanted.contains(&warning),
        Grade::Error | Grade::Note => true,
    };
    found.findings.retain(wanted);
    found
        .findings
        .sort_by_key(|finding| (finding.row, finding.column));
    found
}

/// A stored line, and where it was typed.
struct Source {
    row: usize,
    kept: Kept,
}

/// A program under way, from the front of the book or a NEW on.
struct Checker {
    controller: Controller<Vec<u8>, Vec<u8>>,
    sources: BTreeMap<u16, Source>,
    /// Statements without a number.
    typed: Vec<Statement>,
    /// The row of the last line without a number.
    acted: usize,
    /// A RUN, GOTO or GOSUB was typed, so that an INPUT may wait.
    ran: bool,
    /// A line is missing, since it was refused.
    refused: bool,
    found: Checked,
}

impl Default for Checker {
    fn default() -> Checker {
        Checker {
            controller: Controller::owned(PAGE, MEMORY),
            sources: BTreeMap::new(),
            typed: Vec::new(),
            acted: 0,
            ran: false,
            refused: false,
            found: Checked::default(),
        }
    }
}

impl Checker {
    /// At a byte of a row.
    fn find(&mut self, row: usize, at: usize, grade: Grade, words: String) {
        self.found.findings.push(Finding {
            row,
            column: at + 1,
            grade,
            words,
        });
    }

    fn warn(&mut self, row: usize, at: usize, warning: Warning, words: String) {
        self.find(row, at, Grade::Warning(warning), words);
    }

    /// At a kept byte of a stored line.
    fn find_in(&mut self, line: u16, at: usize, grade: Grade, words: String) {
        if let Some(source) = self.sources.get(&line) {
            let (row, at) = (source.row, source.kept.typed_at(at));
            self.find(row, at, grade, words);
        }
    }

    /// How the lines end.
    fn ends(&mut self, rows: &[(&[u8], End)]) {
        let Some((_, first)) = rows.first() else {
            return;
        };
        for (row, (line, end)) in (1..).zip(rows) {
            if *end == End::None {
                let words = "this line has no end: where lines end in CR it is never typed";
                self.warn(row, line.len(), Warning::Unended, words.to_string());
            } else if end != first {
                let words = format!(
                    "this line ends in {}, others in {}",
                    end.name(),
                    first.name()
                );
                return self.warn(row, line.len(), Warning::Ends, words);
            }
        }
    }

    fn line(&mut self, row: usize, line: &[u8]) {
        let kept = Kept::of(line);
        if let Some(at) = line.iter().position(|byte| *byte == NUL) {
            let words = "a NUL byte, which typing drops".to_string();
            self.warn(row, at, Warning::Nul, words);
        }
        if let Some(at) = kept.erased {
            let by = if line[at] == b'_' { "_" } else { "Ctrl-U" };
            let left = String::from_utf8_lossy(&kept.bytes).into_owned();
            let words = format!("{by} takes back what stands before it: {left}");
            self.warn(row, at, Warning::Erased, words);
        }
        let first = kept.bytes.iter().find(|byte| **byte != b' ');
        match first.map(u8::is_ascii_digit) {
            None => {}
            Some(true) => self.numbered(row, line, kept),
            Some(false) => self.unnumbered(row, line, &kept),
        }
    }

    fn numbered(&mut self, row: usize, line: &[u8], kept: Kept) {
        let typed = read(&kept.bytes);
        if self.ran && matches!(typed, Some(Typed::Delete(_))) && self.asks() {
            self.found.replies += 1; // a number alone is a good reply, and would delete a line
            return;
        }
        let answer = take(&mut self.controller, line);
        match (answer.stop, typed) {
            (Stop::Done, Some(Typed::Store(number, _))) => self.stored(row, number, Some(kept)),
            (Stop::Done, Some(Typed::Delete(number))) => self.stored(row, number, None),
            _ => self.refused(row, &kept, &answer),
        }
    }

    /// A line was stored, or deleted. Where something was typed since the old one, it was wanted until then.
    fn stored(&mut self, row: usize, number: u16, kept: Option<Kept>) {
        let does = if kept.is_some() {
            "replaces"
        } else {
            "deletes"
        };
        let old = match kept {
            Some(kept) => self.sources.insert(number, Source { row, kept }),
            None => self.sources.remove(&number),
        };
        if let Some(old) = old.filter(|old| old.row > self.acted) {
            let was = String::from_utf8_lossy(&old.kept.bytes).into_owned();
            let words = format!("{does} line {number}, typed in row {}: {was}", old.row);
            self.warn(row, 0, Warning::Replaced, words);
        }
    }

    /// It is tried out on a copy, so that it is read and nothing comes of it.
    fn unnumbered(&mut self, row: usize, line: &[u8], kept: &Kept) {
        let answer = take(&mut self.controller.clone(), line);
        if matches!(answer.stop, Stop::NoReading | Stop::NotImmediate) {
            return self.refused(row, kept, &answer);
        }
        self.acted = row;
        match read(&kept.bytes) {
            Some(Typed::Command("NEW")) => self.program_ends(),
            Some(Typed::Command("RUN")) => self.ran = true,
            Some(Typed::Statement(statement)) => self.obeyed(row, kept, statement),
            _ => {}
        }
    }

    fn obeyed(&mut self, row: usize, kept: &Kept, statement: Statement) {
        for jump in statement.all().filter_map(flow::jump) {
            self.ran = true;
            if let Some(line) = jump.constant().filter(|l| !self.sources.contains_key(l)) {
                let at = kept.typed_at(jump.begin);
                self.warn(row, at, Warning::Target, not_there(jump, line));
            }
        }
        self.typed.push(statement);
    }

    fn refused(&mut self, row: usize, kept: &Kept, answer: &Answer) {
        if self.ran && matches!(answer.stop, Stop::NoReading | Stop::NotImmediate) {
            self.found.replies += 1;
            return;
        }
        let at = match answer.stop {
            Stop::NoReading => kept.typed_at(usize::from(answer.column)),
            _ => 0,
        };
        self.refused = true;
        let words = why::refusal(&kept.bytes, kept.over, answer);
        self.find(row, at, Grade::Error, words);
    }

    /// May the program ask for a reply?
    fn asks(&self) -> bool {
        let program = self.program();
        let asks = |does: &Does| matches!(does, Does::Ask(_) | Does::AskText(_));
        let all = flow::statements(&program);
        all.iter().any(|statement| asks(&statement.does))
    }

    fn program(&self) -> Program {
        let member = |(line, source): (&u16, &Source)| match read(&source.kept.bytes) {
            Some(Typed::Store(_, members)) => Some((*line, members)),
            _ => None,
        };
        self.sources.iter().filter_map(member).collect()
    }

    /// Looks through the program that was typed, and begins another.
    fn program_ends(&mut self) {
        let program = self.program();
        let statements = flow::statements(&program);
        let all: Vec<&Statement> = [statements, self.typed.iter().collect()].concat();
        let alters = !self.ran && alters_another(&program, &all);
        let known = match alters {
            true => bits::NOTHING_KNOWN,
            false => bits::variables(&all),
        };
        let lost = if alters {
            Vec::new()
        } else {
            self.lost(&program)
        };
        self.targets(&program, alters);
        self.bits(&program, &known);
        self.remarks(&program);
        self.unreached(&lost);
        *self = Checker {
            found: std::mem::take(&mut self.found),
            acted: self.acted,
            ..Checker::default()
        };
    }

    fn targets(&mut self, program: &Program, alters: bool) {
        for (line, jump) in flow::jumps(program) {
            let Some(target) = jump.constant().filter(|to| !program.contains_key(to)) else {
                continue;
            };
            let words = not_there(jump, target);
            match alters {
                false => self.find_in(line, jump.begin, Grade::Warning(Warning::Target), words),
                true => {
                    let words = format!("{words}: of a book that this one alters?");
                    self.find_in(line, jump.begin, Grade::Note, words);
                }
            }
        }
    }

    fn bits(&mut self, program: &Program, known: &bits::Variables) {
        for (line, members) in program {
            for statement in members.iter().flat_map(Statement::all) {
                if let Some(trap) = bits::trap(statement, known) {
                    let (at, words) = trap_words(trap);
                    self.find_in(*line, at, Grade::Warning(Warning::Bits), words.to_string());
                }
            }
        }
    }

    fn remarks(&mut self, program: &Program) {
        for (line, members) in program {
            let remarks = members.iter().flat_map(Statement::all);
            for remark in remarks.filter(|statement| statement.does == Does::Remark) {
                let text = self.sources[line].kept.bytes[remark.begin..].to_vec();
                if let Some(word) = accidental(&text) {
                    let words = format!("{word} is REM: from here on the line is a remark");
                    self.find_in(*line, remark.begin, Grade::Warning(Warning::Remark), words);
                }
            }
        }
    }

    /// The statements to which no run comes. Where a target is worked out, it may be any line; and a line that was refused may have led to
    /// any.
    fn lost(&self, program: &Program) -> Vec<(u16, usize, usize)> {
        let typed = self.typed.iter().flat_map(Statement::all);
        let typed: Vec<&Jump> = typed.filter_map(flow::jump).collect();
        let jumps = flow::jumps(program).into_iter().map(|(_, jump)| jump);
        let mut all = jumps.chain(typed.iter().copied());
        let any = self.refused || all.any(|jump| jump.constant().is_none());
        let first = program.keys().next().copied();
        let starts: Vec<u16> = match any {
            true => program.keys().copied().collect(),
            false => {
                let typed = typed.iter().filter_map(|jump| jump.constant());
                first.into_iter().chain(typed).collect()
            }
        };
        flow::unreached(program, &starts)
    }

    fn unreached(&mut self, lost: &[(u16, usize, usize)]) {
        for (line, at, lines) in lost {
            let words = match lines {
                0 => "no run comes to this statement".to_string(),
                1 => format!("no run comes to line {line}"),
                _ => format!(
                    "no run comes to line {line}, nor to the {} behind it",
                    lines - 1
                ),
            };
            self.find_in(*line, *at, Grade::Warning(Warning::Unreached), words);
        }
    }
}

/// Types a line, with no step to run.
fn take(controller: &mut Controller<Vec<u8>, Vec<u8>>, line: &[u8]) -> Answer {
    let input = [line, &[CR]].concat();
    controller.take_line(&input, &mut [0; UNSEEN], Call::at(0, 0, 0))
}

fn not_there(jump: &Jump, line: u16) -> String {
    format!("{} {line}: there is no line {line}", jump.name())
}

/// Do these few lines belong to another book? None of their jumps leads to one of them, and they look at variables that they never
/// give a value, though RUN makes all variables 0.
fn alters_another(program: &Program, all: &[&Statement]) -> bool {
    let jumps = flow::jumps(program);
    let targets: Vec<u16> = jumps
        .iter()
        .filter_map(|(_, jump)| jump.constant())
        .collect();
    let leads_out = !targets.is_empty() && targets.iter().all(|to| !program.contains_key(to));
    let given = |variable: u8| all.iter().any(|one| one.gives().contains(&variable));
    let ungiven = |expr: &Expr| matches!(expr, Expr::Variable(variable) if !given(*variable));
    let looks = all.iter().flat_map(|statement| statement.looks_at());
    leads_out && looks.into_iter().any(|expr| expr.has(&ungiven))
}

/// The word of a remark in which a letter touches REM, if the word is not one for a remark.
fn accidental(remark: &[u8]) -> Option<String> {
    let letters = remark.iter().take_while(|byte| byte.is_ascii_uppercase());
    let word = &remark[..letters.count()];
    let meant = word.len() == 3 || REMARKS.iter().any(|meant| word.starts_with(meant));
    (!meant).then(|| String::from_utf8_lossy(word).into_owned())
}

/// The byte of a trap, and how to get out of it.
fn trap_words(trap: Trap) -> (usize, &'static str) {
    match trap {
        Trap::Apart(at) => (
            at,
            "AND works on bits, and its two sides have none in common: it is always 0. A comparison is 0 or 1; compare the other side too: (M AND 4)<>0",
        ),
        Trap::Other(at) => (
            at,
            "these two can never be equal: the bits that AND and OR leave are not those of the other side",
        ),
        Trap::Turned(at) => (
            at,
            "NOT turns all 16 bits, so what it makes of 0 and of 1 both hold: it always holds. Compare with 0 instead: (A=B)=0, or A<>B",
        ),
        Trap::Always(at) => (at, "OR works on bits, and one side always has some: it always holds"),
    }
}
