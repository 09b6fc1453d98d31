//! The desk's own commands: lines that begin with a dot, which no line of NIBL does.

use crate::desk::BUDGET_LIMIT;
use crate::reading::NUMBER_MOST;
use crate::words::grouped;

#[derive(Clone, Debug, PartialEq, Eq)]
pub enum Command {
    GoOn,
    Load(String),
    Save(String),
    /// The rule set to a file, and from one.
    Export(String),
    Import(String),
    /// The lines from one number to another.
    List(u16, u16),
    Edit(u16),
    Find(String),
    Show,
    Sense(Option<u8>),
    Budget(Option<u64>),
    /// All of it in short.
    Memory,
    /// From an address on.
    MemoryAt(usize),
    /// Bytes to store from an address on.
    MemorySet(usize, Vec<u8>),
    Help,
    Stops,
    Quit,
}

pub const HELP: &str = "\
A line of NIBL is typed as it is. A line that begins with a dot is for the desk:

.               goes on with a paused run
.load FILE      types a rule book line by line; shows lines that are refused
.save FILE      writes what LIST gives; asks before it writes over a file
.export FILE    writes program, variables and memory for another box to load
.import FILE    loads what .export wrote, in the place of all three here
.list A B       lists the lines from A to B, and ends no pause
.edit N         lets line N be changed
.find TEXT      lists the lines that have TEXT in them
.show           draws variables, flags, stacks, pause and used bytes
.sense N        sets the sense byte, 0 to 255; STAT reads its bits 16 and 32
.budget N       sets how many steps are run for one reply
.memory A N ..  sets the memory's bytes from address A on
.stops          says what the stop numbers mean
.help           says this
.quit           ends, as Ctrl-D does

.sense, .budget and .memory without N show what is set; .memory alone shows all
that is not 0. .list A goes on to the end, .list alone has all. Names may be in
capitals. Numbers are decimal, or hex behind #.

Up, Down                earlier lines, and back
Left, Right, Home, End  move in the line, as Ctrl-A and Ctrl-E do
Backspace, _, Delete    take a character away
Ctrl-U, Ctrl-K, Ctrl-W  take away all before the cursor, all behind it, a word
Ctrl-C                  ends a run, which is then paused; a wait; a line
Ctrl-D                  on an empty line: ends a wait; else all
";

/// The command that a line is, or what is wrong with it; none if the line is the controller's.
pub fn parse(line: &str) -> Option<Result<Command, String>> {
    let line = line.trim();
    if !line.starts_with('.') {
        return None;
    }
    let (name, operands) = line.split_once(' ').unwrap_or((line, ""));
    Some(command(&name.to_ascii_lowercase(), operands.trim()))
}

fn command(name: &str, operands: &str) -> Result<Command, String> {
    let words: Vec<&str> = operands.split_whitespace().collect();
    let plain = |command| match words.is_empty() {
        true => Ok(command),
        false => Err(format!("{name} takes nothing behind it")),
    };
    match name {
        "." => plain(Command::GoOn),
        ".show" => plain(Command::Show),
        ".help" => plain(Command::Help),
        ".stops" => plain(Command::Stops),
        ".quit" => plain(Command::Quit),
        ".list" => list(name, &words),
        ".edit" => line(name, &words),
        ".find" => text(name, operands).map(Command::Find),
        ".load" => file(name, operands).map(Command::Load),
        ".save" => file(name, operands).map(Command::Save),
        ".export" => file(name, operands).map(Command::Export),
        ".import" => file(name, operands).map(Command::Import),
        ".sense" => byte(name, &words).map(Command::Sense),
        ".budget" => optional(name, &words, BUDGET_LIMIT).map(Command::Budget),
        ".memory" => memory(name, &words),
        _ => Err(format!("{name} is no command; .help lists them")),
    }
}

fn file(name: &str, operands: &str) -> Result<String, String> {
    match operands {
        "" => Err(format!("{name} needs the name of a file")),
        file => Ok(file.to_string()),
    }
}

fn text(name: &str, operands: &str) -> Result<String, String> {
    match operands {
        "" => Err(format!("{name} needs a text to look for")),
        text => Ok(text.to_string()),
    }
}

fn list(name: &str, words: &[&str]) -> Result<Command, String> {
    match words {
        [] => Ok(Command::List(0, u16::MAX)),
        [first] => Ok(Command::List(line_number(name, first)?, u16::MAX)),
        [first, last] => Ok(Command::List(
            line_number(name, first)?,
            line_number(name, last)?,
        )),
        _ => Err(format!("{name} takes two line numbers")),
    }
}

fn line(name: &str, words: &[&str]) -> Result<Command, String> {
    match words {
        [word] => line_number(name, word).map(Command::Edit),
        _ => Err(format!("{name} takes one line number")),
    }
}

fn line_number(name: &str, word: &str) -> Result<u16, String> {
    number(name, word, u64::from(NUMBER_MOST)).map(|number| number as u16) // at most 32,767
}

fn byte(name: &str, words: &[&str]) -> Result<Option<u8>, String> {
    let number = optional(name, words, u64::from(u8::MAX))?;
    Ok(number.map(|number| number as u8)) // at most 255
}

/// No number, or one.
fn optional(name: &str, words: &[&str], limit: u64) -> Result<Option<u64>, String> {
    match words {
        [] => Ok(None),
        [word] => number(name, word, limit).map(Some),
        _ => Err(format!("{name} takes one number")),
    }
}

fn memory(name: &str, words: &[&str]) -> Result<Command, String> {
    let Some((first, rest)) = words.split_first() else {
        return Ok(Command::Memory);
    };
    let address = number(name, first, u64::from(u16::MAX))? as usize;
    if rest.is_empty() {
        return Ok(Command::MemoryAt(address));
    }
    let value = |word: &&str| number(name, word, u64::from(u8::MAX)).map(|number| number as u8);
    let values: Result<Vec<u8>, String> = rest.iter().map(value).collect();
    Ok(Command::MemorySet(address, values?))
}

/// A number in decimal, or in hex behind `#` as NIBL has it; commas may stand between thousands, and nowhere else.
fn number(name: &str, word: &str, limit: u64) -> Result<u64, String> {
    let read = match word.strip_prefix('#') {
        Some(hex) if hex.starts_with('+') => None,
        Some(hex) => u64::from_str_radix(hex, 16).ok(),
        None if word.starts_with('+') => None,
        None => word
            .replace(',', "")
            .parse()
            .ok()
            .filter(|number| !word.contains(',') || grouped(*number) == word),
    };
    read.filter(|number| *number <= limit).ok_or_else(|| {
        format!(
            "{name} needs a number from 0 to {}, and {word} is none",
            grouped(limit)
        )
    })
}

#[cfg(test)]
mod tests {
    use super::*;

    fn read(line: &str) -> Command {
        parse(line).expect("a command").expect("a good one")
    }

    fn fault(line: &str) -> String {
        parse(line).expect("a command").expect_err("a fault")
    }

    #[test]
    fn lines_of_nibl_are_none() {
        for line in ["", " ", "RUN", "10 REM .show", "PRINT \".\""] {
            assert_eq!(parse(line), None);
        }
    }

    #[test]
    fn each_command_is_read() {
        assert_eq!(read("."), Command::GoOn);
        assert_eq!(read("  . "), Command::GoOn);
        assert_eq!(read(".show"), Command::Show);
        assert_eq!(read(".SHOW"), Command::Show);
        assert_eq!(read(".help"), Command::Help);
        assert_eq!(read(".stops"), Command::Stops);
        assert_eq!(
            read(".load my rules.nib "),
            Command::Load("my rules.nib".to_string())
        );
        assert_eq!(
            read(".SAVE Gate.nib"),
            Command::Save("Gate.nib".to_string())
        );
        assert_eq!(
            read(".export gate.form"),
            Command::Export("gate.form".to_string())
        );
        assert_eq!(
            read(".import gate.form"),
            Command::Import("gate.form".to_string())
        );
        assert_eq!(read(".list"), Command::List(0, u16::MAX));
        assert_eq!(read(".list 10"), Command::List(10, u16::MAX));
        assert_eq!(read(".list 10 20"), Command::List(10, 20));
        assert_eq!(read(".edit 240"), Command::Edit(240));
        assert_eq!(read(".find L-40 "), Command::Find("L-40".to_string()));
        assert_eq!(read(".quit"), Command::Quit);
        assert_eq!(read(".sense"), Command::Sense(None));
        assert_eq!(read(".sense #30"), Command::Sense(Some(48)));
        assert_eq!(read(".budget"), Command::Budget(None));
        assert_eq!(read(".budget 1,000,000"), Command::Budget(Some(1_000_000)));
        assert_eq!(read(".memory"), Command::Memory);
        assert_eq!(read(".memory 512"), Command::MemoryAt(512));
        assert_eq!(
            read(".memory 40 17 #FF"),
            Command::MemorySet(40, vec![17, 255])
        );
    }

    #[test]
    fn faults_are_said_in_words() {
        assert_eq!(fault(".laod x"), ".laod is no command; .help lists them");
        assert_eq!(fault(".show me"), ".show takes nothing behind it");
        assert_eq!(fault(".load"), ".load needs the name of a file");
        assert_eq!(fault(".find"), ".find needs a text to look for");
        assert_eq!(fault(".edit"), ".edit takes one line number");
        assert_eq!(fault(".list 1 2 3"), ".list takes two line numbers");
        assert_eq!(
            fault(".edit 32768"),
            ".edit needs a number from 0 to 32,767, and 32768 is none"
        );
        assert_eq!(
            fault(".sense 256"),
            ".sense needs a number from 0 to 255, and 256 is none"
        );
        assert_eq!(
            fault(".budget -1"),
            ".budget needs a number from 0 to 1,000,000,000,000, and -1 is none"
        );
        assert_eq!(fault(".budget 1 2"), ".budget takes one number");
        assert_eq!(
            fault(".memory 0 300"),
            ".memory needs a number from 0 to 255, and 300 is none"
        );
        for word in ["+5", "#+5", "#", ",", "5X", "#G", "1,2", "1,0000", "1,000,"] {
            assert!(fault(&format!(".memory {word}")).ends_with("is none"));
        }
    }

    #[test]
    fn the_help_has_every_command_and_fits_a_terminal() {
        let commands = HELP.lines().filter(|line| line.starts_with('.'));
        let named: Vec<&str> = commands
            .filter_map(|line| line.split("  ").next())
            .collect();
        let wanted = [
            ".",
            ".load FILE",
            ".save FILE",
            ".export FILE",
            ".import FILE",
            ".list A B",
            ".edit N",
            ".find TEXT",
            ".show",
            ".sense N",
            ".budget N",
            ".memory A N ..",
            ".stops",
            ".help",
            ".quit",
        ];
        assert_eq!(named[..wanted.len()], wanted);
        for line in wanted {
            let numbers = line
                .replace(" A", " 1")
                .replace(" B", " 2")
                .replace(" N", " 2")
                .replace(" ..", " 3");
            assert!(parse(&numbers).is_some_and(|command| command.is_ok()));
        }
        assert!(HELP.lines().all(|line| line.len() <= 80));
    }
}
