//! Lines that are typed into a page, as a file has them.

use std::fs;
use std::path::Path;

const CR: u8 = 13;
const LF: u8 = 10;

/// The lines of a file.
#[derive(Clone, Debug)]
pub struct Typed {
    /// The file, for errors.
    pub name: String,
    /// The lines without their ends: CR, LF or both.
    pub lines: Vec<Vec<u8>>,
}

impl Typed {
    pub fn read(path: &Path) -> Result<Typed, String> {
        let name = path.display().to_string();
        let bytes = fs::read(path).map_err(|error| format!("{name}: {error}"))?;
        Ok(Typed::of(name, &bytes))
    }

    /// The lines of these bytes. An editor may have ended them with LF alone; the gate's keyboard has CR.
    pub fn of(name: impl Into<String>, bytes: &[u8]) -> Typed {
        let line = |line: &[u8]| line.iter().copied().filter(|byte| *byte != CR).collect();
        let ended_by = if bytes.contains(&LF) { LF } else { CR };
        let mut lines: Vec<Vec<u8>> = bytes.split(|byte| *byte == ended_by).map(line).collect();
        if lines.last().is_some_and(Vec::is_empty) {
            lines.pop();
        }
        Typed {
            name: name.into(),
            lines,
        }
    }

    /// The numbers of the lines that have one: "240" or "240, 241".
    pub fn numbers(&self) -> String {
        let number = |line: &Vec<u8>| {
            let digits: Vec<u8> = line
                .iter()
                .copied()
                .take_while(u8::is_ascii_digit)
                .collect();
            String::from_utf8(digits)
                .ok()
                .filter(|text| !text.is_empty())
        };
        let numbers: Vec<String> = self.lines.iter().filter_map(number).collect();
        numbers.join(", ")
    }
}

#[cfg(test)]
mod tests {
    use super::*;

    #[test]
    fn lines_end_as_they_like() {
        for text in ["10 END\r\n20 END\r\n", "10 END\n20 END", "10 END\r20 END\r"] {
            let typed = Typed::of("", text.as_bytes());
            assert_eq!(typed.lines, [b"10 END", b"20 END"]);
            assert_eq!(typed.numbers(), "10, 20");
        }
        assert!(Typed::of("", b"").lines.is_empty());
    }
}
