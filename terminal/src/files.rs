//! Rule books in files.

use std::fs;
use std::io::{self, ErrorKind};
use std::path::Path;

use crate::words::grouped;

/// The most that a session is lent as input.
const LIMIT: u64 = 65_535;
const MARK_OF_UTF8: &[u8] = &[0xEF, 0xBB, 0xBF];

/// A file's bytes, or in words why there are none.
pub fn read(file: &str) -> Result<Vec<u8>, String> {
    let path = Path::new(file);
    let facts = fs::metadata(path).map_err(|error| not_read(file, &error))?;
    ordinary(file, &facts)?;
    if facts.len() > LIMIT {
        return Err(format!(
            "{file} has more than {} bytes: no rule book is so long",
            grouped(LIMIT)
        ));
    }
    fs::read(path).map_err(|error| not_read(file, &error))
}

/// A directory has no lines, and a pipe or a device may never end.
fn ordinary(file: &str, facts: &fs::Metadata) -> Result<(), String> {
    match (facts.is_file(), facts.is_dir()) {
        (true, _) => Ok(()),
        (_, true) => Err(format!("{file} is a directory")),
        _ => Err(format!("{file} is no ordinary file")),
    }
}

fn not_read(file: &str, error: &io::Error) -> String {
    match error.kind() {
        ErrorKind::NotFound => format!("there is no file {file}"),
        ErrorKind::PermissionDenied => format!("{file} may not be read"),
        _ => format!("{file} cannot be read: {error}"),
    }
}

/// Writes a file anew, or says in words why it was not.
pub fn write(file: &str, bytes: &[u8]) -> Result<(), String> {
    if let Ok(facts) = fs::metadata(file) {
        ordinary(file, &facts)?;
    }
    fs::write(file, bytes).map_err(|error| match error.kind() {
        ErrorKind::NotFound => format!("there is no directory for {file}"),
        ErrorKind::PermissionDenied => format!("{file} may not be written"),
        _ => format!("{file} cannot be written: {error}"),
    })
}

/// How a line of a file ends.
#[derive(Clone, Copy, Debug, PartialEq, Eq)]
pub enum End {
    CrLf,
    Cr,
    Lf,
    /// The file ends there.
    None,
}

impl End {
    pub fn name(self) -> &'static str {
        match self {
            End::CrLf => "CR LF",
            End::Cr => "CR",
            End::Lf => "LF",
            End::None => "nothing",
        }
    }
}

/// The lines of a rule book. They end in CR LF, in LF or in CR; the last may have no end.
pub fn lines(bytes: &[u8]) -> Vec<&[u8]> {
    rows(bytes).into_iter().map(|(line, _)| line).collect()
}

/// The lines of a rule book with their ends.
pub fn rows(bytes: &[u8]) -> Vec<(&[u8], End)> {
    let mut rest = bytes.strip_prefix(MARK_OF_UTF8).unwrap_or(bytes);
    let mut rows = Vec::new();
    while !rest.is_empty() {
        let length = rest
            .iter()
            .position(|b| matches!(b, 10 | 13))
            .unwrap_or(rest.len());
        let (end, taken) = match &rest[length..] {
            [13, 10, ..] => (End::CrLf, 2),
            [13, ..] => (End::Cr, 1),
            [_, ..] => (End::Lf, 1),
            [] => (End::None, 0),
        };
        rows.push((&rest[..length], end));
        rest = &rest[length + taken..];
    }
    rows
}

#[cfg(test)]
mod tests {
    use super::*;

    #[test]
    fn lines_end_in_three_ways_or_not_at_all() {
        let wanted: [&[u8]; 3] = [b"10 END", b"", b"RUN"];
        assert_eq!(lines(b"10 END\r\n\r\nRUN\r\n"), wanted);
        assert_eq!(lines(b"10 END\n\nRUN\n"), wanted);
        assert_eq!(lines(b"10 END\r\rRUN\r"), wanted);
        assert_eq!(lines(b"10 END\r\n\nRUN"), wanted);
        assert_eq!(lines(b"\xEF\xBB\xBF10 END\r\n\nRUN"), wanted);
        assert!(lines(b"").is_empty());
        let ends: Vec<End> = rows(b"1\r2\n3\r\n4").iter().map(|row| row.1).collect();
        assert_eq!(ends, [End::Cr, End::Lf, End::CrLf, End::None]);
    }

    #[test]
    fn what_cannot_be_read_or_written_is_said_in_words() {
        assert_eq!(
            read("/nowhere/gate.nib"),
            Err("there is no file /nowhere/gate.nib".to_string())
        );
        assert_eq!(read("/"), Err("/ is a directory".to_string()));
        assert_eq!(write("/", b""), Err("/ is a directory".to_string()));
        assert_eq!(
            read("/dev/null"),
            Err("/dev/null is no ordinary file".to_string())
        );
        assert_eq!(
            write("/dev/full", b""),
            Err("/dev/full is no ordinary file".to_string())
        );
        let wanted = "there is no directory for /nowhere/gate.nib".to_string();
        assert_eq!(write("/nowhere/gate.nib", b""), Err(wanted));
    }
}
