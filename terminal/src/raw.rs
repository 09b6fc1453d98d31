//! The terminal's settings, by the system's own `stty`: each key comes as it is pressed, and none ends the program.

use std::io;
use std::process::{Command, Stdio};

/// Where no width can be found out.
const USUAL_WIDTH: usize = 80;
/// Keys come at once, unseen, as the bytes they send; what is written is left as it was set.
const SETTINGS: [&str; 12] = [
    "-icanon", "-echo", "-isig", "-iexten", "-ixon", "-icrnl", "-inlcr", "-igncr", "min", "1",
    "time", "0",
];

/// While this lives, keys come raw. Afterwards the terminal is as it was.
pub struct Raw {
    before: String,
}

impl Raw {
    pub fn enter() -> io::Result<Raw> {
        let before = stty(&["-g"])?;
        let raw = Raw {
            before: before.trim().to_string(),
        };
        stty(&SETTINGS)?;
        Ok(raw)
    }
}

impl Drop for Raw {
    fn drop(&mut self) {
        // There is nobody left to tell of a failure: the terminal is gone then.
        let _ = stty(&[&self.before]);
    }
}

/// The terminal's columns now; a window may have changed since the last line.
pub fn width() -> usize {
    let size = stty(&["size"]).unwrap_or_default();
    let columns = size
        .split_whitespace()
        .nth(1)
        .and_then(|word| word.parse().ok());
    columns
        .filter(|columns| *columns > 0)
        .unwrap_or(USUAL_WIDTH)
}

fn stty(words: &[&str]) -> io::Result<String> {
    let done = Command::new("stty")
        .args(words)
        .stdin(Stdio::inherit())
        .output()?;
    match done.status.success() {
        true => Ok(String::from_utf8_lossy(&done.stdout).into_owned()),
        false => Err(io::Error::other(
            String::from_utf8_lossy(&done.stderr).trim(),
        )),
    }
}
