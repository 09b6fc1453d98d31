//! A progress bar on the terminal; where standard error is none, nothing.

use std::io::{self, IsTerminal, Write};

const WIDTH: usize = 40;

pub struct Progress {
    total: usize,
    done: usize,
    is_shown: bool,
}

impl Progress {
    pub fn of(total: usize) -> Progress {
        Progress {
            total,
            done: 0,
            is_shown: io::stderr().is_terminal(),
        }
    }

    /// One more is done: draws the bar when one more per cent is, and ends its line with the last.
    pub fn step(&mut self) {
        self.done += 1;
        let percent = |done| 100 * done / self.total;
        if !self.is_shown || percent(self.done) == percent(self.done - 1) {
            return;
        }
        let full = WIDTH * self.done / self.total;
        let (bar, rest) = ("#".repeat(full), ".".repeat(WIDTH - full));
        let end = if self.done < self.total { "" } else { "\n" };
        // A terminal that is gone is no reason to stop.
        let _ = write!(
            io::stderr(),
            "\r[{bar}{rest}] {} of {} visits{end}",
            self.done,
            self.total
        );
    }
}
