//! Rule books at the desk: typed from a file, written to one, carried to another box, and whether the program is in a file.

use std::collections::VecDeque;
use std::io::Write;

use nibl::Stop;

use crate::desk::{Dealer, Desk, Reply};
use crate::files;
use crate::forms::{form_of, refusal, Carried};
use crate::page::Change;
use crate::screen::SAID;
use crate::seat::Seat;
use crate::words::{counted, sentence};

/// What of the program is in a file.
#[derive(Debug, Default)]
pub struct Saved {
    /// The listing that was written or loaded last.
    listing: Vec<u8>,
    /// The listing that the dealer was told is in no file.
    told: Vec<u8>,
}

impl Saved {
    /// Is the program in no file? Each one is told of once.
    pub fn is_to_be_told(&mut self, desk: &Desk) -> bool {
        let listing = desk.listing().unwrap_or_default();
        let is_kept = listing.is_empty() || listing == self.listing || listing == self.told;
        self.told = listing;
        !is_kept
    }
}

/// Not done, and no END either.
pub fn is_refusal(stop: Stop) -> bool {
    !matches!(stop, Stop::Done | Stop::End)
}

/// Writes the program to a file, and asks before it writes over another.
pub fn save<W: Write>(desk: &Desk, seat: &mut Seat<W>, saved: &mut Saved, file: &str) {
    let done = match desk.listing() {
        Err(stop) => Err(stop.to_string()),
        Ok(listing) if listing.is_empty() => {
            Err(format!("there is no program; {file} was not written"))
        }
        Ok(listing) if is_other(file, &listing) && !overwrites(seat, file) => {
            Err(format!("{file} was not written"))
        }
        Ok(listing) => files::write(file, &listing).map(|()| {
            let lines = counted(files::lines(&listing).len() as u64, "line");
            let bytes = counted(listing.len() as u64, "byte");
            saved.listing = listing;
            format!("{lines}, {bytes} written to {file}")
        }),
    };
    tell(seat, done);
}

/// Says what was done, or what was not.
fn tell<W: Write>(seat: &mut Seat<W>, done: Result<String, String>) {
    match done {
        Ok(words) => seat.screen.say(&words, false),
        Err(fault) => seat.screen.say(&fault, true),
    }
}

/// Writes the rule set to a file in the form that another box loads, and asks before it writes over another file.
pub fn export<W: Write>(desk: &mut Desk, seat: &mut Seat<W>, saved: &mut Saved, file: &str) {
    let done = match form_of(&mut desk.controller) {
        Err(stop) => Err(stop.to_string()),
        Ok(form) if is_other(file, &form) && !overwrites(seat, file) => {
            Err(format!("{file} was not written"))
        }
        Ok(form) => files::write(file, &form).map(|()| {
            saved.listing = desk.listing().unwrap_or_default();
            let carried = Carried::of(&form).map_or(String::new(), Carried::words);
            let bytes = counted(form.len() as u64, "byte");
            format!("{carried} written to {file}, {bytes}")
        }),
    };
    tell(seat, done);
}

/// Loads a rule set that was exported, in the place of what is here.
pub fn import<W: Write>(desk: &mut Desk, seat: &mut Seat<W>, saved: &mut Saved, file: &str) {
    let done = files::read(file).and_then(|form| {
        let was_paused = desk.controller.record.is_paused();
        let stop = desk.controller.load(&form).stop;
        if stop != Stop::Done {
            return Err(refusal(stop, &form, desk.controller.memory.len()));
        }
        saved.listing = desk.listing().unwrap_or_default();
        let carried = Carried::of(&form).map_or(String::new(), Carried::words);
        let pause = if was_paused {
            "; the pause has ended"
        } else {
            ""
        };
        Ok(format!("{carried} loaded from {file}{pause}"))
    });
    tell(seat, done);
}

/// Is there a file of this name that holds something else?
fn is_other(file: &str, listing: &[u8]) -> bool {
    files::read(file).is_ok_and(|bytes| bytes != listing)
}

fn overwrites<W: Write>(seat: &mut Seat<W>, file: &str) -> bool {
    seat.agrees(&format!("{file} is there already: write over it?"))
}

/// Types the lines of a file.
pub fn load<W: Write>(desk: &mut Desk, seat: &mut Seat<W>, saved: &mut Saved, file: &str) {
    let bytes = match files::read(file) {
        Ok(bytes) => bytes,
        Err(fault) => return seat.screen.say(&fault, true),
    };
    let nuls = bytes.iter().filter(|byte| **byte == 0).count() as u64;
    if nuls > 0 {
        let nuls = counted(nuls, "NUL byte");
        let words = format!("{file} has {nuls}; typing drops each");
        seat.screen.say(&words, true);
    }
    let was_saved = desk.listing().is_ok_and(|listing| listing == saved.listing);
    let mut book = Book {
        seat,
        rest: (1..).zip(files::lines(&bytes)).collect(),
        counts: Counts::default(),
    };
    book.type_into(desk, file);
    if was_saved {
        saved.listing = desk.listing().unwrap_or_default();
    }
}

/// A file being typed: INPUT takes its lines as replies, as it would in a session of these lines.
struct Book<'a, W: Write> {
    seat: &'a mut Seat<W>,
    rest: VecDeque<(usize, &'a [u8])>,
    counts: Counts,
}

#[derive(Default)]
struct Counts {
    typed: u64,
    refused: u64,
    replaced: u64,
}

impl<W: Write> Book<'_, W> {
    /// Types all lines. Those that were refused are shown with their numbers.
    fn type_into(&mut self, desk: &mut Desk, file: &str) {
        while let Some((number, line)) = self.rest.pop_front() {
            let reply = desk.take_line(line, self);
            self.count(&reply);
            if is_refusal(reply.stop) {
                self.refused(file, number, line, &reply);
            }
            if reply.was_cut_short() || self.seat.has_left() || self.interrupts() {
                let words = format!("{file}: ended at line {number}");
                return self.seat.screen.say(&words, true);
            }
        }
        let Counts {
            typed,
            refused,
            replaced,
        } = self.counts;
        let typed = counted(typed, "line");
        let words = format!("{file}: {typed} typed, {refused} refused, {replaced} replaced");
        self.seat.screen.say(&words, refused > 0);
    }

    fn count(&mut self, reply: &Reply) {
        self.counts.typed += 1;
        self.counts.refused += u64::from(is_refusal(reply.stop));
        self.counts.replaced += u64::from(matches!(reply.change, Change::Replaced(_)));
    }

    fn refused(&mut self, file: &str, number: usize, line: &[u8], reply: &Reply) {
        let text = String::from_utf8_lossy(line);
        let before = format!("{file}, line {number}: ");
        self.seat.screen.say(&format!("{before}{text}"), true);
        self.seat.point(&format!("{SAID}{before}"), line, reply);
        self.seat.screen.say(&sentence(reply), true);
    }
}

impl<W: Write> Dealer for Book<'_, W> {
    fn show(&mut self, output: &[u8]) {
        self.seat.show(output);
    }

    fn reply(&mut self, line: u16) -> Option<Vec<u8>> {
        match self.rest.pop_front() {
            Some((_, reply)) => Some(reply.to_vec()),
            None => self.seat.reply(line),
        }
    }

    fn interrupts(&mut self) -> bool {
        self.seat.interrupts()
    }
}

#[cfg(test)]
mod tests {
    use super::*;

    struct Nobody;

    impl Dealer for Nobody {
        fn show(&mut self, _output: &[u8]) {}
        fn reply(&mut self, _line: u16) -> Option<Vec<u8>> {
            None
        }
        fn interrupts(&mut self) -> bool {
            false
        }
    }

    #[test]
    fn a_program_in_no_file_is_told_of_once() {
        let (mut desk, mut saved) = (Desk::default(), Saved::default());
        assert!(!saved.is_to_be_told(&desk));
        desk.take_line(b"10 END", &mut Nobody);
        assert!(saved.is_to_be_told(&desk));
        assert!(!saved.is_to_be_told(&desk));
        desk.take_line(b"20 END", &mut Nobody);
        assert!(saved.is_to_be_told(&desk));
        saved.listing = desk.listing().expect("a listing");
        assert!(!saved.is_to_be_told(&desk));
        desk.take_line(b"NEW", &mut Nobody);
        assert!(!saved.is_to_be_told(&desk));
    }
}
