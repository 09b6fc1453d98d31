//! The stop numbers, in words.

use core::fmt;

/// Why a call came back. The discriminant is the documents' number.
#[derive(Clone, Copy, Debug, PartialEq, Eq, Hash, PartialOrd, Ord)]
#[repr(u8)]
pub enum Stop {
    /// Done; past the last line; RETURN to the immediate mark.
    Done = 0,
    /// A length, position or budget outside the limits.
    OutOfRange = 1,
    /// The edited program would not fit the page.
    PageFull = 2,
    /// DO, UNTIL, FOR, NEXT or INPUT in an immediate line.
    NotImmediate = 3,
    /// Over-long typed line, or no reading.
    NoReading = 5,
    /// Reply over-long or not in its form.
    BadReply = 6,
    /// No CR left in the input.
    NoCr = 7,
    /// GOTO or GOSUB to a line not there.
    NoSuchLine = 8,
    /// RETURN with its stack empty.
    NoGosub = 9,
    /// Past 8 GOSUBs, 8 DOs or 4 FORs.
    TooDeep = 10,
    /// NEXT with no FOR.
    NoFor = 11,
    /// NEXT with another variable.
    OtherVariable = 12,
    /// Division or MOD by 0.
    DivisionByZero = 13,
    /// Budget spent and a statement still to run.
    Paused = 14,
    /// UNTIL with its stack empty.
    NoDo = 15,
    /// A memory byte needed is not there, or no CR found.
    NoMemory = 16,
    /// An output item does not fit whole.
    OutputFull = 17,
    /// Bad page.
    BadPage = 18,
    /// Session record does not fit.
    BadRecord = 19,
    /// END.
    End = 20,
    /// Load: another form number, or none.
    OtherForm = 22,
    /// Load: counts, records or length wrong.
    BadForm = 23,
    /// Load: the form's memory has another length.
    OtherMemory = 24,
    /// A table that does not describe the page.
    BadTable = 26,
}

/// Every stop with what it means and what it did, in order of the numbers.
const ROWS: [(Stop, &str, &str); 24] = [
    (Stop::Done, "done", "all that was asked was done"),
    (
        Stop::OutOfRange,
        "length, position or budget out of range",
        "nothing was changed",
    ),
    (
        Stop::PageFull,
        "no room on the page",
        "the page is as it was",
    ),
    (
        Stop::NotImmediate,
        "only in a line with a number",
        "nothing was run",
    ),
    (
        Stop::NoReading,
        "over-long or no reading",
        "nothing was stored",
    ),
    (
        Stop::BadReply,
        "over-long or wrong reply",
        "it was taken, nothing given",
    ),
    (
        Stop::NoCr,
        "no whole line left in the input",
        "no byte was taken",
    ),
    (Stop::NoSuchLine, "no such line", "no jump was made"),
    (
        Stop::NoGosub,
        "RETURN with no GOSUB open",
        "the statement changed nothing",
    ),
    (
        Stop::TooDeep,
        "too many GOSUBs, DOs or FORs open",
        "the open ones stay open",
    ),
    (
        Stop::NoFor,
        "NEXT with no FOR open",
        "the statement changed nothing",
    ),
    (
        Stop::OtherVariable,
        "NEXT with another variable than its FOR",
        "the FOR stays open",
    ),
    (
        Stop::DivisionByZero,
        "division or MOD by 0",
        "the rest was not done",
    ),
    (Stop::Paused, "paused", "the run can be continued"),
    (
        Stop::NoDo,
        "UNTIL with no DO open",
        "the statement changed nothing",
    ),
    (
        Stop::NoMemory,
        "no such address, or a string with no CR",
        "the rest was not done",
    ),
    (
        Stop::OutputFull,
        "the output is full",
        "what fitted whole was written",
    ),
    (Stop::BadPage, "the page is bad", "nothing was changed"),
    (
        Stop::BadRecord,
        "the record does not fit the page",
        "nothing was changed",
    ),
    (Stop::End, "END", "nothing was run after it"),
    (
        Stop::OtherForm,
        "no saved form, or one of another number",
        "nothing was changed",
    ),
    (
        Stop::BadForm,
        "a damaged form: counts, lines or length",
        "nothing was changed",
    ),
    (
        Stop::OtherMemory,
        "the form's memory has another length",
        "nothing was changed",
    ),
    (
        Stop::BadTable,
        "the table does not describe the page",
        "nothing was changed",
    ),
];

impl Stop {
    /// All of them, in order of their numbers.
    pub const ALL: [Stop; ROWS.len()] = {
        let mut all = [Stop::Done; ROWS.len()];
        let mut at = 0;
        while at < ROWS.len() {
            all[at] = ROWS[at].0;
            at += 1;
        }
        all
    };

    /// The documents' number.
    pub fn number(self) -> u8 {
        self as u8
    }

    /// The stop of a number, if it is one's.
    ///
    /// ```
    /// use nibl::Stop;
    ///
    /// assert_eq!(Stop::of(14), Some(Stop::Paused));
    /// assert_eq!(Stop::of(4), None);
    /// ```
    pub fn of(number: u8) -> Option<Stop> {
        Stop::ALL.into_iter().find(|stop| stop.number() == number)
    }

    fn row(self) -> &'static (Stop, &'static str, &'static str) {
        let row = ROWS.iter().find(|row| row.0 == self);
        row.expect("every stop has a row")
    }

    /// What it means.
    ///
    /// ```
    /// assert_eq!(nibl::Stop::NoReading.words(), "over-long or no reading");
    /// ```
    pub fn words(self) -> &'static str {
        self.row().1
    }

    /// What the call did, or did not.
    ///
    /// ```
    /// assert_eq!(nibl::Stop::NoReading.effect(), "nothing was stored");
    /// ```
    pub fn effect(self) -> &'static str {
        self.row().2
    }
}

/// The number and the words: `5: over-long or no reading`.
impl fmt::Display for Stop {
    fn fmt(&self, f: &mut fmt::Formatter) -> fmt::Result {
        write!(f, "{}: {}", self.number(), self.words())
    }
}

#[cfg(test)]
mod tests {
    use std::vec::Vec;

    use super::*;

    #[test]
    fn the_stops_are_the_numbers_up_to_20_without_4_and_then_22_to_24_and_26() {
        let wanted: Vec<u8> = (0..=3).chain(5..=20).chain([22, 23, 24, 26]).collect();
        assert_eq!(Stop::ALL.map(Stop::number).to_vec(), wanted);
        for number in 0..=255 {
            let known = wanted.contains(&number).then_some(number);
            assert_eq!(Stop::of(number).map(Stop::number), known);
        }
    }
}
