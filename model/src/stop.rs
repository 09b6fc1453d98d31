//! The stop numbers.

/// Why a call came back. The discriminant is the number the controller shows.
#[derive(Clone, Copy, Debug, PartialEq, Eq)]
#[repr(u8)]
pub enum Stop {
    Done = 0,
    OutOfRange = 1,
    PageFull = 2,
    NotImmediate = 3,
    NoReading = 5,
    BadReply = 6,
    NoCr = 7,
    NoSuchLine = 8,
    NoGosub = 9,
    TooDeep = 10,
    NoFor = 11,
    OtherVariable = 12,
    DivisionByZero = 13,
    Paused = 14,
    NoDo = 15,
    NoMemory = 16,
    OutputFull = 17,
    BadPage = 18,
    BadRecord = 19,
    End = 20,
    OtherForm = 22,
    BadForm = 23,
    OtherMemory = 24,
    BadTable = 26,
}

impl Stop {
    /// All of them, in rising number.
    pub const ALL: [Stop; 24] = [
        Stop::Done,
        Stop::OutOfRange,
        Stop::PageFull,
        Stop::NotImmediate,
        Stop::NoReading,
        Stop::BadReply,
        Stop::NoCr,
        Stop::NoSuchLine,
        Stop::NoGosub,
        Stop::TooDeep,
        Stop::NoFor,
        Stop::OtherVariable,
        Stop::DivisionByZero,
        Stop::Paused,
        Stop::NoDo,
        Stop::NoMemory,
        Stop::OutputFull,
        Stop::BadPage,
        Stop::BadRecord,
        Stop::End,
        Stop::OtherForm,
        Stop::BadForm,
        Stop::OtherMemory,
        Stop::BadTable,
    ];

    pub fn number(self) -> u8 {
        self as u8
    }
}
