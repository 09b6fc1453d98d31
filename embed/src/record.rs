//! The session record, in C's layout: `nibl_record` and its parts in `include/nibl.h`.

/// The immediate mark: what a GOSUB that was typed saves for a place.
pub const MARK: u16 = 65535;

/// The pause of a record that has none.
pub const NOWHERE: u16 = 0;

/// A pause at the program's start. One after the place p is p + 2.
pub const START: u16 = 1;

/// The stack of GOSUB, and that of DO. Two are equal where what is in use is: no call looks at the other slots.
#[repr(C)]
#[derive(Clone, Copy, Debug, Default)]
pub struct PlaceStack {
    /// So many slots are in use, the oldest first.
    pub depth: u64,
    /// Positions in the page of the ":" or the CR after which to go on; on the GOSUB stack also [`MARK`].
    pub places: [u16; 8],
}

impl PlaceStack {
    /// The places that are in use, the oldest first: all slots, where a depth is too large, which no call leaves.
    pub fn open(&self) -> &[u16] {
        in_use(self.depth, &self.places)
    }
}

impl PartialEq for PlaceStack {
    fn eq(&self, other: &PlaceStack) -> bool {
        self.depth == other.depth && self.open() == other.open()
    }
}

impl Eq for PlaceStack {}

/// A FOR that is open.
#[repr(C)]
#[derive(Clone, Copy, Debug, Default, PartialEq, Eq)]
pub struct ForEntry {
    /// Its variable: 0 is A, 25 is Z.
    pub var: u8,
    /// Its limit: 16 bits, read as signed.
    pub limit: u16,
    /// Its step: 16 bits, read as signed.
    pub step: u16,
    /// The place that ends the FOR statement.
    pub place: u16,
}

/// The stack of FOR. Two are equal where what is in use is: no call looks at the other slots.
#[repr(C)]
#[derive(Clone, Copy, Debug, Default)]
pub struct ForStack {
    /// So many slots are in use, the oldest first.
    pub depth: u64,
    /// The open FORs.
    pub entries: [ForEntry; 4],
}

impl ForStack {
    /// The FORs that are open, the oldest first: all slots, where the depth is too large, which no call leaves.
    pub fn open(&self) -> &[ForEntry] {
        in_use(self.depth, &self.entries)
    }
}

impl PartialEq for ForStack {
    fn eq(&self, other: &ForStack) -> bool {
        self.depth == other.depth && self.open() == other.open()
    }
}

impl Eq for ForStack {}

fn in_use<T>(depth: u64, slots: &[T]) -> &[T] {
    let depth = usize::try_from(depth).unwrap_or(slots.len());
    &slots[..depth.min(slots.len())]
}

/// What the controller keeps between calls. Every bit pattern is a record; one that does not fit the page is refused
/// with [`Stop::BadRecord`](crate::Stop::BadRecord), and stays as it is. Two are equal where they say the same: what stands in
/// a stack past its depth does not count.
#[repr(C)]
#[derive(Clone, Copy, Debug, Default, PartialEq, Eq)]
pub struct Record {
    /// A to Z: 16 bits, read as signed.
    pub vars: [u16; 26],
    /// Bits 0 to 2: what STAT was given.
    pub flags: u8,
    /// Open GOSUBs.
    pub gosubs: PlaceStack,
    /// Open DOs.
    pub dos: PlaceStack,
    /// Open FORs.
    pub fors: ForStack,
    /// [`NOWHERE`], [`START`], or 2 more than the place after which the run goes on.
    pub paused: u16,
}

impl Record {
    /// The record of a new session: nothing but zeros.
    pub fn fresh() -> Record {
        Record::default()
    }

    /// Is a run paused, so that [`Controller::continue_run`](crate::Controller::continue_run) has something to do?
    pub fn is_paused(&self) -> bool {
        self.paused != NOWHERE
    }
}
