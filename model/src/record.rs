//! The session record the controller keeps between calls.
//!
//! Its fields are wider than what fits, since a record that was not left by a
//! call may hold anything. Pushing overwrites one slot and clearing a stack
//! sets its depth to 0; nothing else touches the slots past a stack's depth.

use crate::page::Program;
use crate::value::Value;

/// A position in the page where a statement ends, or the immediate mark. No
/// page is long enough for the mark to be a position.
#[derive(Clone, Copy, Debug, Default, PartialEq, Eq, PartialOrd, Ord)]
pub struct Place(pub u16);

impl Place {
    /// Saved by a GOSUB in an immediate line.
    pub const IMMEDIATE: Place = Place(65_535);
}

/// How deep the stacks go.
pub const PLACES_DEEP: usize = 8;
pub const FORS_DEEP: usize = 4;

/// The stack of GOSUBs, and that of DOs.
#[derive(Clone, Copy, Debug, Default, PartialEq, Eq)]
pub struct PlaceStack {
    pub depth: usize,
    pub places: [Place; PLACES_DEEP],
}

#[derive(Clone, Copy, Debug, Default, PartialEq, Eq)]
pub struct ForEntry {
    pub variable: u8,
    pub limit: Value,
    pub step: Value,
    pub place: Place,
}

#[derive(Clone, Copy, Debug, Default, PartialEq, Eq)]
pub struct ForStack {
    pub depth: usize,
    pub entries: [ForEntry; FORS_DEEP],
}

/// Where a paused run goes on: after a place, or at the program's start.
#[derive(Clone, Copy, Debug, PartialEq, Eq)]
pub enum Pause {
    Start,
    After(Place),
}

#[derive(Clone, Debug, Default, PartialEq, Eq)]
pub struct Record {
    pub variables: [Value; 26],
    pub flags: u8,
    pub gosubs: PlaceStack,
    pub dos: PlaceStack,
    pub fors: ForStack,
    pub paused: Option<Pause>,
}

/// The entries in use, or `None` if the depth is past what the stack holds.
fn in_use<T>(depth: usize, slots: &[T]) -> Option<&[T]> {
    slots.get(..depth)
}

impl PlaceStack {
    pub fn in_use(&self) -> Option<&[Place]> {
        in_use(self.depth, &self.places)
    }

    pub fn top(&self) -> Option<Place> {
        self.in_use()?.last().copied()
    }

    pub fn is_full(&self) -> bool {
        self.depth >= PLACES_DEEP
    }

    /// Only for a stack that is not full.
    pub fn push(&mut self, place: Place) {
        self.places[self.depth] = place;
        self.depth += 1;
    }

    pub fn pop(&mut self) {
        self.depth -= 1;
    }
}

impl ForStack {
    pub fn in_use(&self) -> Option<&[ForEntry]> {
        in_use(self.depth, &self.entries)
    }

    pub fn top(&self) -> Option<ForEntry> {
        self.in_use()?.last().copied()
    }

    pub fn is_full(&self) -> bool {
        self.depth >= FORS_DEEP
    }

    /// Only for a stack that is not full.
    pub fn push(&mut self, entry: ForEntry) {
        self.entries[self.depth] = entry;
        self.depth += 1;
    }

    pub fn pop(&mut self) {
        self.depth -= 1;
    }
}

impl Record {
    pub fn clear_stacks(&mut self) {
        self.gosubs.depth = 0;
        self.dos.depth = 0;
        self.fors.depth = 0;
    }

    /// Zeroes the variables and clears the stacks; the flags stay.
    pub fn clear(&mut self) {
        self.variables = [0; 26];
        self.clear_stacks();
    }

    /// Does the record fit this program?
    pub fn fits(&self, program: &Program) -> bool {
        let is_place = |place: &Place| program.after(*place).is_some();
        let gosub = |place: &Place| *place == Place::IMMEDIATE || is_place(place);
        let entry = |entry: &ForEntry| entry.variable < 26 && is_place(&entry.place);
        let paused = match &self.paused {
            None | Some(Pause::Start) => true,
            Some(Pause::After(place)) => is_place(place),
        };
        self.flags <= 7
            && paused
            && self
                .gosubs
                .in_use()
                .is_some_and(|used| used.iter().all(gosub))
            && self
                .dos
                .in_use()
                .is_some_and(|used| used.iter().all(is_place))
            && self
                .fors
                .in_use()
                .is_some_and(|used| used.iter().all(entry))
    }
}
