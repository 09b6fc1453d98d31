//! A record as bytes: the form of `include/nibl_host.h`, so that a desk reads what a box stored.

use core::slice::{Iter, IterMut};

use crate::record::{ForEntry, ForStack, PlaceStack, Record};

/// The form's number, which stands in front. A record that is laid out otherwise has another form.
pub const RECORD_FORM: u8 = 1;

/// The bytes of a stored record.
pub const RECORD_BYTES: usize = 119;

/// The bytes that are still to be written.
struct Writer<'a>(IterMut<'a, u8>);

/// The bytes that are still to be read.
struct Reader<'a>(Iter<'a, u8>);

impl Writer<'_> {
    fn put(&mut self, byte: u8) {
        *self.0.next().expect("the form has a length") = byte;
    }

    fn put_2(&mut self, number: u16) {
        for byte in number.to_be_bytes() {
            self.put(byte);
        }
    }

    fn put_places(&mut self, stack: &PlaceStack) {
        self.put(stack.depth as u8);
        for at in 0..stack.places.len() {
            self.put_2(stack.open().get(at).copied().unwrap_or_default());
        }
    }

    fn put_fors(&mut self, stack: &ForStack) {
        self.put(stack.depth as u8);
        for at in 0..stack.entries.len() {
            let ForEntry {
                var,
                limit,
                step,
                place,
            } = stack.open().get(at).copied().unwrap_or_default();
            self.put(var);
            for number in [limit, step, place] {
                self.put_2(number);
            }
        }
    }
}

impl Reader<'_> {
    fn get(&mut self) -> u8 {
        *self.0.next().expect("the form has a length")
    }

    fn get_2(&mut self) -> u16 {
        u16::from_be_bytes([self.get(), self.get()])
    }

    fn get_places(&mut self) -> PlaceStack {
        PlaceStack {
            depth: self.get().into(),
            places: [(); 8].map(|()| self.get_2()),
        }
    }

    fn get_fors(&mut self) -> ForStack {
        ForStack {
            depth: self.get().into(),
            entries: [(); 4].map(|()| ForEntry {
                var: self.get(),
                limit: self.get_2(),
                step: self.get_2(),
                place: self.get_2(),
            }),
        }
    }
}

impl Record {
    /// No stack is deeper than it can be: so it is after every call, but for a record that was lent so, and was refused.
    fn is_storable(&self) -> bool {
        let full = [
            self.gosubs.places.len(),
            self.dos.places.len(),
            self.fors.entries.len(),
        ];
        let deep = [self.gosubs.depth, self.dos.depth, self.fors.depth];
        full.iter()
            .zip(deep)
            .all(|(&full, deep)| deep <= full as u64)
    }

    /// The record as bytes, the same on every target and from C (`nibl_host_store_record`): stacks and pause with it, behind
    /// the form's number. Equal records have equal bytes. None for a record with a stack deeper than it can be, which no call
    /// leaves.
    ///
    /// ```
    /// use nibl::{Call, Controller, Record};
    ///
    /// let mut gate = Controller::owned(256, 0);
    /// gate.take_line(b"10 A=1:GOTO 10\r", &mut [], Call::default());
    /// gate.take_line(b"RUN\r", &mut [], Call::at(0, 0, 3)); // paused
    /// let stored = gate.record.to_bytes().expect("a call left it");
    /// assert_eq!(Record::from_bytes(&stored), Some(gate.record));
    /// ```
    pub fn to_bytes(&self) -> Option<[u8; RECORD_BYTES]> {
        let Record {
            vars,
            flags,
            gosubs,
            dos,
            fors,
            paused,
        } = self;
        let mut stored = [0; RECORD_BYTES];
        let mut bytes = Writer(stored.iter_mut());
        bytes.put(RECORD_FORM);
        for value in vars {
            bytes.put_2(*value);
        }
        bytes.put(*flags);
        bytes.put_places(gosubs);
        bytes.put_places(dos);
        bytes.put_fors(fors);
        bytes.put_2(*paused);
        self.is_storable().then_some(stored)
    }

    /// The record of these bytes. None where they have another length or another form's number, or a stack is too deep.
    /// Whether it fits a page, the next call says.
    ///
    /// ```
    /// use nibl::Record;
    ///
    /// let mut stored = Record::fresh().to_bytes().expect("nothing is open");
    /// stored[0] += 1; // of a controller with another record
    /// assert_eq!(Record::from_bytes(&stored), None);
    /// ```
    pub fn from_bytes(stored: &[u8]) -> Option<Record> {
        let (form, fields) = stored.split_first()?;
        if *form != RECORD_FORM || stored.len() != RECORD_BYTES {
            return None;
        }
        let mut bytes = Reader(fields.iter());
        let record = Record {
            vars: [(); 26].map(|()| bytes.get_2()),
            flags: bytes.get(),
            gosubs: bytes.get_places(),
            dos: bytes.get_places(),
            fors: bytes.get_fors(),
            paused: bytes.get_2(),
        };
        record.is_storable().then_some(record)
    }
}
