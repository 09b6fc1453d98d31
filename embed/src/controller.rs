//! A controller with all that it keeps between calls.

use alloc::vec;
use alloc::vec::Vec;

use crate::answer::{Answer, Call};
use crate::gate::{self, Lent};
use crate::record::Record;
use crate::table::table_of;

/// A page, a memory, the record that goes with them, and a table if one is lent: vectors, arrays or borrowed slices. The fields may
/// be read and changed between calls; what no longer belongs together is refused by the next call.
#[derive(Clone, Debug, PartialEq, Eq)]
pub struct Controller<P, M> {
    /// The program: 2 to 4,096 bytes.
    pub page: P,
    /// What `@` and `$` reach: 0 to 4,096 bytes.
    pub memory: M,
    /// What the controller keeps between calls.
    pub record: Record,
    /// The page's table of line places, if one is lent. Calls keep it true; a host that changes the page itself makes it
    /// anew, or the next call is refused with [`Stop::BadTable`](crate::Stop::BadTable).
    pub table: Option<Vec<u16>>,
}

/// A page of this length with no program: the two bytes of the end mark, then zeros. One shorter than 2 has no room for
/// the mark, and calls refuse it.
///
/// ```
/// assert_eq!(nibl::empty_page(4), [255, 255, 0, 0]);
/// ```
pub fn empty_page(len: usize) -> Vec<u8> {
    let mut page = vec![0; len];
    page.iter_mut().take(2).for_each(|byte| *byte = 255);
    page
}

impl Controller<Vec<u8>, Vec<u8>> {
    /// A new session with a page and a memory of its own: no program, zeros, a fresh record.
    pub fn owned(page_len: usize, memory_len: usize) -> Self {
        Controller::new(empty_page(page_len), vec![0; memory_len])
    }
}

impl<P, M> Controller<P, M>
where
    P: AsRef<[u8]> + AsMut<[u8]>,
    M: AsRef<[u8]> + AsMut<[u8]>,
{
    /// A new session on this page as it is, with a fresh record and no table.
    ///
    /// ```
    /// use nibl::{Call, Controller, Stop};
    ///
    /// let mut page = [255, 255, 0, 0];
    /// let mut gate = Controller::new(&mut page[..], [0; 16]);
    /// let answer = gate.take_line(b"10 END\r", &mut [], Call::at(0, 0, 0));
    /// assert_eq!(answer.stop, Stop::PageFull);
    /// ```
    pub fn new(page: P, memory: M) -> Self {
        Controller {
            page,
            memory,
            record: Record::fresh(),
            table: None,
        }
    }

    /// The same session with a table of its page as it is, which is lent from now on. No answer is another one by that,
    /// but GOTO and GOSUB find their lines sooner.
    ///
    /// ```
    /// use nibl::{Call, Controller};
    ///
    /// let mut gate = Controller::owned(4096, 0).with_table();
    /// gate.take_line(b"10 END\r", &mut [], Call::default());
    /// gate.take_line(b"20 END\r", &mut [], Call::default());
    /// let table = gate.table.expect("it was lent");
    /// assert_eq!(table[..3], [2, 0, 8]); // two lines, and where they stand
    /// ```
    pub fn with_table(mut self) -> Self {
        self.table = Some(table_of(self.page.as_ref()));
        self
    }

    /// The record, and all else that a call is lent.
    fn lend<'a>(&'a mut self, input: &'a [u8], output: &'a mut [u8]) -> (&'a mut Record, Lent<'a>) {
        let lent = Lent {
            page: self.page.as_mut(),
            memory: self.memory.as_mut(),
            input,
            output,
            table: self.table.as_deref_mut(),
        };
        (&mut self.record, lent)
    }

    /// Takes one typed line from the input, from `call.inpos` up to its CR, and does what it says: stores or deletes a
    /// program line, obeys a command, or runs a statement and the program from where that leads. It ends any pause.
    ///
    /// ```
    /// use nibl::{Call, Controller, Stop};
    ///
    /// let mut gate = Controller::owned(4096, 0);
    /// let mut output = [0; 16];
    /// let answer = gate.take_line(b"PRINT 7/2\r", &mut output, Call::at(0, 0, 0));
    /// assert_eq!(&output[..answer.outpos], b" 3 \r\n");
    /// let answer = gate.take_line(b"PRIMT 7/2\r", &mut output, Call::at(0, 0, 0));
    /// assert_eq!(answer.stop.to_string(), "5: over-long or no reading");
    /// assert_eq!(answer.column, 3); // "PRI" could become a line, "PRIM" could not
    /// ```
    pub fn take_line(&mut self, input: &[u8], output: &mut [u8], call: Call) -> Answer {
        let (record, lent) = self.lend(input, output);
        gate::take_line(record, lent, call)
    }

    /// Goes on with a run that was paused, with a new budget. The input is read by INPUT alone. With nothing paused it
    /// answers [`Stop::Done`](crate::Stop::Done) with 0 steps.
    ///
    /// ```
    /// use nibl::{Call, Controller, Stop};
    ///
    /// let mut gate = Controller::owned(4096, 0);
    /// let input = b"10 A=1:B=2\rRUN\r";
    /// let stored = gate.take_line(input, &mut [], Call::at(0, 0, 1));
    /// let paused = gate.take_line(input, &mut [], Call::at(stored.inpos, 0, 1));
    /// assert_eq!((paused.stop, paused.steps), (Stop::Paused, 1));
    /// let done = gate.continue_run(&[], &mut [], Call::at(0, 0, 1));
    /// assert_eq!((done.stop, done.steps), (Stop::Done, 1));
    /// assert_eq!(gate.record.vars[..2], [1, 2]);
    /// ```
    pub fn continue_run(&mut self, input: &[u8], output: &mut [u8], call: Call) -> Answer {
        let (record, lent) = self.lend(input, output);
        gate::continue_run(record, lent, call)
    }

    /// Saves program, variables and memory to the output, from `outpos` on, in a form that another box loads. It is whole or not
    /// there ([`Stop::OutputFull`](crate::Stop::OutputFull)), of at most [`SAVED_MOST`](crate::SAVED_MOST) bytes, and the answer's
    /// `outpos` is its end. Nothing else is changed, and a paused run stays paused.
    ///
    /// ```
    /// use nibl::{Call, Controller, Stop, SAVED_MOST};
    ///
    /// let mut old = Controller::owned(4096, 2);
    /// old.take_line(b"10 PRINT A\r", &mut [], Call::default());
    /// old.take_line(b"A=258\r", &mut [], Call::default());
    /// let mut form = [0; SAVED_MOST];
    /// let saved = old.save(&mut form, 0);
    /// assert_eq!((saved.stop, saved.outpos), (Stop::Done, 72));
    ///
    /// let mut new = Controller::owned(200, 2);
    /// assert_eq!(new.load(&form[..saved.outpos]).stop, Stop::Done);
    /// assert_eq!(new.record.vars, old.record.vars);
    /// assert_eq!(new.page[..14], old.page[..14]);
    /// ```
    pub fn save(&mut self, output: &mut [u8], outpos: usize) -> Answer {
        let (record, lent) = self.lend(&[], output);
        gate::save(record, lent, Call::at(0, outpos, 0))
    }

    /// Loads a saved form: the page has its program, whatever it held before, and its bytes behind that stay; variables and
    /// memory are the form's. The stacks are emptied, a paused run is ended, bits 0 to 2 of the flags are kept, and a table that is
    /// lent is made true. Refused, it changes nothing: no form is [`Stop::OtherForm`](crate::Stop::OtherForm), a damaged one
    /// [`Stop::BadForm`](crate::Stop::BadForm), one of another memory's length [`Stop::OtherMemory`](crate::Stop::OtherMemory),
    /// and one that the page has no room for [`Stop::PageFull`](crate::Stop::PageFull).
    ///
    /// ```
    /// use nibl::{Controller, Stop};
    ///
    /// let mut gate = Controller::owned(4096, 0);
    /// assert_eq!(gate.load(b"").stop, Stop::OtherForm);
    /// assert_eq!(gate.load(&[1]).stop, Stop::BadForm);
    /// ```
    pub fn load(&mut self, form: &[u8]) -> Answer {
        let (record, lent) = self.lend(form, &mut []);
        gate::load(record, lent, Call::default())
    }
}
