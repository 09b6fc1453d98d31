//! The milking gate's controller: a proved NIBL interpreter, linked in.
//!
//! A [`Controller`] holds a page (the program), a memory and the session [`Record`]. [`Controller::take_line`] takes one typed
//! line, [`Controller::continue_run`] goes on with a paused run: both read an input, write to an output, and run at most a
//! budget of steps. [`Controller::save`] and [`Controller::load`] carry a rule set to another box. Each call comes back with an
//! [`Answer`], whose [`Stop`] says why. No call blocks, takes from the heap or panics, whatever is lent.
//!
//! ```
//! use nibl::{Call, Controller, Stop};
//!
//! let mut gate = Controller::owned(4096, 1024);
//! let input = b"10 PRINT 6*7\rRUN\r";
//! let mut output = [0; 64];
//!
//! let stored = gate.take_line(input, &mut output, Call::at(0, 0, 100));
//! assert_eq!(stored.stop, Stop::Done);
//!
//! let ran = gate.take_line(input, &mut output, Call::at(stored.inpos, stored.outpos, 100));
//! assert_eq!((ran.stop, ran.steps), (Stop::Done, 1));
//! assert_eq!(&output[..ran.outpos], b" 42 \r\n");
//! ```
//!
//! A run whose budget is spent is paused, and goes on where it was:
//!
//! ```
//! use nibl::{Call, Controller, Stop};
//!
//! let mut gate = Controller::owned(256, 0);
//! let input = b"10 A=A+1:GOTO 10\rRUN\r";
//! let mut answer = gate.take_line(input, &mut [], Call::at(0, 0, 0));
//! answer = gate.take_line(input, &mut [], Call::at(answer.inpos, 0, 1000));
//! assert_eq!(answer.stop, Stop::Paused);
//! assert_eq!(answer.stop.to_string(), "14: paused");
//! assert!(gate.record.is_paused());
//!
//! gate.continue_run(&[], &mut [], Call::at(0, 0, 1000));
//! assert_eq!(gate.record.vars[0], 1000);
//! ```
//!
//! A table of line places may be lent too ([`Controller::with_table`]): a GOTO then finds its line without a walk along the
//! page. Nothing else is different.
//!
//! The crate needs no `std`, only `core` and `alloc`, and it builds for any target that the kit's compiler has.
//!
//! The calls themselves are proved; this crate hands what is lent across, and is not.

#![no_std]
#![deny(unsafe_code)]
#![warn(missing_docs)]

extern crate alloc;
#[cfg(test)]
extern crate std;

mod answer;
mod controller;
mod gate;
mod layout;
mod record;
mod stop;
mod stored;
mod table;

/// The examples of the page for hosts.
#[cfg(doctest)]
#[doc = include_str!("../../docs/EMBEDDING.md")]
struct Embedding;

pub use answer::{Answer, Call, LINE_MOST, LIST_MOST, NO_LINE, STACK};
pub use controller::{empty_page, Controller};
pub use gate::{continue_run, load, save, take_line, version, Lent, SAVED_MOST};
pub use record::{ForEntry, ForStack, PlaceStack, Record, MARK, NOWHERE, START};
pub use stop::Stop;
pub use stored::{RECORD_BYTES, RECORD_FORM};
pub use table::{empty_table, table_of, TABLE_LEAST};
