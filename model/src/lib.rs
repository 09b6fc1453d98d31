//! A plain model of the milking gate's NIBL interpreter.
//!
//! It is written from the documents alone: words, a recursive reader that
//! makes a tree, and a walker over that tree. It exists to be held against the
//! proved library, so nothing in it is shared with that library or its
//! definitions.
//!
//! Reading order: [`value`], [`stop`], [`typing`], [`words`], [`tree`],
//! [`reader`], [`line`], [`column`], [`page`], [`table`], [`record`],
//! [`machine`], [`statements`], [`calls`], [`saved`]. [`session`], [`case`] and [`json`]
//! serve the programs in `src/bin`, [`random`] makes sessions, cases and lines
//! for comparisons, and [`rules`] pages to measure on.

#![forbid(unsafe_code)]

pub mod calls;
pub mod case;
pub mod column;
pub mod json;
pub mod line;
pub mod machine;
pub mod page;
pub mod random;
pub mod reader;
pub mod record;
pub mod rules;
pub mod saved;
pub mod session;
pub mod statements;
pub mod stop;
pub mod table;
pub mod tree;
pub mod typing;
pub mod value;
pub mod words;

pub use calls::{continue_run, take_line, Answer, Lent};
pub use record::{ForEntry, ForStack, Pause, Place, PlaceStack, Record};
pub use saved::{load, save};
pub use stop::Stop;
