//! A place at a terminal where a dealer can work: typed lines, edited with a history, and the controller's replies in words; and a check
//! of rule books in files.
//!
//! Reading order: [`keys`], [`history`], [`row`], [`editor`], [`commands`], [`words`], [`page`] and [`files`] know no terminal; [`desk`] makes
//! the calls, and [`show`] draws what it holds; [`raw`], [`window`], [`keyboard`] and [`screen`] are the terminal; [`seat`], [`books`] and [`session`]
//! put them together. [`check`] looks through a book: [`gather`] and [`reading`] say what its lines are, [`flow`] and [`bits`] what can come
//! of them, [`warnings`] and [`why`] are its words. [`forms`] carries a rule set to another box.

pub mod bits;
pub mod books;
pub mod check;
pub mod commands;
pub mod desk;
pub mod editor;
pub mod files;
pub mod flow;
pub mod forms;
pub mod gather;
pub mod history;
pub mod keyboard;
pub mod keys;
pub mod lexis;
pub mod page;
pub mod raw;
pub mod reading;
pub mod row;
pub mod screen;
pub mod seat;
pub mod session;
pub mod show;
#[cfg(test)]
mod spoilt;
pub mod target;
pub mod warnings;
pub mod why;
pub mod window;
pub mod words;
