//! The table of line places that may be lent beside a page: the line count, then
//! each record's position, in order, and behind them whatever else it holds.

use crate::page::records;

/// A table of fewer numbers, the count among them, is out of range. A page has
/// far fewer lines.
pub const TABLE_LEAST: usize = 1025;

/// What a fresh walk of a good page gives.
pub fn walk(page: &[u8]) -> Vec<u16> {
    let mut table = vec![0];
    table.extend(records(page).map(|(start, _)| start as u16));
    table[0] = table.len() as u16 - 1;
    table
}

/// Does a table describe this good page? What it holds past the last line is
/// not looked at.
pub fn describes(table: &[u16], page: &[u8]) -> bool {
    table.starts_with(&walk(page))
}

/// Makes it describe the page. What it holds past the last line stays.
pub fn refill(table: &mut [u16], page: &[u8]) {
    let walk = walk(page);
    table[..walk.len()].copy_from_slice(&walk);
}
