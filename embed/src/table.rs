//! The table of line places, as a host makes it.

use alloc::vec::Vec;

/// The least length of a table that is lent: the number of lines, and a position for every four bytes of the longest page.
pub const TABLE_LEAST: usize = 1025;

const PAGE_MOST: usize = 4096;
const END_MARK: [u8; 2] = [255, 255];
/// The line number, the length byte and the CR: no record is shorter. One with no text is none either, but its page is refused before its table.
const RECORD_LEAST: usize = 4;

/// The table of a page with no program: zeros.
///
/// ```
/// assert_eq!(nibl::empty_table().to_vec(), nibl::table_of(&nibl::empty_page(4096)));
/// ```
pub const fn empty_table() -> [u16; TABLE_LEAST] {
    [0; TABLE_LEAST]
}

/// A table of this page as it is, for a page that was restored: the number of its lines, where each one's record begins,
/// and zeros. Any bytes may be asked about. The walk along the records ends where none stands, and where pages end.
///
/// ```
/// let table = nibl::table_of(b"\x00\x0a\x08 END\r\x00\x14\x08 END\r\xff\xff");
/// assert_eq!(table[..4], [2, 0, 8, 0]);
/// assert_eq!(table.len(), nibl::TABLE_LEAST);
/// ```
pub fn table_of(page: &[u8]) -> Vec<u16> {
    let page = page.get(..PAGE_MOST).unwrap_or(page);
    let mut table = empty_table().to_vec();
    let (mut count, mut at) = (0, 0);
    while let Some(size) = record_at(page, at) {
        count += 1;
        table[count] = at as u16; // a page has no more bytes than that, and no more records than slots
        at += size;
    }
    table[0] = count as u16;
    table
}

/// How many bytes the record here has, if one stands here.
fn record_at(page: &[u8], at: usize) -> Option<usize> {
    let [high, low, size, ..] = page[at..] else {
        return None;
    };
    let (size, room) = (usize::from(size), page.len() - at);
    let stands = [high, low] != END_MARK && (RECORD_LEAST..=room).contains(&size);
    stands.then_some(size)
}

#[cfg(test)]
mod tests {
    use alloc::vec;

    use super::*;

    /// The part of a table that is looked at.
    fn walked(page: &[u8]) -> Vec<u16> {
        let table = table_of(page);
        table[..=usize::from(table[0])].to_vec()
    }

    #[test]
    fn what_is_no_good_page_ends_where_it_stops_being_one() {
        let page = b"\x00\x0a\x08 END\r\x00\x14\x08 END\r\xff\xff";
        assert_eq!(walked(page), [2, 0, 8]);
        let mut bad = *page;
        for (size, wanted) in [(0, 1), (3, 1), (4, 2), (10, 2), (11, 1), (255, 1)] {
            bad[10] = size;
            assert_eq!(walked(&bad)[0], wanted, "{size}");
        }
        for cut in 0..page.len() {
            assert_eq!(walked(&page[..cut])[0], cut as u16 / 8, "{cut}");
        }
    }

    #[test]
    fn any_bytes_have_a_table() {
        for byte in 0..=255 {
            for len in [0, 1, 2, 3, 4, PAGE_MOST, PAGE_MOST + 1, 70_000] {
                let wanted = match byte {
                    4..=254 => len.min(PAGE_MOST) / usize::from(byte),
                    _ => 0,
                };
                let table = walked(&vec![byte; len]);
                assert_eq!(table.len(), wanted + 1, "{byte} {len}");
                assert!(table[1..].windows(2).all(|pair| pair[0] < pair[1]));
            }
        }
    }
}
