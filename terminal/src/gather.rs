//! How a typed line is kept: what typing drops and takes back, and where each kept byte stood in what was typed.

use nibl::LINE_MOST;

const NUL: u8 = 0;
const LF: u8 = 10;
const DISCARD: u8 = 21;
const ERASE: u8 = b'_';

/// A line as the controller keeps it.
#[derive(Debug, Default, PartialEq, Eq)]
pub struct Kept {
    pub bytes: Vec<u8>,
    /// Where in what was typed a byte first took others back.
    pub erased: Option<usize>,
    /// So many bytes more than a line holds were kept at once, and no Ctrl-U came after that.
    pub over: usize,
    /// Where each kept byte was typed.
    from: Vec<usize>,
    typed: usize,
}

impl Kept {
    pub fn of(typed: &[u8]) -> Kept {
        let mut kept = Kept {
            typed: typed.len(),
            ..Kept::default()
        };
        for (at, byte) in typed.iter().enumerate() {
            kept.take(at, *byte);
        }
        kept
    }

    fn take(&mut self, at: usize, byte: u8) {
        let count = self.bytes.len();
        match byte {
            NUL | LF => return,
            ERASE => self.drop_from(at, count.saturating_sub(1)),
            DISCARD => {
                self.drop_from(at, 0);
                self.over = 0;
            }
            _ => {
                self.bytes.push(byte);
                self.from.push(at);
            }
        }
        let most = usize::from(LINE_MOST);
        self.over = self.over.max(self.bytes.len().saturating_sub(most));
    }

    /// Takes back what was kept from a number of bytes on.
    fn drop_from(&mut self, at: usize, count: usize) {
        if self.bytes.len() > count {
            self.erased = self.erased.or(Some(at));
        }
        self.bytes.truncate(count);
        self.from.truncate(count);
    }

    /// Where a kept byte was typed; behind the last one, where the typed bytes end.
    pub fn typed_at(&self, index: usize) -> usize {
        self.from.get(index).copied().unwrap_or(self.typed)
    }
}

#[cfg(test)]
mod tests {
    use super::*;

    fn kept(typed: &str) -> (String, Option<usize>, usize) {
        let kept = Kept::of(typed.as_bytes());
        let bytes = String::from_utf8(kept.bytes).expect("text");
        (bytes, kept.erased, kept.over)
    }

    #[test]
    fn bytes_are_dropped_and_taken_back_as_typing_does() {
        assert_eq!(kept("RUN"), ("RUN".to_string(), None, 0));
        assert_eq!(kept("R\0U\nN"), ("RUN".to_string(), None, 0));
        assert_eq!(kept("PRIM_NT"), ("PRINT".to_string(), Some(4), 0));
        assert_eq!(kept("_RUN"), ("RUN".to_string(), None, 0)); // there was nothing to take back
        assert_eq!(kept("10\x15RUN"), ("RUN".to_string(), Some(2), 0));
    }

    #[test]
    fn only_a_discard_makes_an_over_long_line_good() {
        let long = "A".repeat(75);
        assert_eq!(kept(&long).2, 3);
        assert_eq!(kept(&format!("{long}____")).2, 3);
        assert_eq!(kept(&format!("{long}\x15A")).2, 0);
    }

    #[test]
    fn a_kept_byte_knows_where_it_was_typed() {
        let kept = Kept::of(b"PRI\0M_NT");
        assert_eq!([2, 3, 4, 5].map(|index| kept.typed_at(index)), [2, 6, 7, 8]);
    }
}
