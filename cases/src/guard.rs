//! Lending what a call needs such that a byte touched outside it shows.

use model::case::Case;
use nibl::Record;

/// How bytes are lent.
#[derive(Clone, Copy, Debug, PartialEq, Eq)]
pub enum Lending {
    /// From the middle of a larger block, with guard bytes on both sides that must stay.
    Guarded,
    /// Each in a block of the heap of just its length, so that a memory checker sees what is beside it.
    Exact,
}

const GUARD: usize = 64;
const FILL: u8 = 0xa5;

/// Bytes, or a table's numbers, that are lent.
struct Lent<T> {
    block: Box<[T]>,
    guard: usize,
}

impl<T: Copy + From<u8> + PartialEq> Lent<T> {
    fn new(values: &[T], lending: Lending) -> Lent<T> {
        let guard = match lending {
            Lending::Guarded => GUARD,
            Lending::Exact => 0,
        };
        let mut block = vec![FILL.into(); values.len() + 2 * guard].into_boxed_slice();
        block[guard..guard + values.len()].copy_from_slice(values);
        Lent { block, guard }
    }

    fn values(&mut self) -> &mut [T] {
        let end = self.block.len() - self.guard;
        &mut self.block[self.guard..end]
    }

    fn is_whole(&self) -> bool {
        let end = self.block.len() - self.guard;
        let mut guards = self.block[..self.guard].iter().chain(&self.block[end..]);
        guards.all(|&value| value == FILL.into())
    }
}

/// A record that is lent: between guard bytes, or alone.
enum LentRecord {
    Guarded(Box<Fenced>),
    Exact(Box<Record>),
}

#[repr(C)]
struct Fenced {
    before: [u8; GUARD],
    record: Record,
    after: [u8; GUARD],
}

impl LentRecord {
    fn new(record: Record, lending: Lending) -> LentRecord {
        match lending {
            Lending::Guarded => LentRecord::Guarded(Box::new(Fenced {
                before: [FILL; GUARD],
                record,
                after: [FILL; GUARD],
            })),
            Lending::Exact => LentRecord::Exact(Box::new(record)),
        }
    }

    fn record(&mut self) -> &mut Record {
        match self {
            LentRecord::Guarded(fenced) => &mut fenced.record,
            LentRecord::Exact(record) => record,
        }
    }

    fn is_whole(&self) -> bool {
        match self {
            LentRecord::Guarded(fenced) => [fenced.before, fenced.after] == [[FILL; GUARD]; 2],
            LentRecord::Exact(_) => true,
        }
    }
}

/// What the library's call left of a case.
#[derive(Debug, PartialEq, Eq)]
pub struct Left {
    pub answer: nibl::Answer,
    pub record: Record,
    pub page: Vec<u8>,
    pub memory: Vec<u8>,
    pub output: Vec<u8>,
    pub table: Option<Vec<u16>>,
}

/// Makes a call by the library on copies of what the case lends, or says what was touched that was not to be.
pub fn made_by_library(
    case: &Case,
    record: Record,
    numbers: nibl::Call,
    lending: Lending,
) -> Result<Left, &'static str> {
    let lend = |bytes: &[u8]| Lent::new(bytes, lending);
    let (mut page, mut memory) = (lend(&case.page), lend(&case.memory));
    let (mut input, mut output) = (lend(case.slice()), lend(&case.output));
    let mut table = case.table.as_ref().map(|table| Lent::new(table, lending));
    let mut record = LentRecord::new(record, lending);
    let lent = nibl::Lent {
        page: page.values(),
        memory: memory.values(),
        input: input.values(),
        output: output.values(),
        table: table.as_mut().map(Lent::values),
    };
    let answer = crate::entry(case.call)(record.record(), lent, numbers);
    let kept = [
        ("bytes beside the record", record.is_whole()),
        ("bytes beside the page", page.is_whole()),
        ("bytes beside the memory", memory.is_whole()),
        ("bytes beside the input", input.is_whole()),
        ("bytes beside the output", output.is_whole()),
        (
            "numbers beside the table",
            table.as_ref().is_none_or(Lent::is_whole),
        ),
        ("the input", *input.values() == *case.slice()),
    ];
    match kept.into_iter().find(|(_, kept)| !kept) {
        Some((touched, _)) => Err(touched),
        None => Ok(Left {
            answer,
            record: *record.record(),
            page: page.values().to_vec(),
            memory: memory.values().to_vec(),
            output: output.values().to_vec(),
            table: table.map(|mut table| table.values().to_vec()),
        }),
    }
}

#[cfg(test)]
mod tests {
    use super::*;

    #[test]
    fn a_byte_touched_on_either_side_shows() {
        for at in [0, GUARD - 1, GUARD + 3, 2 * GUARD + 2] {
            let mut lent = Lent::new(b"COW", Lending::Guarded);
            assert!(lent.is_whole() && lent.values() == b"COW");
            lent.block[at] = 0;
            assert!(!lent.is_whole(), "{at}");
        }
    }

    #[test]
    fn a_number_touched_beside_a_table_shows() {
        let mut lent = Lent::new(&[2, 0, 65_535], Lending::Guarded);
        assert!(lent.is_whole() && lent.values() == [2, 0, 65_535]);
        lent.block[GUARD + 3] = 0;
        assert!(!lent.is_whole());
    }

    #[test]
    fn a_byte_touched_beside_the_record_shows() {
        let touch: [fn(&mut Fenced); 2] = [
            |fenced| fenced.before[GUARD - 1] = 0,
            |fenced| fenced.after[0] = 0,
        ];
        for touch in touch {
            let mut lent = LentRecord::new(Record::fresh(), Lending::Guarded);
            assert!(lent.is_whole());
            if let LentRecord::Guarded(fenced) = &mut lent {
                touch(fenced);
            }
            assert!(!lent.is_whole());
        }
    }

    #[test]
    fn an_exact_loan_has_nothing_beside_it() {
        assert_eq!(*Lent::new(b"COW", Lending::Exact).block, *b"COW");
    }
}
