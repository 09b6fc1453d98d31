//! Every operator on pairs of values where something changes, and how a value is printed.

use super::{typed, Visit};
use model::random::pages::Lines;

#[rustfmt::skip]
const OPERANDS: [u16; 48] = [
    0, 1, 2, 3, 7, 9, 10, 11, 99, 100, 127, 128, 181, 182, 255, 256, 257, 300, 512, 999, 1000,
    3277, 4660, 5000, 8191, 9999, 10000, 12345, 16384, 20000, 21845, 30000, 32766, 32767, 32768,
    32769, 43690, 49152, 55536, 60000, 62259, 64536, 65236, 65280, 65526, 65529, 65534, 65535,
];

/// The values of A and B come with the record, so that nothing is worked out before.
const RELATIONS: [&str; 16] = [
    "A*B", "A/B", "A AND B", "A+B", "A-B", "A OR B", "A=B", "A<B", "A>B", "A<=B", "A>=B", "A<>B",
    "MOD(A,B)", "-A", "NOT A", "A",
];

pub fn each(visit: &mut Visit) {
    for a in OPERANDS {
        for b in OPERANDS {
            for relation in RELATIONS {
                let mut case = typed(&Lines::new(), format!("PRINT {relation}\r").as_bytes());
                case.record.variables[0] = a as i16;
                case.record.variables[1] = b as i16;
                visit(case, 0);
            }
        }
    }
}
