//! What a book does that no book should.

use crate::barn::Outcome;
use crate::gate::{TAKEN, WASHING};
use crate::times::clock;

/// The gate was opened although the sense byte said that the box is taken, or is being washed.
pub fn remarks(book: &str, outcomes: &[Outcome]) -> Vec<String> {
    let found = |bit: u8, what: &str| {
        let opened =
            |outcome: &&Outcome| outcome.decision.admitted && outcome.question.sense & bit != 0;
        let mut all = outcomes.iter().filter(opened);
        let first = all.next()?;
        let (time, at) = (clock(first.visit.minute), first.visit.at);
        let (cow, line) = (first.question.cow, first.decision.line);
        let times = 1 + all.count();
        Some(format!(
            "REMARK: {book} opens the gate {what}, {times} times; first on {time}, box {at}, for cow {cow}, by line {line}"
        ))
    };
    let on_a_cow = found(TAKEN, "on a cow in the box");
    let in_a_wash = found(WASHING, "while the box is washed");
    on_a_cow.into_iter().chain(in_a_wash).collect()
}
