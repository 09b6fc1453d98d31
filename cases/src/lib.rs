//! The proved library, called as the model is: with the model's cases, whose form and JSON it shares.

#![forbid(unsafe_code)]

pub mod convert;
mod guard;

use model::case::{Call, Case, Reading, Unread};

pub use convert::{model_answer, model_record, nearest, numbers};
pub use guard::{made_by_library, Left, Lending};

/// The library's call of this kind.
fn entry(call: Call) -> fn(&mut nibl::Record, nibl::Lent, nibl::Call) -> nibl::Answer {
    match call {
        Call::Line => nibl::take_line,
        Call::Continue => nibl::continue_run,
        Call::Save => nibl::save,
        Call::Load => nibl::load,
    }
}

/// Makes the call of a case by the proved library. Afterwards the case holds what the call left. A record that the
/// library's cannot say is skipped.
pub fn run(case: &mut Case) -> Reading<model::Answer> {
    let mut record = convert::record(&case.record).ok_or(Unread::Skip)?;
    let numbers = numbers(case);
    let lent = nibl::Lent {
        page: &mut case.page,
        memory: &mut case.memory,
        input: match case.call {
            Call::Load => &case.saved,
            _ => &case.input,
        },
        output: &mut case.output,
        table: case.table.as_deref_mut(),
    };
    let answer = entry(case.call)(&mut record, lent, numbers);
    case.record = model_record(&record);
    Ok(model_answer(&answer))
}
