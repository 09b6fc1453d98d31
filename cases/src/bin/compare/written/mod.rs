//! Lists of what the rules treat apart, each entry tried through the calls.

mod numbers;
mod pages;
mod programs;
mod texts;
mod values;

use model::case::{Call, Case};
use model::random::pages::{render, Lines};
use model::random::{damage, forms, tables};
use model::Answer;

/// Takes a case, and how often its run is continued where it is paused.
pub type Visit<'a> = dyn FnMut(Case, usize) + 'a;

pub fn each(visit: &mut Visit) {
    values::each(visit);
    numbers::each(visit);
    texts::each(visit);
    pages::each(visit);
    programs::each(visit);
    damaged(visit);
    let lists = tables::written().into_iter().chain(forms::written());
    lists.for_each(|case| visit(case, 0));
}

/// The table of damaged lines of every statement: for their columns.
fn damaged(visit: &mut Visit) {
    for damaged in damage::table() {
        visit(damage::typed(&damaged.line), 0);
    }
}

/// A line typed on a page with these lines, much lent of everything.
fn typed(lines: &Lines, input: &[u8]) -> Case {
    Case {
        memory: vec![13; 64],
        output: vec![0; 200],
        budget: 100,
        sense: 0x5a,
        ..Case::typed(render(lines), input)
    }
}

/// The case that goes on where this one is paused.
pub fn continued(mut case: Case, answer: &Answer) -> Case {
    case.call = Call::Continue;
    case.input_position = answer.input_position;
    case.output_position = answer.output_position;
    case
}
