//! Pages at the edges of the rules and pages made in each way, with records that fit and records that do not; and every
//! position of them as a place.

use super::{typed, Visit};
use crate::chains::{near, program_of_two};
use model::case::{Call, Case};
use model::random::faults::{edges, FAULTY, SOUND};
use model::random::pages::Lines;
use model::random::Random;
use model::{Pause, Place, Record};

fn pages(random: &mut Random) -> Vec<Vec<u8>> {
    let mut pages = edges();
    for way in SOUND.repeat(22).into_iter().chain(FAULTY.repeat(12)) {
        let lines = program_of_two(random);
        pages.push(way(random, lines));
    }
    pages
}

/// A blank line, or a run that goes on, on this page with this record.
fn case(call: Call, page: &[u8], record: Record) -> Case {
    Case {
        call,
        page: page.to_vec(),
        record,
        ..typed(&Lines::new(), b"\r")
    }
}

pub fn each(visit: &mut Visit) {
    let mut random = Random::new(1976);
    for page in pages(&mut random) {
        for call in [Call::Line, Call::Continue] {
            for _ in 0..20 {
                visit(case(call, &page, near(&mut random, &page)), 2);
            }
        }
        places(&page, visit);
    }
}

/// Each position of a page, and the next ones, as the place of a pause. No step runs: the call says if it is one.
fn places(page: &[u8], visit: &mut Visit) {
    for at in 0..page.len() + 3 {
        let record = Record {
            paused: Some(Pause::After(Place(at as u16))),
            ..Record::default()
        };
        let mut case = case(Call::Continue, page, record);
        case.budget = 0;
        visit(case, 0);
    }
}
