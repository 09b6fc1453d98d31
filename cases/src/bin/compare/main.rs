//! Holds the proved library to the model: the same calls on both, and all that they leave compared.
//!
//!     compare N SEED [exact]      N random cases, most with calls that go on from what the case left
//!     compare written [exact]     lists of values, numbers, words, lines, damaged lines, pages, records, programs,
//!                             tables and saved forms, each entry through calls
//!
//! It prints how often each stop came up, and how many calls were skipped or rewritten because the library's record cannot
//! say the case's pause (`Trial`), and exits 0 only if nothing differs and nothing was skipped, and if, from 1,000
//! cases on, every stop came up in each call that can give it. A call that differs is printed as a case, for the two case
//! drivers to take apart. What is lent stands between guard bytes, or, with `exact`, in blocks of just its length, for a
//! memory checker.

#![forbid(unsafe_code)]

mod chains;
mod tally;
mod trial;
mod written;

use std::process::ExitCode;

use cases::Lending;
use model::random::edits::sequences;
use model::random::Random;
use model::Answer;

use tally::Tally;
use trial::{Outcome, Trial};

/// No more differences are printed than these.
const SHOWN: usize = 10;

/// Makes both calls of a trial and counts what came of them.
fn hold(tally: &mut Tally, trial: &mut Trial, lending: Lending) -> Option<Answer> {
    let before = trial.case.clone();
    tally.calls += 1;
    tally.rewritten += usize::from(trial.rewritten);
    match trial.hold(lending) {
        Outcome::Same(answer) => {
            tally.count(before.call, &answer);
            return Some(answer);
        }
        Outcome::Skipped => tally.skipped += 1,
        Outcome::Differs(what) => {
            tally.differ += 1;
            if tally.differ <= SHOWN {
                println!("DIFFERS in {what}\n{:?}\n{}", trial.numbers, before.write());
            }
        }
    }
    None
}

fn random(tally: &mut Tally, number: usize, seed: u64, lending: Lending) {
    for at in 0..number as u64 {
        // Far apart for neighbouring seeds: a case has its own numbers.
        let mut random = Random::new((seed << 32) + at);
        tally.cases += 1;
        chains::chain(&mut random, &mut |trial| hold(tally, trial, lending));
        tally.progress(number);
    }
}

fn listed(tally: &mut Tally, lending: Lending) {
    let mut random = Random::new(1976);
    for sequence in sequences(&mut random) {
        tally.cases += 1;
        chains::edits(&mut random, sequence, &mut |trial| {
            hold(tally, trial, lending)
        });
    }
    written::each(&mut |case, rounds| {
        tally.cases += 1;
        let mut trial = Trial::new(case);
        for _ in 0..=rounds {
            let answer = hold(tally, &mut trial, lending);
            let paused = trial.case.record.paused.is_some();
            match answer {
                Some(answer) if paused => {
                    trial = Trial::new(written::continued(trial.case, &answer))
                }
                _ => return,
            }
        }
    });
}

fn main() -> ExitCode {
    let arguments: Vec<String> = std::env::args().skip(1).collect();
    let (plain, lending) = match arguments.split_last() {
        Some((last, plain)) if last == "exact" => (plain, Lending::Exact),
        _ => (&arguments[..], Lending::Guarded),
    };
    let mut tally = Tally::new();
    match plain {
        [list] if list == "written" => listed(&mut tally, lending),
        [number, seed] => match (number.parse(), seed.parse()) {
            (Ok(number), Ok(seed)) => random(&mut tally, number, seed, lending),
            _ => return usage(),
        },
        _ => return usage(),
    }
    match tally.finish() {
        true => ExitCode::SUCCESS,
        false => ExitCode::FAILURE,
    }
}

fn usage() -> ExitCode {
    eprintln!("usage: compare N SEED [exact] | compare written [exact]");
    ExitCode::from(2)
}
