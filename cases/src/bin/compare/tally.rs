//! What the calls answered, counted.

use std::time::{Duration, Instant};

use model::case::Call;
use model::{Answer, Stop};

/// From so many cases on, each stop must have come up in each call that can give it.
const ENOUGH: usize = 1000;

/// The stops' numbers are less than this.
const NUMBERS: usize = Stop::BadTable as usize + 1;

/// How often it is said on standard error how far it is.
const EVERY: Duration = Duration::from_secs(2);

pub struct Tally {
    began: Instant,
    said: Instant,
    pub cases: usize,
    pub calls: usize,
    pub skipped: usize,
    /// Calls with another pause than the case's, which the library's record cannot say.
    pub rewritten: usize,
    pub differ: usize,
    /// By stop number, for each call.
    stops: [[usize; Call::ALL.len()]; NUMBERS],
}

/// A continued run reads no typed line and edits nothing; saves and loads have refusals of their own.
fn can_give(call: Call, stop: Stop) -> bool {
    use Stop::*;
    let of_loads = [OtherForm, BadForm, OtherMemory];
    match call {
        Call::Line => !of_loads.contains(&stop),
        Call::Continue => {
            ![PageFull, NotImmediate, NoReading].contains(&stop) && !of_loads.contains(&stop)
        }
        Call::Save => [Done, OutOfRange, BadPage, BadRecord, OutputFull].contains(&stop),
        Call::Load => [Done, OutOfRange, PageFull].contains(&stop) || of_loads.contains(&stop),
    }
}

impl Tally {
    pub fn new() -> Tally {
        let now = Instant::now();
        Tally {
            began: now,
            said: now,
            cases: 0,
            calls: 0,
            skipped: 0,
            rewritten: 0,
            differ: 0,
            stops: [[0; Call::ALL.len()]; NUMBERS],
        }
    }

    pub fn count(&mut self, call: Call, answer: &Answer) {
        self.stops[usize::from(answer.stop.number())][call as usize] += 1;
    }

    fn a_second(&self) -> f64 {
        self.cases as f64 / self.began.elapsed().as_secs_f64()
    }

    /// Says now and then how far it is.
    pub fn progress(&mut self, of: usize) {
        if self.said.elapsed() >= EVERY {
            self.said = Instant::now();
            let (cases, differ, rate) = (self.cases, self.differ, self.a_second());
            eprintln!("compare: {cases} of {of} cases, {rate:.0} a second, {differ} differ");
        }
    }

    /// Prints the counts, and hands back whether all is well.
    pub fn finish(&self) -> bool {
        let mut missing = 0;
        println!("stop  typed lines  continued runs    saves    loads");
        for stop in Stop::ALL {
            let counts = self.stops[usize::from(stop.number())];
            let [lines, runs, saves, loads] = counts;
            println!(
                "{:4}  {lines:11}  {runs:14}  {saves:7}  {loads:7}",
                stop.number()
            );
            for (call, count) in Call::ALL.into_iter().zip(counts) {
                missing += usize::from(count == 0 && can_give(call, stop));
            }
        }
        let (seconds, rate) = (self.began.elapsed().as_secs_f64(), self.a_second());
        println!(
            "{} cases, {} calls in {seconds:.1} s, {rate:.0} cases a second: {} differ, {} skipped, {} rewritten",
            self.cases, self.calls, self.differ, self.skipped, self.rewritten
        );
        let covered = missing == 0 || self.cases < ENOUGH;
        if !covered {
            println!("{missing} stops of a call did not come up");
        }
        covered && self.differ == 0 && self.skipped == 0 && self.calls > 0
    }
}
