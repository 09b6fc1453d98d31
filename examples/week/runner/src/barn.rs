//! The week: visit after visit at a gate, with the milkings booked.

use crate::gate::{Decision, Gate, Question, TAKEN, WASHING};
use crate::progress::Progress;
use crate::tables::{Cow, Visit, Wash};
use crate::times::DAY;

/// Minutes that every milking takes beside those in which milk flows.
const ATTACHING: u32 = 2;

/// Milk is counted in parts of a litre of which a litre has as many as a day has minutes: it is exact then.
pub const LITRE: u32 = DAY as u32;

/// A visit with all that came of it.
#[derive(Clone, Debug)]
pub struct Outcome {
    pub visit: Visit,
    pub question: Question,
    pub decision: Decision,
    /// Minutes that she was in the box: 0 if she stayed out.
    pub took: u16,
    /// What she brought, in parts of a litre.
    pub milk: u32,
    /// Minutes since she left the box after her last milking.
    pub since_end: i32,
}

impl Outcome {
    /// The minute at which the box is free again.
    pub fn end(&self) -> u16 {
        self.visit.minute + self.took
    }
}

/// What lies around the gates.
#[derive(Clone, Copy)]
pub struct Farm<'a> {
    pub herd: &'a [Cow],
    pub washes: &'a [Wash],
    pub boxes: u8,
    /// From this minute on the rule book is the changed one.
    pub changed: u16,
}

/// When the cows were last milked, and until when the boxes are taken.
struct Barn<'a> {
    farm: Farm<'a>,
    starts: Vec<i32>,
    ends: Vec<i32>,
    free: Vec<u16>,
}

/// Decides all visits at this gate; the change is made to it before the first visit from then on.
pub fn run_week(
    farm: Farm,
    visits: &[Visit],
    mut gate: Gate,
    change: impl FnOnce(&mut Gate) -> Result<(), String>,
    progress: &mut Progress,
) -> Result<Vec<Outcome>, String> {
    let mut barn = Barn {
        farm,
        starts: farm.herd.iter().map(|cow| cow.last_start).collect(),
        ends: farm.herd.iter().map(|cow| cow.last_end).collect(),
        free: vec![0; farm.boxes.into()],
    };
    let (before, after) =
        visits.split_at(visits.partition_point(|visit| visit.minute < farm.changed));
    let mut outcomes = Vec::with_capacity(visits.len());
    for visit in before {
        outcomes.push(barn.receive(&mut gate, *visit)?);
        progress.step();
    }
    change(&mut gate)?;
    for visit in after {
        outcomes.push(barn.receive(&mut gate, *visit)?);
        progress.step();
    }
    Ok(outcomes)
}

impl Barn<'_> {
    /// Has the gate decide, and books the milking if she comes in.
    fn receive(&mut self, gate: &mut Gate, visit: Visit) -> Result<Outcome, String> {
        let cow = &self.farm.herd[visit.cow];
        let question = self.question(&visit);
        let decision = gate.ask(&question).map_err(|error| {
            let (minute, number) = (visit.minute, cow.number);
            format!("minute {minute}, box {}, cow {number}: {error}", visit.at)
        })?;
        let since_end = i32::from(visit.minute) - self.ends[visit.cow];
        let (mut took, mut milk) = (0, 0);
        if decision.admitted {
            milk = u32::from(cow.litres) * since_end.clamp(0, DAY.into()) as u32;
            took = visit
                .left
                .map_or_else(|| stay(cow, milk), |left| left - visit.minute);
            let end = visit.minute + took;
            let free = &mut self.free[usize::from(visit.at) - 1];
            *free = end.max(*free);
            self.starts[visit.cow] = visit.minute.into();
            self.ends[visit.cow] = end.into();
        }
        Ok(Outcome {
            visit,
            question,
            decision,
            took,
            milk,
            since_end,
        })
    }

    fn question(&self, visit: &Visit) -> Question {
        let cow = &self.farm.herd[visit.cow];
        let mut sense = 0;
        if visit.minute < self.free[usize::from(visit.at) - 1] {
            sense |= TAKEN;
        }
        if self
            .farm
            .washes
            .iter()
            .any(|wash| wash.is_on(visit.at, visit.minute))
        {
            sense |= WASHING;
        }
        Question {
            cow: cow.number,
            minute: visit.minute,
            at: visit.at,
            home: cow.home,
            litres: cow.litres,
            flow: cow.flow,
            days: cow.days.min(255) as u8,
            blocked_until: cow.blocked_until,
            last_end: self.ends[visit.cow],
            last_start: self.starts[visit.cow],
            sense,
        }
    }
}

/// Minutes in the box: her milk at her flow, rounded up, and what a milking and she herself take beside that.
fn stay(cow: &Cow, milk: u32) -> u16 {
    let flowing = milk.div_ceil(LITRE / 10 * u32::from(cow.flow));
    (ATTACHING + flowing) as u16 + cow.lingers
}
