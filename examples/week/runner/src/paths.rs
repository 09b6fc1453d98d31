//! The lines that visits go through, each way once.

use std::collections::HashMap;

use crate::barn::Outcome;
use crate::gate::Gate;

#[derive(Default)]
pub struct Paths {
    pub list: Vec<Vec<u16>>,
    places: HashMap<Vec<u16>, usize>,
}

impl Paths {
    /// For each visit the number of its way, gone again step by step: before the change at one gate, then at the other.
    pub fn of(
        &mut self,
        outcomes: &[Outcome],
        changed: u16,
        [before, after]: [&mut Gate; 2],
    ) -> Result<Vec<usize>, String> {
        let mut of_visits = Vec::with_capacity(outcomes.len());
        for outcome in outcomes {
            let way = match outcome.visit.minute < changed {
                true => before.trace(&outcome.question)?,
                false => after.trace(&outcome.question)?,
            };
            of_visits.push(self.place(way));
        }
        Ok(of_visits)
    }

    fn place(&mut self, way: Vec<u16>) -> usize {
        let list = &mut self.list;
        *self.places.entry(way).or_insert_with_key(|way| {
            list.push(way.clone());
            list.len() - 1
        })
    }
}
