//! Who stood at a gate while a cow was in the box that should not have been in it yet.

use crate::barn::Outcome;
use crate::early::Seen;

/// For each visit of a week the minutes for which she stood at the gate, and of those the ones in which a cow was in the box
/// that had been let in early.
pub fn behind_early(outcomes: &[Outcome], seen: &[Seen]) -> Vec<u16> {
    let early: Vec<&Outcome> = outcomes
        .iter()
        .zip(seen)
        .filter(|(outcome, seen)| outcome.decision.admitted && seen.early.is_some())
        .map(|(outcome, _)| outcome)
        .collect();
    let stood = |outcome: &Outcome| {
        let ahead = early
            .iter()
            .filter(|ahead| ahead.visit.at == outcome.visit.at);
        ahead.map(|ahead| shared(outcome, ahead)).sum()
    };
    outcomes.iter().map(stood).collect()
}

/// The minutes of her wait in which the other one was in the box.
fn shared(waiting: &Outcome, ahead: &Outcome) -> u16 {
    let from = waiting.visit.arrived.max(ahead.visit.minute);
    let until = waiting.visit.minute.min(ahead.end());
    until.saturating_sub(from)
}
