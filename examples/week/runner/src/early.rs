//! What the other book says to the same visits, and the cows that the second book lets in too early.

use crate::barn::Outcome;
use crate::gate::{Decision, Gate, Question};
use crate::times::DAY;

/// The two books as they are from the change on: the one that counts, and a second one that is held to it.
pub struct Books {
    pub first: Gate,
    pub second: Gate,
}

/// Which of them decided a week.
#[derive(Clone, Copy)]
pub enum By {
    First,
    Second,
}

/// A visit as the other book sees it, with the bytes and the sense that were lent then. Before the change the books are one.
#[derive(Clone, Debug, Default)]
pub struct Seen {
    pub other: Option<Decision>,
    /// Where the second book lets her in and the first does not: how long the first would have made her wait.
    pub early: Option<Wait>,
}

/// How long a book makes a cow wait.
#[derive(Clone, Copy, Debug, PartialEq, Eq, PartialOrd, Ord)]
pub enum Wait {
    Minutes(u16),
    /// It does not let her in within a day.
    Longer,
}

impl std::fmt::Display for Wait {
    fn fmt(&self, out: &mut std::fmt::Formatter) -> std::fmt::Result {
        match self {
            Wait::Minutes(minutes) => write!(out, "{minutes}"),
            Wait::Longer => write!(out, "over {DAY}"),
        }
    }
}

/// Has the other book decide every visit of a week again.
pub fn seen(
    outcomes: &[Outcome],
    changed: u16,
    books: &mut Books,
    by: By,
) -> Result<Vec<Seen>, String> {
    let one = |outcome: &Outcome| match outcome.visit.minute < changed {
        true => Ok(Seen::default()),
        false => books.see(outcome, by),
    };
    outcomes.iter().map(one).collect()
}

impl Books {
    fn see(&mut self, outcome: &Outcome, by: By) -> Result<Seen, String> {
        let other = match by {
            By::First => self.second.ask(&outcome.question)?,
            By::Second => self.first.ask(&outcome.question)?,
        };
        let (first, second) = match by {
            By::First => (&outcome.decision, &other),
            By::Second => (&other, &outcome.decision),
        };
        let early = match second.admitted && !first.admitted {
            true => Some(wait(&mut self.first, outcome.question)?),
            false => None,
        };
        Ok(Seen {
            other: Some(other),
            early,
        })
    }
}

/// The minutes until the book says yes, all else staying as it is.
fn wait(book: &mut Gate, question: Question) -> Result<Wait, String> {
    for by in 1..=DAY {
        let later = Question {
            minute: question.minute + by,
            ..question
        };
        if book.ask(&later)?.admitted {
            return Ok(Wait::Minutes(by));
        }
    }
    Ok(Wait::Longer)
}

/// Visits that two weeks decide otherwise: let in only by the first, and only by the second.
pub fn otherwise(first: &[Outcome], second: &[Outcome]) -> (usize, usize) {
    let only = |one: &[Outcome], other: &[Outcome]| {
        let pairs = one.iter().zip(other);
        pairs
            .filter(|(a, b)| a.decision.admitted && !b.decision.admitted)
            .count()
    };
    (only(first, second), only(second, first))
}
