//! A week with all that is known of its visits.

use crate::barn::{Outcome, LITRE};
use crate::early::{seen, Books, By, Seen, Wait};
use crate::waiting::behind_early;

/// A week that a book decided.
pub struct Told {
    pub outcomes: Vec<Outcome>,
    /// For each visit what the other book says to it.
    pub seen: Vec<Seen>,
    /// For each visit the minutes that she stood behind a cow let in early.
    pub behind: Vec<u16>,
}

/// One visit of it.
#[derive(Clone, Copy)]
pub struct Entry<'a> {
    pub outcome: &'a Outcome,
    pub seen: &'a Seen,
    pub behind: u16,
}

impl Told {
    /// A week as the other book sees it, if there is one.
    pub fn of(
        outcomes: Vec<Outcome>,
        changed: u16,
        books: Option<&mut Books>,
        by: By,
    ) -> Result<Told, String> {
        let seen = match books {
            Some(books) => seen(&outcomes, changed, books, by)?,
            None => vec![Seen::default(); outcomes.len()],
        };
        let behind = behind_early(&outcomes, &seen);
        Ok(Told {
            outcomes,
            seen,
            behind,
        })
    }

    pub fn entries(&self) -> impl Iterator<Item = Entry<'_>> {
        let visits = self.outcomes.iter().zip(&self.seen).zip(&self.behind);
        visits.map(|((outcome, seen), behind)| Entry {
            outcome,
            seen,
            behind: *behind,
        })
    }
}

impl Entry<'_> {
    /// How much too early she came in, if she did.
    pub fn early(&self) -> Option<Wait> {
        self.seen.early.filter(|_| self.outcome.decision.admitted)
    }

    /// A milking that brings less than a quarter of her day's milk.
    pub fn is_short(&self) -> bool {
        let day = u32::from(self.outcome.question.litres) * LITRE;
        self.outcome.decision.admitted && 4 * self.outcome.milk < day
    }
}
