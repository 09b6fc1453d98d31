//! What the visits of a week come to, by box, day, rule and cow.

use std::collections::BTreeSet;

use crate::case::Case;
use crate::times::{day, DAYS};
use crate::told::{Entry, Told};

#[derive(Clone, Debug, Default, PartialEq, Eq)]
pub struct Sum {
    pub of: &'static str,
    pub which: String,
    pub admitted: u32,
    pub refused: u32,
    /// Minutes in the box.
    pub minutes: u32,
    /// In parts of a litre.
    pub milk: u32,
    pub short: u32,
    pub early: u32,
    /// Visits before which a cow stood behind one that was let in early, and for how long.
    pub behind: u32,
    pub behind_minutes: u32,
}

/// The visits from the change on, and those of them that a rule decided.
pub const CHANGED: &str = "changed";
pub const CHANGED_RULE: &str = "changed rule";

/// The sums of a week: the week itself, every box, day, rule and cow, and from the change on all and every rule.
pub fn sums(case: &Case, told: &Told) -> Vec<Sum> {
    let rules = rules_of(case, told);
    let is_changed = |entry: &Entry| entry.outcome.visit.minute >= case.changed;
    let mut sums = vec![sum("week", "", told, |_| true)];
    for at in 1..=case.boxes {
        sums.push(sum("box", at, told, |entry| entry.outcome.visit.at == at));
    }
    for name in DAYS {
        sums.push(sum("day", name, told, |entry| {
            day(entry.outcome.visit.minute) == name
        }));
    }
    for rule in &rules {
        sums.push(sum("rule", rule, told, |entry| {
            entry.outcome.decision.rule == *rule
        }));
    }
    for cow in &case.herd {
        sums.push(sum("cow", cow.number, told, |entry| {
            entry.outcome.question.cow == cow.number
        }));
    }
    sums.push(sum(CHANGED, "", told, is_changed));
    for rule in &rules {
        sums.push(sum(CHANGED_RULE, rule, told, |entry| {
            is_changed(entry) && entry.outcome.decision.rule == *rule
        }));
    }
    sums
}

/// The rules on paper, and all others that decided: a program may name what number it likes.
pub fn rules_of(case: &Case, told: &Told) -> BTreeSet<u8> {
    let on_paper = (1..=case.rules.len()).filter_map(|rule| u8::try_from(rule).ok());
    let decided = told.outcomes.iter().map(|outcome| outcome.decision.rule);
    on_paper.chain(decided).collect()
}

fn sum(of: &'static str, which: impl ToString, told: &Told, is_of: impl Fn(&Entry) -> bool) -> Sum {
    let mut sum = Sum {
        of,
        which: which.to_string(),
        ..Sum::default()
    };
    for entry in told.entries().filter(|entry| is_of(entry)) {
        match entry.outcome.decision.admitted {
            true => sum.admitted += 1,
            false => sum.refused += 1,
        }
        sum.minutes += u32::from(entry.outcome.took);
        sum.milk += entry.outcome.milk;
        sum.short += u32::from(entry.is_short());
        sum.early += u32::from(entry.early().is_some());
        sum.behind += u32::from(entry.behind > 0);
        sum.behind_minutes += u32::from(entry.behind);
    }
    sum
}
