//! The tables that are written.

use crate::barn::LITRE;
use crate::gate::Decision;
use crate::rules::{name_of, Rule};
use crate::sheet::written;
use crate::sums::Sum;
use crate::times::clock;
use crate::told::{Entry, Told};

/// Parts of a litre, in litres with one decimal, rounded.
pub fn litres(parts: u32) -> String {
    let tenths = (10 * u64::from(parts) + u64::from(LITRE) / 2) / u64::from(LITRE);
    format!("{}.{}", tenths / 10, tenths % 10)
}

/// Every visit.
pub fn report(told: &Told, rules: &[Rule]) -> String {
    let head = "minute,time,box,cow,decision,rule,interval,rule name,line,display,since end,in box,litres,waited,other decision,other rule,other line,early\n";
    told.entries().fold(head.to_string(), |table, entry| {
        table + &visit(&entry, rules)
    })
}

fn visit(entry: &Entry, rules: &[Rule]) -> String {
    let (outcome, decision) = (entry.outcome, &entry.outcome.decision);
    let (visit, other) = (&outcome.visit, entry.seen.other.as_ref());
    let in_box = |text: String| {
        if decision.admitted {
            text
        } else {
            String::new()
        }
    };
    written(&[
        visit.minute.to_string(),
        clock(visit.minute),
        visit.at.to_string(),
        outcome.question.cow.to_string(),
        said(decision).to_string(),
        decision.rule.to_string(),
        decision.interval.to_string(),
        name_of(rules, decision.rule).to_string(),
        decision.line.to_string(),
        decision.display.clone(),
        outcome.since_end.to_string(),
        in_box(outcome.took.to_string()),
        in_box(litres(outcome.milk)),
        (visit.minute - visit.arrived).to_string(),
        other.map_or(String::new(), |other| said(other).to_string()),
        other.map_or(String::new(), |other| other.rule.to_string()),
        other.map_or(String::new(), |other| other.line.to_string()),
        entry.seen.early.map_or(String::new(), |by| by.to_string()),
    ])
}

fn said(decision: &Decision) -> &'static str {
    match decision.admitted {
        true => "admitted",
        false => "refused",
    }
}

pub fn sums(sums: &[Sum]) -> String {
    let head = "of,which,admitted,refused,minutes in box,litres,short,early,behind early,minutes behind early\n";
    let row = |sum: &Sum| {
        written(&[
            sum.of.to_string(),
            sum.which.clone(),
            sum.admitted.to_string(),
            sum.refused.to_string(),
            sum.minutes.to_string(),
            litres(sum.milk),
            sum.short.to_string(),
            sum.early.to_string(),
            sum.behind.to_string(),
            sum.behind_minutes.to_string(),
        ])
    };
    sums.iter()
        .fold(head.to_string(), |table, sum| table + &row(sum))
}

/// The visits at which a cow was let in early.
pub fn early(told: &Told) -> String {
    let head = "minute,time,box,cow,interval,since end,minutes early,rule,line,litres\n";
    let row = |entry: Entry| {
        let (outcome, by) = (entry.outcome, entry.early()?);
        Some(written(&[
            outcome.visit.minute.to_string(),
            clock(outcome.visit.minute),
            outcome.visit.at.to_string(),
            outcome.question.cow.to_string(),
            outcome.decision.interval.to_string(),
            outcome.since_end.to_string(),
            by.to_string(),
            outcome.decision.rule.to_string(),
            outcome.decision.line.to_string(),
            litres(outcome.milk),
        ]))
    };
    told.entries()
        .filter_map(row)
        .fold(head.to_string(), |table, row| table + &row)
}

/// The visits before which a cow stood at the gate while one was in the box that had been let in early.
pub fn behind(told: &Told, rules: &[Rule]) -> String {
    let head = "minute,time,box,cow,decision,rule,rule name,waited,minutes behind early\n";
    let row = |entry: Entry| {
        let (outcome, decision) = (entry.outcome, &entry.outcome.decision);
        written(&[
            outcome.visit.minute.to_string(),
            clock(outcome.visit.minute),
            outcome.visit.at.to_string(),
            outcome.question.cow.to_string(),
            said(decision).to_string(),
            decision.rule.to_string(),
            name_of(rules, decision.rule).to_string(),
            (outcome.visit.minute - outcome.visit.arrived).to_string(),
            entry.behind.to_string(),
        ])
    };
    let waited = told.entries().filter(|entry| entry.behind > 0);
    waited
        .map(row)
        .fold(head.to_string(), |table, row| table + &row)
}
