//! The picture: one HTML file with all that it shows.

use crate::case::Case;
use crate::early::Wait;
use crate::paths::Paths;
use crate::told::{Entry, Told};

const PAGE: &str = include_str!("picture.html");
const SCRIPT: &str = include_str!("picture.js");

/// Where in the page the data and the script stand.
const DATA: &str = "/*DATA*/";
const SCRIPT_AT: &str = "/*SCRIPT*/";

/// A week under a name, for the picture.
pub struct Shown<'a> {
    pub name: String,
    /// The rule program from the change on: what LIST writes.
    pub listing: String,
    pub told: &'a Told,
    /// For each visit the number of its way through the lines, if they are shown.
    pub ways: Vec<usize>,
}

/// What is typed at the change, in words, and the listing before it.
pub struct Change {
    pub name: String,
    pub listing: String,
}

pub fn picture(case: &Case, change: &Change, weeks: &[Shown], paths: &Paths) -> String {
    let rules = list(&case.rules, |rule| {
        format!("[{},{}]", quoted(&rule.name), quoted(&rule.words))
    });
    let washes = list(&case.washes, |wash| {
        format!("[{},{},{}]", wash.at, wash.start, wash.minutes)
    });
    let herd = list(&case.herd, |cow| {
        let (number, home, litres, flow) = (cow.number, cow.home, cow.litres, cow.flow);
        let (days, blocked, lingers) = (cow.days, cow.blocked_until, cow.lingers);
        format!(
            "[{number},{home},{litres},{flow},{days},{blocked},{lingers},{}]",
            cow.last_end
        )
    });
    let ways = list(&paths.list, |way| {
        list(way, u16::to_string).replace('\n', "")
    });
    let data = format!(
        "{{\"changed\":{},\"change\":{},\"date\":{},\"boxes\":{},\n\"rules\":{rules},\n\"washes\":{washes},\n\"herd\":{herd},\n\"monday\":{},\n\
         \"paths\":{ways},\n\"weeks\":{}}}",
        case.changed,
        quoted(&change.name),
        quoted(case.date.as_deref().unwrap_or("")),
        case.boxes,
        listed(&change.listing),
        list(weeks, week)
    );
    PAGE.replace(DATA, &data).replace(SCRIPT_AT, SCRIPT)
}

fn week(week: &Shown) -> String {
    let entries: Vec<(Entry, Option<usize>)> = week
        .told
        .entries()
        .enumerate()
        .map(|(at, entry)| (entry, week.ways.get(at).copied()))
        .collect();
    let visits = list(&entries, |(entry, way)| visit(entry, *way));
    let (name, listing) = (quoted(&week.name), listed(&week.listing));
    format!("{{\"name\":{name},\n\"listing\":{listing},\n\"visits\":{visits}}}")
}

/// A visit: minute, box, cow, admitted, rule, interval, line, minutes in the box, minutes too early (-1 for more than a day), minutes
/// since she left, her milk (a litre has 1,440 parts), minutes at the gate, of them behind an early one, what the other book says (admitted, rule, line),
/// the number of its way through the lines (-1 for none), and the display.
fn visit(entry: &Entry, way: Option<usize>) -> String {
    let (outcome, decision) = (entry.outcome, &entry.outcome.decision);
    let early = match entry.seen.early {
        None => 0,
        Some(Wait::Minutes(by)) => i32::from(by),
        Some(Wait::Longer) => -1,
    };
    let visit = &outcome.visit;
    let other = entry.seen.other.as_ref().map_or("0".to_string(), |other| {
        format!(
            "[{},{},{}]",
            u8::from(other.admitted),
            other.rule,
            other.line
        )
    });
    let (minute, at, cow) = (visit.minute, visit.at, outcome.question.cow);
    let (admitted, rule) = (u8::from(decision.admitted), decision.rule);
    let (interval, line, took) = (decision.interval, decision.line, outcome.took);
    let (since, waited, behind) = (outcome.since_end, minute - visit.arrived, entry.behind);
    let milk = outcome.milk;
    let way = way.map_or("-1".to_string(), |way| way.to_string());
    let display = quoted(&decision.display);
    format!(
        "[{minute},{at},{cow},{admitted},{rule},{interval},{line},{took},{early},{since},{milk},{waited},{behind},{other},{way},{display}]"
    )
}

/// A listing: each line's number and text.
fn listed(listing: &str) -> String {
    let lines: Vec<&str> = listing.lines().collect();
    list(&lines, |line| {
        let digits = line.find(|sign: char| !sign.is_ascii_digit());
        let (number, text) = line.split_at(digits.unwrap_or(line.len()));
        format!("[{number},{}]", quoted(text))
    })
}

/// A text as JavaScript has it in a page: no quote and no line end ends it early, and no "<" begins a tag.
fn quoted(text: &str) -> String {
    let mut inner = String::new();
    for sign in text.chars() {
        match sign {
            '\\' | '"' => inner.extend(['\\', sign]),
            '<' | '\u{2028}' | '\u{2029}' => inner += &format!("\\u{:04x}", u32::from(sign)),
            sign if sign.is_control() => inner += &format!("\\u{:04x}", u32::from(sign)),
            sign => inner.push(sign),
        }
    }
    format!("\"{inner}\"")
}

fn list<T>(items: &[T], item: impl Fn(&T) -> String) -> String {
    let items: Vec<String> = items.iter().map(item).collect();
    format!("[{}]", items.join(",\n"))
}

#[cfg(test)]
mod tests {
    use super::*;

    #[test]
    fn a_text_stays_in_its_quotes() {
        assert_eq!(
            quoted("a\"b\\</script>\r\n\u{2028}"),
            "\"a\\\"b\\\\\\u003c/script>\\u000d\\u000a\\u2028\""
        );
    }
}
