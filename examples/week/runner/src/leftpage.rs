//! The page that the old interpreter really left: two records with the number of the retyped line, the retyped one first.

use nibl::{Call, Controller, Stop};

use crate::case::{Case, Second};
use crate::gate::Gate;
use crate::typed::Typed;

/// What is typed at such a page, and refused.
const TYPED: [&str; 4] = ["NEW", "LIST", "RUN", "240"];

/// The page of a gate with the retyped line, and the left line put behind it under its number.
pub fn left_page(case: &Case, changed: &Gate) -> Option<Vec<u8>> {
    let (Some(change), Some(Second::Left(left))) = (&case.change, &case.second) else {
        return None;
    };
    let number = number_and_text(change)?.0;
    let text = number_and_text(left)?.1;
    let mut page = changed.page().to_vec();
    let mut at = 0;
    while page[at..at + 2] != number.to_be_bytes() {
        at += usize::from(page[at + 2]);
    }
    let behind = at + usize::from(page[at + 2]);
    let [high, low] = number.to_be_bytes();
    let record = [&[high, low, text.len() as u8 + 4], text, b"\r"].concat();
    let len = page.len();
    page.splice(behind..behind, record);
    page.truncate(len);
    Some(page)
}

/// The number and the text of the one line that is typed.
fn number_and_text(typed: &Typed) -> Option<(u16, &[u8])> {
    let [line] = &typed.lines[..] else {
        return None;
    };
    let digits = line.iter().take_while(|byte| byte.is_ascii_digit()).count();
    let number = std::str::from_utf8(&line[..digits]).ok()?.parse().ok()?;
    Some((number, &line[digits..]))
}

/// What the calls answer to such a page, in a line; it is the same for all of them.
pub fn refusal(page: &[u8]) -> String {
    let ask = |typed: &str| {
        let mut controller = Controller::new(page.to_vec(), []);
        let answer =
            controller.take_line(format!("{typed}\r").as_bytes(), &mut [], Call::default());
        (answer.stop, controller.page == page)
    };
    let mut going_on = Controller::new(page.to_vec(), []);
    let stop = going_on.continue_run(&[], &mut [], Call::default()).stop;
    let is_refused = stop == Stop::BadPage
        && TYPED
            .iter()
            .all(|typed| ask(typed) == (Stop::BadPage, true));
    let calls = TYPED.join(", ");
    match is_refused {
        true => format!(
            "The page with two lines of one number is refused: {calls} and to go on are {stop}."
        ),
        false => format!(
            "The page with two lines of one number is NOT refused by each of {calls} and to go on."
        ),
    }
}
