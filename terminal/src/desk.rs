//! What is lent to the controller, and how one reply comes about: a run in slices, an INPUT that waits.

use nibl::{Answer, Call, Controller, Stop};

use crate::gather::Kept;
use crate::page::{self, change, Change};
use crate::reading::read;
use crate::show;
use crate::target::missing;
use crate::why;

pub const PAGE: usize = 4096;
pub const MEMORY: usize = 1024;
pub const BUDGET: u64 = 10_000;
pub const BUDGET_LIMIT: u64 = 1_000_000_000_000;
/// The room for all that one reply writes.
const OUTPUT: usize = 8192;
/// Room for any listing: a page has at most 4,096 bytes, and no line is listed at twice its record's length.
pub const LISTING: usize = 2 * PAGE;
/// About a millisecond.
const SLICE: u16 = 5000;
const CR: u8 = 13;

/// The one who sits at the desk.
pub trait Dealer {
    /// Shows what the program wrote since the last time.
    fn show(&mut self, output: &[u8]);
    /// The reply to an INPUT of this line, without its CR; none if none will come.
    fn reply(&mut self, line: u16) -> Option<Vec<u8>>;
    /// Does the dealer want the run to end?
    fn interrupts(&mut self) -> bool;
}

/// Why a reply came.
#[derive(Clone, Copy, Debug, PartialEq, Eq)]
pub enum Cause {
    Answered,
    /// The dealer ended the run between two slices; it is paused.
    Interrupted,
    /// The dealer ended the wait for a reply to INPUT.
    NoReply,
    /// There was nothing to continue.
    NothingPaused,
}

/// What came of a typed line, or of going on.
#[derive(Clone, Debug, PartialEq, Eq)]
pub struct Reply {
    pub stop: Stop,
    pub line: Option<u16>,
    pub steps: u64,
    /// Of a refused line: so many bytes of it could still be the front of a line with a reading.
    pub column: u16,
    pub cause: Cause,
    pub change: Change,
    /// The typed line ended a pause.
    pub ended_pause: bool,
    /// What more can be said of it.
    pub more: More,
}

/// What the answer alone does not say.
#[derive(Clone, Debug, Default, PartialEq, Eq)]
pub struct More {
    /// The line that was replaced or deleted, as it was.
    pub was: Option<String>,
    /// Why the line has no reading.
    pub why: Option<String>,
    /// By how many bytes it is over-long.
    pub over: usize,
    /// The typed line has no number, so nothing of it would have been stored.
    pub immediate: bool,
    /// The line that a jump did not find.
    pub missing: Option<i16>,
    /// Where a pause stands.
    pub pause: Option<String>,
}

impl Reply {
    /// Did the dealer end it?
    pub fn was_cut_short(&self) -> bool {
        matches!(self.cause, Cause::Interrupted | Cause::NoReply)
    }
}

pub struct Desk {
    pub controller: Controller<Vec<u8>, Vec<u8>>,
    pub sense: u8,
    /// The steps for one reply.
    pub budget: u64,
    /// So many steps, at least 1, are run before the dealer is looked at again.
    pub slice: u16,
}

#[derive(Clone, Copy)]
enum Entry {
    TypedLine,
    Continue,
}

/// A reply under way.
struct Run {
    entry: Entry,
    input: Vec<u8>,
    output: Vec<u8>,
    outpos: usize,
    shown: usize,
    steps: u64,
}

impl Run {
    fn new(entry: Entry, input: Vec<u8>) -> Run {
        Run {
            entry,
            input,
            output: vec![0; OUTPUT],
            outpos: 0,
            shown: 0,
            steps: 0,
        }
    }

    fn show(&mut self, answer: &Answer, dealer: &mut impl Dealer) {
        dealer.show(&self.output[self.shown..answer.outpos]);
        self.shown = answer.outpos;
    }

    /// The next call goes on where this one came to.
    fn advance(&mut self, answer: &Answer) {
        self.entry = Entry::Continue;
        self.input.drain(..answer.inpos);
        self.outpos = answer.outpos;
        self.steps += u64::from(answer.steps);
    }
}

/// What document 01's session lends, and a table: lines are typed, so that it stays true.
impl Default for Desk {
    fn default() -> Desk {
        Desk {
            controller: Controller::owned(PAGE, MEMORY).with_table(),
            sense: 0,
            budget: BUDGET,
            slice: SLICE,
        }
    }
}

impl Desk {
    /// Types a line, which has no CR yet.
    pub fn take_line(&mut self, line: &[u8], dealer: &mut impl Dealer) -> Reply {
        let before = self.controller.page.clone();
        let was_paused = self.controller.record.is_paused();
        let kept = Kept::of(line);
        let mut reply = self.run(Entry::TypedLine, [line, &[CR]].concat(), dealer);
        reply.ended_pause = was_paused && !self.controller.record.is_paused();
        if let (Stop::Done, Some(typed)) = (reply.stop, read(&kept.bytes)) {
            reply.change = change(&typed, &before, &self.controller.page);
        }
        self.explain(&mut reply, &kept, &before);
        reply
    }

    /// Goes on with a paused run.
    pub fn go_on(&mut self, dealer: &mut impl Dealer) -> Reply {
        let was_paused = self.controller.record.is_paused();
        let mut reply = self.run(Entry::Continue, Vec::new(), dealer);
        if !was_paused {
            reply.cause = Cause::NothingPaused;
        }
        self.explain(&mut reply, &Kept::default(), &[]);
        reply
    }

    /// Says more of a reply to a line, as it was kept, and of the page before it.
    fn explain(&self, reply: &mut Reply, kept: &Kept, before: &[u8]) {
        let first = kept.bytes.iter().find(|byte| **byte != b' ');
        reply.more.immediate = first.is_some_and(|byte| !byte.is_ascii_digit());
        match (reply.stop, reply.change) {
            (_, Change::Replaced(line) | Change::Deleted(line)) => {
                let all = page::lines(before).into_iter();
                let old = all.into_iter().find(|old| old.number == line);
                reply.more.was = old.map(|old| page::listed(before, &old));
            }
            (Stop::NoReading, _) => {
                reply.more.over = kept.over;
                reply.more.why = why::no_reading(&kept.bytes, kept.over, reply.column);
            }
            (Stop::NoSuchLine, _) => {
                reply.more.missing = missing(&self.controller, reply.line, &kept.bytes);
            }
            (Stop::Paused, _) => {
                let paused = self.controller.record.paused;
                reply.more.pause = Some(show::pause_place(paused, &self.controller.page));
            }
            _ => {}
        }
    }

    /// What LIST writes. It is asked of a copy: a typed LIST would end a pause.
    pub fn listing(&self) -> Result<Vec<u8>, Stop> {
        let mut copy = Controller::new(self.controller.page.clone(), Vec::new());
        let mut output = vec![0; LISTING];
        let answer = copy.take_line(b"LIST\r", &mut output, Call::at(0, 0, 0));
        output.truncate(answer.outpos);
        match answer.stop {
            Stop::Done => Ok(output),
            stop => Err(stop),
        }
    }

    /// Runs slice by slice up to the budget. A run in several calls is one run, so all that is answered is what one call
    /// with the whole budget would answer.
    fn run(&mut self, entry: Entry, input: Vec<u8>, dealer: &mut impl Dealer) -> Reply {
        let mut run = Run::new(entry, input);
        loop {
            let (answer, replied) = self.slice(&mut run, dealer);
            run.advance(&answer);
            let goes_on = answer.stop == Stop::Paused && run.steps < self.budget;
            let interrupted = goes_on && dealer.interrupts();
            if goes_on && !interrupted {
                continue;
            }
            return Reply {
                stop: answer.stop,
                line: answer.line,
                steps: run.steps,
                column: answer.column,
                cause: match (interrupted, replied) {
                    (true, _) => Cause::Interrupted,
                    (false, false) => Cause::NoReply,
                    (false, true) => Cause::Answered,
                },
                change: Change::Nothing,
                ended_pause: false,
                more: More::default(),
            };
        }
    }

    /// One call, and the call once more if an INPUT found no line: from what was lent before, with the reply behind it, up
    /// to the very step that asked. Says too whether the dealer gave all replies.
    ///
    /// 7 with a line number is always an INPUT of the program: the typed line itself has its CR, and a typed INPUT is 3.
    fn slice(&mut self, run: &mut Run, dealer: &mut impl Dealer) -> (Answer, bool) {
        let before = self.controller.clone();
        let budget = u64::from(self.slice.max(1)).min(self.budget - run.steps) as usize;
        let answer = self.call(run, budget);
        run.show(&answer, dealer);
        let (Stop::NoCr, Some(line)) = (answer.stop, answer.line) else {
            return (answer, true);
        };
        let Some(reply) = dealer.reply(line) else {
            return (answer, false);
        };
        self.controller = before;
        run.input.extend(reply);
        run.input.push(CR);
        let answer = self.call(run, usize::from(answer.steps));
        run.show(&answer, dealer);
        (answer, true)
    }

    fn call(&mut self, run: &mut Run, budget: usize) -> Answer {
        let call = Call {
            inpos: 0,
            outpos: run.outpos,
            sense: self.sense,
            budget,
        };
        let (input, output) = (&run.input, &mut run.output);
        match run.entry {
            Entry::TypedLine => self.controller.take_line(input, output, call),
            Entry::Continue => self.controller.continue_run(input, output, call),
        }
    }
}

#[cfg(test)]
mod tests {
    use super::*;
    use crate::words::sentence;

    /// Replies in order, and after how many looks the run is ended.
    #[derive(Default)]
    struct Script {
        replies: Vec<&'static str>,
        asked: Vec<u16>,
        looks: Option<usize>,
        shown: Vec<u8>,
    }

    impl Dealer for Script {
        fn show(&mut self, output: &[u8]) {
            self.shown.extend(output);
        }

        fn reply(&mut self, line: u16) -> Option<Vec<u8>> {
            self.asked.push(line);
            (!self.replies.is_empty()).then(|| self.replies.remove(0).as_bytes().to_vec())
        }

        fn interrupts(&mut self) -> bool {
            match self.looks.as_mut() {
                None => false,
                Some(0) => true,
                Some(left) => {
                    *left -= 1;
                    false
                }
            }
        }
    }

    fn with_budget(budget: u64) -> Desk {
        Desk {
            budget,
            ..Desk::default()
        }
    }

    fn typed(desk: &mut Desk, lines: &[&str], script: &mut Script) -> Reply {
        let mut reply = None;
        for line in lines {
            reply = Some(desk.take_line(line.as_bytes(), script));
        }
        reply.expect("a line")
    }

    fn told(reply: &Reply) -> (u8, Option<u16>, u64, Cause) {
        (reply.stop.number(), reply.line, reply.steps, reply.cause)
    }

    #[test]
    fn a_run_in_slices_answers_as_one_call_does() {
        let program = ["10 FOR C=1 TO 9000:NEXT C", "20 PRINT C:C=C/0", "RUN"];
        let mut sliced = with_budget(40_000);
        let mut script = Script::default();
        let reply = typed(&mut sliced, &program, &mut script);
        let mut whole = Desk::default();
        let mut output = [0; OUTPUT];
        let mut answer = None;
        for line in program {
            let call = Call::at(0, 0, 40_000);
            let input = [line.as_bytes(), b"\r"].concat();
            answer = Some(whole.controller.take_line(&input, &mut output, call));
        }
        let answer = answer.expect("an answer");
        assert_eq!(told(&reply), (13, Some(20), 9003, Cause::Answered));
        assert_eq!(
            (answer.stop, answer.line, u64::from(answer.steps)),
            (reply.stop, reply.line, reply.steps)
        );
        assert_eq!(sliced.controller.record, whole.controller.record);
        assert_eq!(script.shown, b" 9001 \r\n");
    }

    #[test]
    fn input_waits_and_shows_only_what_is_new() {
        let mut desk = Desk::default();
        let mut script = Script {
            replies: vec!["17", "2,3"],
            ..Script::default()
        };
        let program = [
            "10 PRINT \"COW\";:INPUT C:@C=@C+1",
            "20 INPUT A,B",
            "30 PRINT A+B+C",
            "RUN",
        ];
        let reply = typed(&mut desk, &program, &mut script);
        assert_eq!(told(&reply), (0, None, 5, Cause::Answered));
        assert_eq!(script.asked, [10, 20]);
        assert_eq!(script.shown, b"COW?? 22 \r\n");
        assert_eq!(desk.controller.memory[17], 1); // nothing ran twice
    }

    #[test]
    fn a_wrong_reply_is_6_and_no_reply_is_7() {
        let mut desk = Desk::default();
        let mut script = Script {
            replies: vec!["BERTA"],
            ..Script::default()
        };
        let reply = typed(&mut desk, &["10 INPUT C", "RUN"], &mut script);
        assert_eq!(told(&reply), (6, Some(10), 1, Cause::Answered));
        let reply = typed(&mut desk, &["RUN"], &mut script);
        assert_eq!(told(&reply), (7, Some(10), 1, Cause::NoReply));
        assert!(!desk.controller.record.is_paused());
    }

    #[test]
    fn input_behind_a_pause_waits_too() {
        let mut desk = with_budget(3);
        let mut script = Script {
            replies: vec!["5", "6"],
            ..Script::default()
        };
        let reply = typed(&mut desk, &["10 INPUT A:N=N+A:GOTO 10", "RUN"], &mut script);
        assert_eq!(told(&reply), (14, None, 3, Cause::Answered));
        let reply = desk.go_on(&mut script);
        assert_eq!(told(&reply), (14, None, 3, Cause::Answered));
        assert_eq!(desk.controller.record.vars[13], 11);
        assert_eq!(script.asked, [10, 10]);
    }

    #[test]
    fn many_replies_in_one_run_never_outgrow_the_input() {
        let mut desk = with_budget(100_000);
        let long = "1,THIS IS IGNORED AND MAKES THE REPLY LONG ENOUGH TO FILL AN INPUT SOON";
        let mut script = Script {
            replies: vec![long; 1000],
            ..Script::default()
        };
        let reply = typed(
            &mut desk,
            &["10 N=0", "20 INPUT A:N=N+A:IF N<1000 GOTO 20", "RUN"],
            &mut script,
        );
        assert_eq!(told(&reply), (0, None, 3001, Cause::Answered));
        assert_eq!(desk.controller.record.vars[13], 1000);
    }

    #[test]
    fn a_run_is_ended_between_two_slices_and_goes_on() {
        let mut desk = with_budget(BUDGET_LIMIT);
        let mut script = Script {
            looks: Some(2),
            ..Script::default()
        };
        let reply = typed(&mut desk, &["10 GOTO 10", "RUN"], &mut script);
        assert_eq!(
            told(&reply),
            (14, None, 3 * u64::from(SLICE), Cause::Interrupted)
        );
        assert!(desk.controller.record.is_paused());
        let reply = desk.go_on(&mut script);
        assert_eq!(told(&reply), (14, None, SLICE.into(), Cause::Interrupted));
    }

    #[test]
    fn the_budget_is_the_dealers() {
        for budget in [0, 1, 5000, 5001, 70_000] {
            let mut desk = with_budget(budget);
            let reply = typed(&mut desk, &["10 GOTO 10", "RUN"], &mut Script::default());
            assert_eq!(told(&reply), (14, None, budget, Cause::Answered));
        }
    }

    #[test]
    fn a_typed_line_ends_a_pause_and_nothing_is_left_to_go_on_with() {
        let mut desk = Desk::default();
        let mut script = Script::default();
        assert!(!typed(&mut desk, &["10 GOTO 10", "RUN"], &mut script).ended_pause);
        assert!(typed(&mut desk, &[""], &mut script).ended_pause);
        assert!(!typed(&mut desk, &[""], &mut script).ended_pause);
        assert_eq!(
            told(&desk.go_on(&mut script)),
            (0, None, 0, Cause::NothingPaused)
        );
    }

    #[test]
    fn a_listing_ends_no_pause_and_is_whole() {
        let mut desk = Desk::default();
        let mut script = Script::default();
        assert_eq!(desk.listing(), Ok(Vec::new()));
        typed(&mut desk, &["20 GOTO 10", "10 REM", "RUN"], &mut script);
        assert_eq!(desk.listing(), Ok(b"10 REM\r\n20 GOTO 10\r\n".to_vec()));
        assert!(desk.controller.record.is_paused());
        typed(&mut desk, &["NEW"], &mut script);
        let lines: Vec<String> = (31_000..31_800).map(|n| format!("{n}DO")).collect();
        for line in &lines {
            desk.take_line(line.as_bytes(), &mut script);
        }
        let listed = desk.listing().expect("a listing");
        assert!(listed.starts_with(b"31000DO\r\n") && listed.len() == 9 * ((PAGE - 2) / 6));
    }

    #[test]
    fn the_table_stays_true_and_a_false_one_is_told() {
        let mut desk = Desk::default();
        let mut script = Script {
            replies: vec!["5"],
            ..Script::default()
        };
        let lines = ["10 INPUT A", "30 END", "20 GOTO 30", "RUN", "25 A=1", "10"];
        assert_eq!(typed(&mut desk, &lines, &mut script).stop, Stop::Done);
        let table = desk.controller.table.clone().expect("it is lent");
        assert_eq!(table[..4], nibl::table_of(&desk.controller.page)[..4]);
        desk.controller.page = nibl::empty_page(PAGE);
        let reply = typed(&mut desk, &["A=1"], &mut script);
        assert_eq!(told(&reply), (26, None, 0, Cause::Answered));
        assert_eq!(
            sentence(&reply),
            "26: the table does not describe the page; nothing was changed"
        );
    }

    #[test]
    fn a_refused_line_has_its_column_and_no_other_has_one() {
        let mut desk = Desk::default();
        let mut column = |line: &str| {
            let reply = desk.take_line(line.as_bytes(), &mut Script::default());
            (reply.stop.number(), reply.column)
        };
        assert_eq!(column("30 PRIMT 1"), (5, 6));
        assert_eq!(column("print 1"), (5, 0));
        assert_eq!(column("PRINT"), (5, 5));
        assert_eq!(column("PR__PRIMT"), (5, 3)); // of the bytes that are kept
        assert_eq!(column(&"A".repeat(73)), (5, 72));
        assert_eq!(column("PRINT 1/0"), (13, 0));
        assert_eq!(column("PRINT 1"), (0, 0));
    }

    #[test]
    fn an_over_long_line_is_the_calls_to_refuse() {
        let mut desk = Desk::default();
        let mut script = Script::default();
        assert_eq!(
            told(&desk.take_line(&[b'A'; 73], &mut script)),
            (5, None, 0, Cause::Answered)
        );
        assert_eq!(
            told(&desk.take_line(&[b'A'; 70_000], &mut script)),
            (1, None, 0, Cause::Answered)
        );
    }
}
