//! One call, made by the library and by the model.

use cases::{convert, made_by_library, numbers, Left, Lending};
use model::case::Case;
use model::Answer;

/// A call: what the model is given, and the library's numbers of it.
#[derive(Clone, Debug)]
pub struct Trial {
    pub case: Case,
    pub numbers: nibl::Call,
    /// Was the case's record another one, which the library cannot be lent?
    pub rewritten: bool,
}

/// What came of a trial.
#[derive(Debug)]
pub enum Outcome {
    Same(Answer),
    /// The library's record cannot say the case's.
    Skipped,
    Differs(String),
}

/// The model's numbers have 32 bits. A wider one of the library's is the highest there, which is out of range as well.
fn narrow(number: usize) -> u32 {
    number.try_into().unwrap_or(u32::MAX)
}

impl Trial {
    /// The case with a record that the library can be lent: a pause that it cannot say becomes none, or the start.
    pub fn new(mut case: Case) -> Trial {
        let record = convert::model_record(&convert::nearest(&case.record));
        let rewritten = record != case.record;
        case.record = record;
        let numbers = numbers(&case);
        Trial {
            case,
            numbers,
            rewritten,
        }
    }

    /// The case with numbers of any width.
    pub fn with_numbers(mut case: Case, numbers: nibl::Call) -> Trial {
        case.input_position = narrow(numbers.inpos);
        case.output_position = narrow(numbers.outpos);
        case.budget = narrow(numbers.budget);
        case.sense = numbers.sense;
        Trial {
            numbers,
            ..Trial::new(case)
        }
    }

    /// Makes both calls. Afterwards the case holds what the model's left.
    pub fn hold(&mut self, lending: Lending) -> Outcome {
        let Some(record) = convert::record(&self.case.record) else {
            return Outcome::Skipped;
        };
        let left = match made_by_library(&self.case, record, self.numbers, lending) {
            Ok(left) => left,
            Err(touched) => return Outcome::Differs(format!("touched: {touched}")),
        };
        let answer = self.case.run();
        match self.difference(&answer, &left) {
            None => Outcome::Same(answer),
            Some(what) => Outcome::Differs(format!("{what}: {left:?}")),
        }
    }

    /// The first thing that the two calls left differently.
    fn difference(&self, answer: &Answer, left: &Left) -> Option<&'static str> {
        let same = [
            ("stop", answer.stop.number() == left.answer.stop.number()),
            ("line", answer.line == left.answer.line),
            ("steps", answer.steps == u32::from(left.answer.steps)),
            ("column", answer.column == u32::from(left.answer.column)),
            (
                "input position",
                is_position(answer.input_position, self.numbers.inpos, left.answer.inpos),
            ),
            (
                "output position",
                is_position(
                    answer.output_position,
                    self.numbers.outpos,
                    left.answer.outpos,
                ),
            ),
            // as the model's, of which every slot counts
            (
                "record",
                self.case.record == convert::model_record(&left.record),
            ),
            ("page", self.case.page == left.page),
            ("memory", self.case.memory == left.memory),
            ("output", self.case.output == left.output),
            ("table", self.case.table == left.table),
        ];
        same.into_iter()
            .find(|(_, same)| !same)
            .map(|(what, _)| what)
    }
}

/// Is it the position that the model answers, or the one that was given and is too wide for the model?
fn is_position(model: u32, given: usize, library: usize) -> bool {
    let wide = given > u32::MAX as usize && model == u32::MAX;
    library == if wide { given } else { model as usize }
}

#[cfg(test)]
mod tests {
    use super::*;
    use model::{Pause, Place, Stop};

    fn typed(line: &[u8]) -> Case {
        Case {
            output: vec![0; 20],
            ..Case::typed(vec![255, 255], line)
        }
    }

    #[test]
    fn the_same_call_gives_the_same() {
        for lending in [Lending::Guarded, Lending::Exact] {
            let outcome = Trial::new(typed(b"PRINT STAT\r")).hold(lending);
            assert!(matches!(outcome, Outcome::Same(answer) if answer.stop == Stop::Done));
        }
    }

    #[test]
    fn another_call_shows_as_a_difference() {
        let mut trial = Trial::new(typed(b"PRINT STAT\r"));
        trial.numbers.sense = 16;
        assert!(matches!(trial.hold(Lending::Guarded), Outcome::Differs(_)));
        let mut trial = Trial::new(typed(b"A=1\r"));
        trial.numbers.outpos = 1;
        assert!(matches!(trial.hold(Lending::Guarded), Outcome::Differs(_)));
    }

    #[test]
    fn a_pause_that_the_record_cannot_say_is_rewritten() {
        for (place, rewritten) in [(65_533, false), (65_534, true), (65_535, true)] {
            let mut case = typed(b"NEW\r");
            case.record.paused = Some(Pause::After(Place(place)));
            assert_eq!(Trial::new(case).rewritten, rewritten, "{place}");
        }
    }

    #[test]
    fn numbers_of_64_bits_are_refused_and_come_back() {
        for wide in [1 << 32, (1 << 32) + 1, usize::MAX] {
            let numbers = nibl::Call {
                inpos: wide,
                ..nibl::Call::default()
            };
            let outcome = Trial::with_numbers(typed(b"NEW\r"), numbers).hold(Lending::Guarded);
            assert!(matches!(outcome, Outcome::Same(answer) if answer.stop == Stop::OutOfRange));
        }
    }
}
