//! The cases as bytes, and back.

use model::case::{packed, Call};
use model::{ForEntry, ForStack, Place, PlaceStack, Record};

use crate::gate::{pause, pause_of, Gate, Numbers};
use crate::written::Written;

/// The bytes of the input that are left.
pub struct Input(std::vec::IntoIter<u8>);

impl Input {
    pub fn new(bytes: Vec<u8>) -> Input {
        Input(bytes.into_iter())
    }

    /// The cases, which no longer say what answers are theirs.
    pub fn cases(&mut self) -> Vec<Written> {
        (0..self.number()).map(|_| self.case()).collect()
    }

    fn byte(&mut self) -> u8 {
        self.0.next().unwrap_or(0)
    }

    fn number(&mut self) -> u16 {
        u16::from_be_bytes([self.byte(), self.byte()])
    }

    fn long(&mut self) -> u32 {
        u32::from(self.number()) << 16 | u32::from(self.number())
    }

    fn bytes(&mut self, count: usize) -> Vec<u8> {
        (0..count).map(|_| self.byte()).collect()
    }

    /// What is lent, of bytes or of numbers.
    fn lent<T: Clone>(&mut self, value: fn(&mut Input) -> T) -> Vec<T> {
        let length = self.long() as usize;
        let filler = value(self);
        let given = self.number();
        let mut lent: Vec<T> = (0..given).map(|_| value(self)).collect();
        lent.resize(length, filler);
        lent
    }

    fn place(&mut self) -> Place {
        Place(self.number())
    }

    fn places(&mut self) -> PlaceStack {
        PlaceStack {
            depth: self.number().into(),
            places: [0; 8].map(|_| self.place()),
        }
    }

    fn fors(&mut self) -> ForStack {
        ForStack {
            depth: self.number().into(),
            entries: [0; 4].map(|_| ForEntry {
                variable: self.byte(),
                limit: self.number() as i16,
                step: self.number() as i16,
                place: self.place(),
            }),
        }
    }

    fn record(&mut self) -> Record {
        Record {
            variables: [0; 26].map(|_| self.number() as i16),
            flags: self.byte(),
            paused: pause_of(self.number()),
            gosubs: self.places(),
            dos: self.places(),
            fors: self.fors(),
        }
    }

    fn numbers(&mut self) -> Numbers {
        Numbers {
            call: match self.byte() {
                0 => Call::Line,
                1 => Call::Continue,
                2 => Call::Save,
                _ => Call::Load,
            },
            sense: self.byte(),
            budget: self.long(),
            tabled: self.byte() != 0,
        }
    }

    fn case(&mut self) -> Written {
        let length = self.byte().into();
        let name = self.bytes(length).into_iter().map(char::from).collect();
        let gate = Gate {
            page: self.lent(Input::byte),
            memory: self.lent(Input::byte),
            input: self.lent(Input::byte),
            output: self.lent(Input::byte),
            table: self.lent(Input::number),
            input_position: self.long(),
            output_position: self.long(),
            record: self.record(),
        };
        let calls = (0..self.byte()).map(|_| self.numbers()).collect();
        Written {
            name,
            gate,
            calls,
            lending: false,
            answers: Vec::new(),
        }
    }
}

/// The whole input.
pub fn bytes(cases: &[Written]) -> Vec<u8> {
    let mut out = Vec::new();
    push_number(&mut out, cases.len());
    cases.iter().for_each(|case| push_case(&mut out, case));
    out
}

fn push_count(out: &mut Vec<u8>, count: usize) {
    out.push(count.try_into().expect("one byte"));
}

fn push_number(out: &mut Vec<u8>, number: usize) {
    out.extend(u16::try_from(number).expect("two bytes").to_be_bytes());
}

/// What fills the end of what is lent is given once.
fn push_lent<T, const N: usize>(out: &mut Vec<u8>, lent: &[T], bytes: fn(T) -> [u8; N])
where
    T: Copy + Default + PartialEq,
{
    let (given, filler) = packed(lent);
    out.extend((lent.len() as u32).to_be_bytes());
    out.extend(bytes(filler));
    push_number(out, given.len());
    out.extend(given.iter().flat_map(|&value| bytes(value)));
}

fn push_places(out: &mut Vec<u8>, stack: &PlaceStack) {
    push_number(out, stack.depth);
    let places = stack.places.iter();
    places.for_each(|place| out.extend(place.0.to_be_bytes()));
}

fn push_record(out: &mut Vec<u8>, record: &Record) {
    let variables = record.variables.iter();
    variables.for_each(|value| out.extend(value.to_be_bytes()));
    out.push(record.flags);
    out.extend(pause(record.paused).to_be_bytes());
    push_places(out, &record.gosubs);
    push_places(out, &record.dos);
    push_number(out, record.fors.depth);
    for entry in &record.fors.entries {
        out.push(entry.variable);
        out.extend(entry.limit.to_be_bytes());
        out.extend(entry.step.to_be_bytes());
        out.extend(entry.place.0.to_be_bytes());
    }
}

fn push_case(out: &mut Vec<u8>, case: &Written) {
    let gate = &case.gate;
    push_count(out, case.name.len());
    out.extend(case.name.bytes());
    for lent in [&gate.page, &gate.memory, &gate.input, &gate.output] {
        push_lent(out, lent, u8::to_be_bytes);
    }
    push_lent(out, &gate.table, u16::to_be_bytes);
    out.extend(gate.input_position.to_be_bytes());
    out.extend(gate.output_position.to_be_bytes());
    push_record(out, &gate.record);
    push_count(out, case.calls.len());
    for numbers in &case.calls {
        let kind = match numbers.call {
            Call::Line => 0,
            Call::Continue => 1,
            Call::Save => 2,
            Call::Load => 3,
        };
        out.extend([kind, numbers.sense]);
        out.extend(numbers.budget.to_be_bytes());
        out.push(numbers.tabled.into());
    }
}
