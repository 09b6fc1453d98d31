//! What a run works on, and the run itself, step by step.

use crate::page::Program;
use crate::record::Record;
use crate::stop::Stop;
use crate::tree::{Expression, ExpressionId, Tree};
use crate::typing::CR;
use crate::value::{address, Value};

/// One call's view of everything a statement can reach.
pub struct Machine<'a> {
    pub program: &'a Program,
    pub record: &'a mut Record,
    pub memory: &'a mut [u8],
    pub input: &'a [u8],
    pub output: &'a mut [u8],
    pub input_position: usize,
    pub output_position: usize,
    pub sense: u8,
}

/// Where a statement that did not stop the run leads.
#[derive(Clone, Copy, Debug, PartialEq, Eq)]
pub enum Flow {
    /// To the statement behind it.
    On,
    /// To the next record: a false IF.
    NextLine,
    /// To a statement of the program.
    To(usize),
    /// RETURN to the immediate mark.
    Finished,
}

/// How a run ended.
#[derive(Clone, Copy, Debug, PartialEq, Eq)]
pub struct Ending {
    pub stop: Stop,
    pub line: Option<u16>,
    pub steps: u32,
}

impl Ending {
    /// A stop that no program statement gave.
    pub fn plain(stop: Stop, steps: u32) -> Ending {
        Ending {
            stop,
            line: None,
            steps,
        }
    }
}

impl Machine<'_> {
    /// Runs the program from a statement on until something stops it.
    pub fn run(&mut self, start: usize, budget: u32) -> Ending {
        let program = self.program;
        let mut next = start;
        let mut steps = 0;
        while let Some(step) = program.steps.get(next) {
            if steps == budget {
                self.record.paused = Some(program.pause_before(next));
                return Ending::plain(Stop::Paused, steps);
            }
            steps += 1;
            next = match self.execute(&program.tree, step.statement, step.place) {
                Ok(Flow::On) => next + 1,
                Ok(Flow::NextLine) => program.next_line(next),
                Ok(Flow::To(target)) => target,
                Ok(Flow::Finished) => break,
                Err(stop) => {
                    return Ending {
                        stop,
                        line: Some(program.number(next).0),
                        steps,
                    }
                }
            };
        }
        Ending::plain(Stop::Done, steps)
    }

    /// The value of an expression: operands left to right, then the operator.
    pub fn value(&self, tree: &Tree, id: ExpressionId) -> Result<Value, Stop> {
        Ok(match tree.expression(id) {
            Expression::Constant(value) => value,
            Expression::Variable(variable) => self.record.variables[usize::from(variable)],
            Expression::Stat => Value::from(self.sense & 0x30 | self.record.flags),
            Expression::Top => self.program.used() as Value,
            Expression::Byte(place) => self.byte(self.value(tree, place)?)?,
            Expression::Not(inner) => !self.value(tree, inner)?,
            Expression::Negative(inner) => self.value(tree, inner)?.wrapping_neg(),
            Expression::Joined(operator, left, right) => {
                let left = self.value(tree, left)?;
                operator.apply(left, self.value(tree, right)?)?
            }
        })
    }

    fn byte(&self, place: Value) -> Result<Value, Stop> {
        let byte = self.memory.get(address(place)).ok_or(Stop::NoMemory)?;
        Ok(Value::from(*byte))
    }

    /// The string that begins at an address, without its CR.
    pub fn memory_text(&self, place: Value) -> Result<&[u8], Stop> {
        let rest = self.memory.get(address(place)..).ok_or(Stop::NoMemory)?;
        let length = rest.iter().position(|&byte| byte == CR);
        Ok(&rest[..length.ok_or(Stop::NoMemory)?])
    }

    /// Writes a string and its CR at an address, or nothing of it.
    pub fn store_text(&mut self, place: Value, text: &[u8]) -> Result<(), Stop> {
        let start = address(place);
        let room = self.memory.get_mut(start..start + text.len() + 1);
        let (cr, rest) = room
            .and_then(<[u8]>::split_last_mut)
            .ok_or(Stop::NoMemory)?;
        rest.copy_from_slice(text);
        *cr = CR;
        Ok(())
    }

    /// Writes one output item whole, or nothing of it.
    pub fn put(&mut self, item: &[u8]) -> Result<(), Stop> {
        let end = self.output_position + item.len();
        let room = self.output.get_mut(self.output_position..end);
        room.ok_or(Stop::OutputFull)?.copy_from_slice(item);
        self.output_position = end;
        Ok(())
    }
}
