//! What each statement does.
//!
//! A statement first works out its values, then looks for its refusals, and
//! changes things last, so that a refusal leaves everything as it was. PRINT
//! and INPUT are the exceptions: what they have done stays.

use crate::line::LineNumber;
use crate::machine::{Flow, Machine};
use crate::reader::read_reply;
use crate::record::{ForEntry, Place};
use crate::stop::Stop;
use crate::tree::{Assignment, ExpressionId, PrintItem, Statement, StatementId, Stretch, Tree};
use crate::typing::{gather, Gathered, CR, LF};
use crate::value::{address, printed, Value};

/// The flag bits an assignment to STAT keeps.
const FLAG_BITS: Value = 7;

impl Machine<'_> {
    /// Runs one statement with all the IFs in it. `ending` is the place that
    /// ends it, or the immediate mark.
    pub fn execute(&mut self, tree: &Tree, id: StatementId, ending: Place) -> Result<Flow, Stop> {
        match tree.statement(id) {
            Statement::Assign(assignment) => self.assign(tree, assignment),
            Statement::If(condition, guarded) => match self.value(tree, condition)? {
                0 => Ok(Flow::NextLine),
                _ => self.execute(tree, guarded, ending),
            },
            Statement::Goto(target) => Ok(Flow::To(self.find(tree, target)?)),
            Statement::Gosub(target) => self.gosub(tree, target, ending),
            Statement::Return => self.return_to(),
            Statement::Do => self.do_loop(ending),
            Statement::Until(condition) => self.until(tree, condition),
            Statement::For {
                variable,
                first,
                limit,
                step,
            } => self.for_loop(tree, variable, [Some(first), Some(limit), step], ending),
            Statement::Next(variable) => self.next(variable),
            Statement::Print { items, line_end } => self.print(tree, items, line_end),
            Statement::InputValues(variables) => self.input_values(tree, variables),
            Statement::InputText(target) => self.input_text(tree, target),
            Statement::Remark => Ok(Flow::On),
            Statement::End => Err(Stop::End),
        }
    }

    fn assign(&mut self, tree: &Tree, assignment: Assignment) -> Result<Flow, Stop> {
        match assignment {
            Assignment::Variable(variable, value) => {
                self.record.variables[usize::from(variable)] = self.value(tree, value)?;
            }
            Assignment::Stat(value) => {
                self.record.flags = (self.value(tree, value)? & FLAG_BITS) as u8;
            }
            Assignment::Byte { target, value } => {
                let target = address(self.value(tree, target)?);
                let value = self.value(tree, value)?;
                *self.memory.get_mut(target).ok_or(Stop::NoMemory)? = value as u8;
            }
            Assignment::Text { target, text } => {
                let target = self.value(tree, target)?;
                self.store_text(target, tree.text(text))?;
            }
            Assignment::Copy { target, source } => {
                let target = self.value(tree, target)?;
                let source = self.value(tree, source)?;
                // Taken whole first: the two may overlap.
                let text = self.memory_text(source)?.to_vec();
                self.store_text(target, &text)?;
            }
        }
        Ok(Flow::On)
    }

    fn find(&self, tree: &Tree, target: ExpressionId) -> Result<usize, Stop> {
        let value = self.value(tree, target)?;
        let number = u16::try_from(value).map_err(|_| Stop::NoSuchLine)?;
        let found = self.program.find(LineNumber(number));
        found.ok_or(Stop::NoSuchLine)
    }

    fn gosub(&mut self, tree: &Tree, target: ExpressionId, ending: Place) -> Result<Flow, Stop> {
        let target = self.find(tree, target)?;
        if self.record.gosubs.is_full() {
            return Err(Stop::TooDeep);
        }
        self.record.gosubs.push(ending);
        Ok(Flow::To(target))
    }

    fn return_to(&mut self) -> Result<Flow, Stop> {
        let place = self.record.gosubs.top().ok_or(Stop::NoGosub)?;
        self.record.gosubs.pop();
        Ok(self.back_to(place))
    }

    /// The record fits the page, so a saved place is the immediate mark or
    /// has a statement, or the program's end, after it.
    fn back_to(&self, place: Place) -> Flow {
        self.program.after(place).map_or(Flow::Finished, Flow::To)
    }

    fn do_loop(&mut self, ending: Place) -> Result<Flow, Stop> {
        if self.record.dos.is_full() {
            return Err(Stop::TooDeep);
        }
        self.record.dos.push(ending);
        Ok(Flow::On)
    }

    fn until(&mut self, tree: &Tree, condition: ExpressionId) -> Result<Flow, Stop> {
        let condition = self.value(tree, condition)?;
        let place = self.record.dos.top().ok_or(Stop::NoDo)?;
        if condition == 0 {
            return Ok(self.back_to(place));
        }
        self.record.dos.pop();
        Ok(Flow::On)
    }

    /// All values first: the limit sees the variable as it was before.
    fn for_loop(
        &mut self,
        tree: &Tree,
        variable: u8,
        parts: [Option<ExpressionId>; 3],
        place: Place,
    ) -> Result<Flow, Stop> {
        let mut values: [Value; 3] = [0, 0, 1];
        for (value, part) in values.iter_mut().zip(parts) {
            if let Some(part) = part {
                *value = self.value(tree, part)?;
            }
        }
        if self.record.fors.is_full() {
            return Err(Stop::TooDeep);
        }
        let [first, limit, step] = values;
        self.record.variables[usize::from(variable)] = first;
        self.record.fors.push(ForEntry {
            variable,
            limit,
            step,
            place,
        });
        Ok(Flow::On)
    }

    fn next(&mut self, variable: u8) -> Result<Flow, Stop> {
        let top = self.record.fors.top().ok_or(Stop::NoFor)?;
        if top.variable != variable {
            return Err(Stop::OtherVariable);
        }
        let counter = &mut self.record.variables[usize::from(variable)];
        *counter = counter.wrapping_add(top.step);
        let goes_on = match top.step {
            0.. => *counter <= top.limit,
            _ => *counter >= top.limit,
        };
        if goes_on {
            return Ok(self.back_to(top.place));
        }
        self.record.fors.pop();
        Ok(Flow::On)
    }

    fn print(&mut self, tree: &Tree, items: Stretch, line_end: bool) -> Result<Flow, Stop> {
        for item in tree.items(items) {
            match *item {
                PrintItem::Text(text) => self.put(tree.text(text))?,
                PrintItem::Number(number) => {
                    let number = printed(self.value(tree, number)?);
                    self.put(number.as_bytes())?;
                }
                PrintItem::MemoryText(place) => {
                    let text = self.memory_text(self.value(tree, place)?)?.to_vec();
                    self.put(&text)?;
                }
            }
        }
        if line_end {
            self.put(&[CR, LF])?;
        }
        Ok(Flow::On)
    }

    /// Asks, and takes the line that answers. An over-long one is taken too.
    fn reply(&mut self) -> Result<Gathered, Stop> {
        self.put(b"?")?;
        let reply = gather(self.input, self.input_position).ok_or(Stop::NoCr)?;
        self.input_position = reply.after;
        match reply.over_long {
            true => Err(Stop::BadReply),
            false => Ok(reply),
        }
    }

    fn input_values(&mut self, tree: &Tree, variables: Stretch) -> Result<Flow, Stop> {
        let variables = tree.variables(variables);
        let reply = self.reply()?;
        let mut reply_tree = Tree::default();
        let relations = read_reply(&mut reply_tree, reply.kept(), variables.len());
        for (&variable, relation) in variables.iter().zip(relations.ok_or(Stop::BadReply)?) {
            self.record.variables[usize::from(variable)] = self.value(&reply_tree, relation)?;
        }
        Ok(Flow::On)
    }

    fn input_text(&mut self, tree: &Tree, target: ExpressionId) -> Result<Flow, Stop> {
        let target = self.value(tree, target)?;
        let reply = self.reply()?;
        self.store_text(target, reply.kept())?;
        Ok(Flow::On)
    }
}
