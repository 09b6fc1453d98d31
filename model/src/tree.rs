//! The tree a text is read into.
//!
//! Nodes stand in a few vectors and name each other by index. A whole page is
//! read at every call, and this spares an allocation per node. Indices are
//! narrow, since nothing longer than a page is read into one tree.

use crate::value::{Operator, Value};

#[derive(Clone, Copy, Debug, PartialEq, Eq)]
pub struct ExpressionId(u32);

#[derive(Clone, Copy, Debug, PartialEq, Eq)]
pub struct StatementId(u32);

/// Neighbours in one of the tree's lists, from the first up to the last.
#[derive(Clone, Copy, Debug, PartialEq, Eq)]
pub struct Stretch {
    first: u32,
    after: u32,
}

impl Stretch {
    fn range(self) -> std::ops::Range<usize> {
        self.first as usize..self.after as usize
    }
}

#[derive(Clone, Copy, Debug, PartialEq, Eq)]
pub enum Expression {
    Constant(Value),
    Variable(u8),
    Stat,
    Top,
    /// "@": the memory byte at an address.
    Byte(ExpressionId),
    Not(ExpressionId),
    Negative(ExpressionId),
    Joined(Operator, ExpressionId, ExpressionId),
}

#[derive(Clone, Copy, Debug, PartialEq, Eq)]
pub enum PrintItem {
    Text(Stretch),
    MemoryText(ExpressionId),
    Number(ExpressionId),
}

#[derive(Clone, Copy, Debug, PartialEq, Eq)]
pub enum Assignment {
    Variable(u8, ExpressionId),
    Stat(ExpressionId),
    Byte {
        target: ExpressionId,
        value: ExpressionId,
    },
    Text {
        target: ExpressionId,
        text: Stretch,
    },
    Copy {
        target: ExpressionId,
        source: ExpressionId,
    },
}

#[derive(Clone, Copy, Debug, PartialEq, Eq)]
pub enum Statement {
    Assign(Assignment),
    Goto(ExpressionId),
    Gosub(ExpressionId),
    Return,
    Print {
        items: Stretch,
        line_end: bool,
    },
    If(ExpressionId, StatementId),
    Do,
    Until(ExpressionId),
    For {
        variable: u8,
        first: ExpressionId,
        limit: ExpressionId,
        step: Option<ExpressionId>,
    },
    Next(u8),
    InputValues(Stretch),
    InputText(ExpressionId),
    Remark,
    End,
}

#[derive(Clone, Debug, Default)]
pub struct Tree {
    expressions: Vec<Expression>,
    statements: Vec<Statement>,
    items: Vec<PrintItem>,
    texts: Vec<u8>,
    variables: Vec<u8>,
}

impl Tree {
    /// A tree with room for about a text of this length.
    pub fn with_room(text_length: usize) -> Tree {
        Tree {
            expressions: Vec::with_capacity(text_length / 2),
            statements: Vec::with_capacity(text_length / 8),
            ..Tree::default()
        }
    }

    pub fn expression(&self, id: ExpressionId) -> Expression {
        self.expressions[id.0 as usize]
    }

    pub fn statement(&self, id: StatementId) -> Statement {
        self.statements[id.0 as usize]
    }

    pub fn items(&self, stretch: Stretch) -> &[PrintItem] {
        &self.items[stretch.range()]
    }

    pub fn text(&self, stretch: Stretch) -> &[u8] {
        &self.texts[stretch.range()]
    }

    pub fn variables(&self, stretch: Stretch) -> &[u8] {
        &self.variables[stretch.range()]
    }

    pub fn add_expression(&mut self, expression: Expression) -> ExpressionId {
        self.expressions.push(expression);
        ExpressionId(self.expressions.len() as u32 - 1)
    }

    pub fn add_statement(&mut self, statement: Statement) -> StatementId {
        self.statements.push(statement);
        StatementId(self.statements.len() as u32 - 1)
    }

    pub fn add_items(&mut self, items: &[PrintItem]) -> Stretch {
        append(&mut self.items, items)
    }

    pub fn add_text(&mut self, text: &[u8]) -> Stretch {
        append(&mut self.texts, text)
    }

    pub fn add_variables(&mut self, variables: &[u8]) -> Stretch {
        append(&mut self.variables, variables)
    }

    /// Does the statement's form keep it out of an immediate line? What an IF
    /// guards counts, whether or not it would be reached.
    pub fn needs_program(&self, id: StatementId) -> bool {
        match self.statement(id) {
            Statement::If(_, guarded) => self.needs_program(guarded),
            Statement::Do
            | Statement::Until(_)
            | Statement::For { .. }
            | Statement::Next(_)
            | Statement::InputValues(_)
            | Statement::InputText(_) => true,
            _ => false,
        }
    }
}

fn append<T: Copy>(list: &mut Vec<T>, new: &[T]) -> Stretch {
    let first = list.len() as u32;
    list.extend_from_slice(new);
    Stretch {
        first,
        after: list.len() as u32,
    }
}
