//! The recursive reader: from words to a tree, or to nothing.
//!
//! Each reading function stands on the first word of what it reads and leaves
//! the reader on the first word behind it. `None` means that the text has no
//! reading. The callers see to it that a text has at most 72 bytes, which
//! bounds the recursion.

use crate::tree::{Assignment, Expression, ExpressionId, PrintItem, Statement, StatementId, Tree};
use crate::value::{Operator, Value};
use crate::words::{Keyword, Word, Words};

/// A member of a statement list and the position in the text where it ends:
/// that of its ":" or of the end of the text.
#[derive(Clone, Copy, Debug, PartialEq, Eq)]
pub struct Member {
    pub statement: StatementId,
    pub end: usize,
}

/// Reads a whole text as statements joined by ":" and hands each on.
pub fn read_list(tree: &mut Tree, text: &[u8], mut member: impl FnMut(Member)) -> Option<()> {
    let mut reader = Reader::new(tree, text);
    loop {
        let statement = reader.statement()?;
        member(Member {
            statement,
            end: reader.start,
        });
        match reader.word {
            Word::Finish => return Some(()),
            Word::Mark(b':') => reader.advance(),
            _ => return None,
        }
    }
}

/// Reads a whole text as one statement.
pub fn read_statement(tree: &mut Tree, text: &[u8]) -> Option<StatementId> {
    let mut reader = Reader::new(tree, text);
    let statement = reader.statement()?;
    (reader.word == Word::Finish).then_some(statement)
}

/// Reads the front of a reply as `count` relations joined by commas. A comma
/// behind the last of them ends the part that is looked at.
pub fn read_reply(tree: &mut Tree, text: &[u8], count: usize) -> Option<Vec<ExpressionId>> {
    let mut reader = Reader::new(tree, text);
    let mut relations = Vec::with_capacity(count);
    relations.push(reader.relation()?);
    while relations.len() < count {
        reader.expect(b',')?;
        relations.push(reader.relation()?);
    }
    matches!(reader.word, Word::Finish | Word::Mark(b',')).then_some(relations)
}

struct Reader<'t, 'x> {
    tree: &'t mut Tree,
    words: Words<'x>,
    /// The word looked at, and the position of its first byte.
    word: Word,
    start: usize,
}

impl<'t, 'x> Reader<'t, 'x> {
    fn new(tree: &'t mut Tree, text: &'x [u8]) -> Reader<'t, 'x> {
        let mut words = Words::new(text);
        let (start, word) = words.next_word();
        Reader {
            tree,
            words,
            word,
            start,
        }
    }

    fn advance(&mut self) {
        (self.start, self.word) = self.words.next_word();
    }

    fn expect(&mut self, mark: u8) -> Option<()> {
        self.accept(Word::Mark(mark)).then_some(())
    }

    /// Steps over the word if it is this one.
    fn accept(&mut self, word: Word) -> bool {
        let found = self.word == word;
        if found {
            self.advance();
        }
        found
    }

    fn variable(&mut self) -> Option<u8> {
        let Word::Variable(variable) = self.word else {
            return None;
        };
        self.advance();
        Some(variable)
    }

    fn statement(&mut self) -> Option<StatementId> {
        let statement = match self.word {
            Word::Keyword(Keyword::Stat) => Statement::Assign(self.assignment()?),
            Word::Keyword(keyword) => {
                self.advance_after(keyword);
                self.keyword_statement(keyword)?
            }
            _ => Statement::Assign(self.assignment()?),
        };
        Some(self.tree.add_statement(statement))
    }

    /// REM takes the rest before a word of it is looked at.
    fn advance_after(&mut self, keyword: Keyword) {
        if keyword == Keyword::Rem {
            self.words.skip_rest();
        }
        self.advance();
    }

    /// What follows the keyword a statement begins with.
    fn keyword_statement(&mut self, keyword: Keyword) -> Option<Statement> {
        Some(match keyword {
            Keyword::Let => Statement::Assign(self.assignment()?),
            Keyword::Go if self.accept(Word::Keyword(Keyword::To)) => {
                Statement::Goto(self.relation()?)
            }
            Keyword::Go if self.accept(Word::Keyword(Keyword::Sub)) => {
                Statement::Gosub(self.relation()?)
            }
            Keyword::Goto => Statement::Goto(self.relation()?),
            Keyword::Gosub => Statement::Gosub(self.relation()?),
            Keyword::Return => Statement::Return,
            Keyword::Pr | Keyword::Print => self.print()?,
            Keyword::If => self.condition()?,
            Keyword::Do => Statement::Do,
            Keyword::Until => Statement::Until(self.relation()?),
            Keyword::For => self.for_loop()?,
            Keyword::Next => Statement::Next(self.variable()?),
            Keyword::Input => self.input()?,
            Keyword::Rem => Statement::Remark,
            Keyword::End => Statement::End,
            _ => return None,
        })
    }

    fn assignment(&mut self) -> Option<Assignment> {
        match self.word {
            Word::Variable(variable) => {
                self.advance();
                self.expect(b'=')?;
                Some(Assignment::Variable(variable, self.relation()?))
            }
            Word::Keyword(Keyword::Stat) => {
                self.advance();
                self.expect(b'=')?;
                Some(Assignment::Stat(self.relation()?))
            }
            Word::Mark(b'@') => {
                self.advance();
                let target = self.factor()?;
                self.expect(b'=')?;
                let value = self.relation()?;
                Some(Assignment::Byte { target, value })
            }
            Word::Mark(b'$') => {
                self.advance();
                let target = self.factor()?;
                self.expect(b'=')?;
                self.text_assignment(target)
            }
            _ => None,
        }
    }

    fn text_assignment(&mut self, target: ExpressionId) -> Option<Assignment> {
        if let Word::Quoted(start, end) = self.word {
            let text = self.tree.add_text(self.words.quoted(start, end));
            self.advance();
            return Some(Assignment::Text { target, text });
        }
        self.expect(b'$')?;
        let source = self.factor()?;
        Some(Assignment::Copy { target, source })
    }

    fn condition(&mut self) -> Option<Statement> {
        let condition = self.relation()?;
        self.accept(Word::Keyword(Keyword::Then));
        let guarded = self.statement()?;
        Some(Statement::If(condition, guarded))
    }

    fn for_loop(&mut self) -> Option<Statement> {
        let variable = self.variable()?;
        self.expect(b'=')?;
        let first = self.relation()?;
        if !self.accept(Word::Keyword(Keyword::To)) {
            return None;
        }
        let limit = self.relation()?;
        let step = match self.accept(Word::Keyword(Keyword::Step)) {
            true => Some(self.relation()?),
            false => None,
        };
        Some(Statement::For {
            variable,
            first,
            limit,
            step,
        })
    }

    fn input(&mut self) -> Option<Statement> {
        if self.accept(Word::Mark(b'$')) {
            return Some(Statement::InputText(self.factor()?));
        }
        let mut variables = vec![self.variable()?];
        while self.accept(Word::Mark(b',')) {
            variables.push(self.variable()?);
        }
        Some(Statement::InputValues(self.tree.add_variables(&variables)))
    }

    fn print(&mut self) -> Option<Statement> {
        let mut items = vec![self.print_item()?];
        while self.accept(Word::Mark(b',')) {
            items.push(self.print_item()?);
        }
        Some(Statement::Print {
            items: self.tree.add_items(&items),
            line_end: !self.accept(Word::Mark(b';')),
        })
    }

    fn print_item(&mut self) -> Option<PrintItem> {
        if let Word::Quoted(start, end) = self.word {
            let text = self.tree.add_text(self.words.quoted(start, end));
            self.advance();
            return Some(PrintItem::Text(text));
        }
        if self.accept(Word::Mark(b'$')) {
            return Some(PrintItem::MemoryText(self.factor()?));
        }
        Some(PrintItem::Number(self.relation()?))
    }

    fn relation(&mut self) -> Option<ExpressionId> {
        let left = self.sum()?;
        let Some(operator) = relation_operator(self.word) else {
            return Some(left);
        };
        self.advance();
        let right = self.sum()?;
        Some(self.joined(operator, left, right))
    }

    fn sum(&mut self) -> Option<ExpressionId> {
        let negative = self.word == Word::Mark(b'-');
        if negative || self.word == Word::Mark(b'+') {
            self.advance();
        }
        let mut sum = self.term()?;
        if negative {
            sum = self.tree.add_expression(Expression::Negative(sum));
        }
        while let Some(operator) = sum_operator(self.word) {
            self.advance();
            let right = self.term()?;
            sum = self.joined(operator, sum, right);
        }
        Some(sum)
    }

    fn term(&mut self) -> Option<ExpressionId> {
        let mut term = self.factor()?;
        while let Some(operator) = term_operator(self.word) {
            self.advance();
            let right = self.factor()?;
            term = self.joined(operator, term, right);
        }
        Some(term)
    }

    fn factor(&mut self) -> Option<ExpressionId> {
        let word = self.word;
        self.advance();
        let factor = match word {
            Word::Variable(variable) => Expression::Variable(variable),
            Word::Decimal(value) | Word::Hex(value) => Expression::Constant(value as Value),
            Word::Keyword(Keyword::Stat) => Expression::Stat,
            Word::Keyword(Keyword::Top) => Expression::Top,
            Word::Keyword(Keyword::Not) => Expression::Not(self.factor()?),
            Word::Mark(b'@') => Expression::Byte(self.factor()?),
            Word::Keyword(Keyword::Mod) => return self.modulus(),
            Word::Mark(b'(') => {
                let inner = self.relation()?;
                self.expect(b')')?;
                return Some(inner);
            }
            _ => return None,
        };
        Some(self.tree.add_expression(factor))
    }

    fn modulus(&mut self) -> Option<ExpressionId> {
        self.expect(b'(')?;
        let left = self.relation()?;
        self.expect(b',')?;
        let right = self.relation()?;
        self.expect(b')')?;
        Some(self.joined(Operator::Mod, left, right))
    }

    fn joined(
        &mut self,
        operator: Operator,
        left: ExpressionId,
        right: ExpressionId,
    ) -> ExpressionId {
        let joined = Expression::Joined(operator, left, right);
        self.tree.add_expression(joined)
    }
}

fn relation_operator(word: Word) -> Option<Operator> {
    match word {
        Word::Mark(b'=') => Some(Operator::Equal),
        Word::Mark(b'<') => Some(Operator::Less),
        Word::Mark(b'>') => Some(Operator::Greater),
        Word::AtMost => Some(Operator::AtMost),
        Word::AtLeast => Some(Operator::AtLeast),
        Word::Unequal => Some(Operator::Unequal),
        _ => None,
    }
}

fn sum_operator(word: Word) -> Option<Operator> {
    match word {
        Word::Mark(b'+') => Some(Operator::Add),
        Word::Mark(b'-') => Some(Operator::Subtract),
        Word::Keyword(Keyword::Or) => Some(Operator::Or),
        _ => None,
    }
}

fn term_operator(word: Word) -> Option<Operator> {
    match word {
        Word::Mark(b'*') => Some(Operator::Multiply),
        Word::Mark(b'/') => Some(Operator::Divide),
        Word::Keyword(Keyword::And) => Some(Operator::And),
        _ => None,
    }
}
