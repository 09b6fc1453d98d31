//! Arithmetic on 16-bit signed values.

use crate::stop::Stop;

/// What a variable holds and a relation gives.
pub type Value = i16;

/// An operator between two values.
#[derive(Clone, Copy, Debug, PartialEq, Eq)]
pub enum Operator {
    Add,
    Subtract,
    Or,
    Multiply,
    Divide,
    And,
    Mod,
    Equal,
    Less,
    Greater,
    AtMost,
    AtLeast,
    Unequal,
}

impl Operator {
    /// The result, once both operands are there. Only division and MOD refuse.
    pub fn apply(self, left: Value, right: Value) -> Result<Value, Stop> {
        Ok(match self {
            Operator::Add => left.wrapping_add(right),
            Operator::Subtract => left.wrapping_sub(right),
            Operator::Or => left | right,
            Operator::Multiply => left.wrapping_mul(right),
            Operator::Divide => quotient(left, right)?,
            Operator::And => left & right,
            Operator::Mod => modulus(left, right)?,
            Operator::Equal => Value::from(left == right),
            Operator::Less => Value::from(left < right),
            Operator::Greater => Value::from(left > right),
            Operator::AtMost => Value::from(left <= right),
            Operator::AtLeast => Value::from(left >= right),
            Operator::Unequal => Value::from(left != right),
        })
    }
}

/// Truncates toward zero; -32768 over -1 wraps back to -32768.
fn quotient(left: Value, right: Value) -> Result<Value, Stop> {
    if right == 0 {
        return Err(Stop::DivisionByZero);
    }
    Ok(left.wrapping_div(right))
}

/// The remainder's absolute value, which is below 32,768 for any divisor.
fn modulus(left: Value, right: Value) -> Result<Value, Stop> {
    if right == 0 {
        return Err(Stop::DivisionByZero);
    }
    Ok(left.wrapping_rem(right).wrapping_abs())
}

/// An address is the value's 16 bits read as 0 to 65,535.
pub fn address(value: Value) -> usize {
    usize::from(value as u16)
}

/// A number as PRINT writes it: a space or "-", the digits, a space.
pub fn printed(value: Value) -> String {
    let sign = if value < 0 { '-' } else { ' ' };
    format!("{sign}{} ", value.unsigned_abs())
}
