//! Which bits a value can have. AND, OR and NOT work on all 16, so a condition written as in other BASICs may never hold, or always.

use crate::reading::{Does, Expr, Joint, Statement};

/// What is known of a value: the bits that it may have, and those that it has for certain.
#[derive(Clone, Copy, Debug, PartialEq, Eq)]
pub struct Bits {
    may: u16,
    must: u16,
}

/// What is known of the variables.
pub type Variables = [Bits; 26];

const UNKNOWN: Bits = Bits { may: !0, must: 0 };
/// A comparison is 1 or 0.
const TRUTH: Bits = Bits { may: 1, must: 0 };
const BYTE: Bits = Bits { may: 255, must: 0 };
/// Three flags and two sense inputs.
const STAT: Bits = Bits { may: 0x37, must: 0 };
/// From 2 to 4,096.
const TOP: Bits = Bits {
    may: 0x1fff,
    must: 0,
};

/// A condition that says nothing, and the byte at which its operator stands.
#[derive(Clone, Copy, Debug, PartialEq, Eq)]
pub enum Trap {
    /// The two sides of an AND have no bit in common: it is always 0.
    Apart(usize),
    /// A value that AND made is compared with one that it cannot have.
    Other(usize),
    /// NOT leaves bits set, whatever it is given.
    Turned(usize),
    /// Bits are set, whatever the values are.
    Always(usize),
}

fn known(value: u16) -> Bits {
    Bits {
        may: value,
        must: value,
    }
}

impl Bits {
    fn value(self) -> Option<u16> {
        (self.may == self.must).then_some(self.may)
    }

    /// One of two values, it is not known which.
    fn either(self, other: Bits) -> Bits {
        Bits {
            may: self.may | other.may,
            must: self.must & other.must,
        }
    }

    fn not(self) -> Bits {
        Bits {
            may: !self.must,
            must: !self.may,
        }
    }

    /// Has one of the two a bit that the other cannot have?
    fn differs(self, other: Bits) -> bool {
        self.must & !other.may != 0 || other.must & !self.may != 0
    }
}

fn bits(expr: &Expr, variables: &Variables) -> Bits {
    let of = |part: &Expr| bits(part, variables);
    match expr {
        Expr::Variable(variable) => variables[usize::from(*variable)],
        Expr::Number(value) => known(*value),
        Expr::Stat => STAT,
        Expr::Top => TOP,
        Expr::Byte(_) => BYTE,
        Expr::Not(_, part) => of(part).not(),
        Expr::Mod(_, by) => remainder(of(by)),
        Expr::Minus(part) => of(part)
            .value()
            .map_or(UNKNOWN, |value| known(value.wrapping_neg())),
        Expr::Joined(_, joint, left, right) => joined(*joint, of(left), of(right)),
    }
}

/// A remainder is less than what was divided by, and has no sign.
fn remainder(by: Bits) -> Bits {
    match by.value() {
        Some(value @ 1..=0x7fff) => Bits {
            may: value.next_power_of_two() - 1,
            must: 0,
        },
        _ => UNKNOWN,
    }
}

fn joined(joint: Joint, left: Bits, right: Bits) -> Bits {
    let both = left.value().zip(right.value());
    match (joint, both) {
        (Joint::And, _) => Bits {
            may: left.may & right.may,
            must: left.must & right.must,
        },
        (Joint::Or, _) => Bits {
            may: left.may | right.may,
            must: left.must | right.must,
        },
        (Joint::Plus, Some((left, right))) => known(left.wrapping_add(right)),
        (Joint::Less, Some((left, right))) => known(left.wrapping_sub(right)),
        (Joint::Times, Some((left, right))) => known(left.wrapping_mul(right)),
        (Joint::Plus | Joint::Less | Joint::Times | Joint::Over, _) => UNKNOWN,
        (Joint::Equal, _) if left.differs(right) => known(0),
        (Joint::Unequal, _) if left.differs(right) => known(1),
        _ => TRUTH,
    }
}

/// Where variables come from elsewhere.
pub const NOTHING_KNOWN: Variables = [UNKNOWN; 26];

/// What is known of the variables of some statements, if nothing else gives them values: each is 0 at first, as RUN leaves it. One that
/// no statement gives a value is somebody else's, and nothing is known of it.
pub fn variables<'a>(statements: &[&'a Statement]) -> Variables {
    let given: Vec<(usize, Option<&'a Expr>)> = statements
        .iter()
        .flat_map(|statement| {
            let value = match &statement.does {
                Does::Give(_, value) => Some(value),
                _ => None, // FOR and INPUT give any
            };
            let gives = statement.gives().iter();
            gives.map(move |variable| (usize::from(*variable), value))
        })
        .collect();
    let mut found = NOTHING_KNOWN;
    given.iter().for_each(|(at, _)| found[*at] = known(0));
    loop {
        let before = found;
        for (at, value) in &given {
            let value = value.map_or(UNKNOWN, |value| bits(value, &before));
            found[*at] = found[*at].either(value);
        }
        if found == before {
            return found;
        }
    }
}

/// What is wrong with a statement's own condition, or with the value that it gives.
pub fn trap(statement: &Statement, variables: &Variables) -> Option<Trap> {
    match &statement.does {
        Does::If(value, _) | Does::Until(value) if varies(value) => holding(value, variables),
        Does::Give(_, value) if varies(value) => apart(value, variables),
        _ => None,
    }
}

/// Can it have more than one value at all?
fn varies(expr: &Expr) -> bool {
    expr.has(&|part| {
        matches!(
            part,
            Expr::Variable(_) | Expr::Byte(_) | Expr::Stat | Expr::Top
        )
    })
}

/// What is wrong with a value that is asked whether it is 0.
fn holding(expr: &Expr, variables: &Variables) -> Option<Trap> {
    let found = bits(expr, variables);
    let always = found.must != 0;
    match expr {
        Expr::Not(at, _) if always => Some(Trap::Turned(*at)),
        Expr::Joined(at, Joint::Or, left, right) => holding(left, variables)
            .or_else(|| holding(right, variables))
            .or(always.then_some(Trap::Always(*at))),
        Expr::Joined(_, Joint::And, left, right) if always => {
            let turned = |part: &Expr| match part {
                Expr::Not(at, _) => Some(Trap::Turned(*at)),
                _ => None,
            };
            turned(left).or_else(|| turned(right))
        }
        Expr::Joined(at, Joint::Equal | Joint::Unequal, _, _)
            if found.value().is_some() && joins_bits(expr) =>
        {
            Some(Trap::Other(*at))
        }
        _ => apart(expr, variables),
    }
}

/// The first AND whose sides may both be other than 0, but not in the same bit.
fn apart(expr: &Expr, variables: &Variables) -> Option<Trap> {
    if let Expr::Joined(at, Joint::And, left, right) = expr {
        let (left, right) = (bits(left, variables), bits(right, variables));
        if left.may != 0 && right.may != 0 && left.may & right.may == 0 {
            return Some(Trap::Apart(*at));
        }
    }
    let parts = expr.parts();
    parts.into_iter().find_map(|part| apart(part, variables))
}

fn joins_bits(expr: &Expr) -> bool {
    expr.has(&|part| {
        matches!(
            part,
            Expr::Not(..) | Expr::Joined(_, Joint::And | Joint::Or, _, _)
        )
    })
}

#[cfg(test)]
mod tests {
    use super::*;
    use crate::reading::{read, Typed};

    /// What is wrong in a line's statements, if they are all of the program.
    fn traps(line: &str) -> Vec<Trap> {
        let Some(Typed::Store(_, members)) = read(line.as_bytes()) else {
            panic!("{line} is stored");
        };
        let all: Vec<&Statement> = members.iter().flat_map(Statement::all).collect();
        let variables = variables(&all);
        all.iter()
            .filter_map(|statement| trap(statement, &variables))
            .collect()
    }

    /// The one thing that is wrong in a line: where this stands in it.
    fn is_trap(line: &str, trap: fn(usize) -> Trap, operator: &str) {
        let at = line.find(operator).expect("the operator is there");
        assert_eq!(traps(line), [trap(at)], "{line}");
    }

    #[test]
    fn the_trap_that_lets_in_the_wrong_cow() {
        is_trap("1 IF (A=B) AND (M AND 4) END", Trap::Apart, "AND (M");
        is_trap("1 IF (M AND 4) AND (A=B) END", Trap::Apart, "AND (A");
        is_trap("1 IF (A=B) AND M AND 4 END", Trap::Apart, "AND 4");
        is_trap("1 IF NOT (A=B) END", Trap::Turned, "NOT");
        is_trap("1 IF NOT (M AND 4) END", Trap::Turned, "NOT");
        is_trap("1 IF NOT @5 END", Trap::Turned, "NOT");
        is_trap("1 DO:UNTIL NOT (A=B)", Trap::Turned, "NOT");
        is_trap("1 IF (C=1) OR NOT (A=B) END", Trap::Turned, "NOT");
        is_trap("1 IF NOT(A=B) AND NOT(C=D) END", Trap::Turned, "NOT");
        is_trap("1 IF A=1 IF NOT(A=B) END", Trap::Turned, "NOT");
        is_trap("1 IF (M AND 4)=1 END", Trap::Other, "=");
        is_trap("1 IF (M AND 4)<>5 END", Trap::Other, "<>");
        is_trap("1 IF M OR 4 END", Trap::Always, "OR");
        is_trap("1 IF STAT AND 8 END", Trap::Apart, "AND");
        is_trap("1 W=(A=B) AND (M AND 4)", Trap::Apart, "AND (M");
    }

    #[test]
    fn a_variable_is_what_the_book_makes_it() {
        is_trap("1 F=A=B:IF NOT F END", Trap::Turned, "NOT");
        is_trap("1 F=@3 AND 1:G=F:IF NOT G END", Trap::Turned, "NOT");
        is_trap("1 F=MOD(A,2):IF F AND (B AND 4) END", Trap::Apart, "AND (");
        assert_eq!(traps("1 F=A=B:F=-1:IF NOT F END"), []);
        assert_eq!(traps("1 INPUT F:IF NOT F END"), []);
        assert_eq!(traps("1 FOR F=0 TO 1:IF NOT F END"), []);
        assert_eq!(traps("1 IF NOT F END"), []); // another book gives F
    }

    #[test]
    fn what_works_on_bits_and_is_meant_so() {
        for good in [
            "1 IF (E<80) AND (I<720) AND (F=0) RETURN",
            "1 IF @(A+3) AND 4 L=L-40",
            "1 IF (A=B) AND ((M AND 4)<>0) END",
            "1 IF A=B IF M AND 4 END",
            "1 IF (A=B)=0 END",
            "1 IF NOT (A=B) AND 1 END",
            "1 IF NOT (A=B) AND (C=D) END",
            "1 IF (M AND 4)=4 END",
            "1 IF (M AND 6)=2 END",
            "1 IF NOT N=-1 END",
            "1 IF STAT AND 16 END",
            "1 IF (A=B) OR (C=D) END",
            "1 IF (A=B) AND M END",
            "1 DO:UNTIL 0",
            "1 IF NOT 0 END",
            "1 A=NOT (B=C) AND 1:IF A END",
            "1 M=M OR 4:IF M AND 4 END",
            "1 M=M AND NOT 4:IF M AND 4 END",
        ] {
            assert_eq!(traps(good), [], "{good}");
        }
    }
}
