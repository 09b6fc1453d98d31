//! Where a program's runs can come: its jumps, and the statements to which none leads.

use std::collections::BTreeMap;

use crate::reading::{Does, Jump, Statement};

/// A program: its lines in order, each with the members of its statement list.
pub type Program = BTreeMap<u16, Vec<Statement>>;

/// All statements, those behind IFs too.
pub fn statements(program: &Program) -> Vec<&Statement> {
    let members = program.values().flatten();
    members.flat_map(Statement::all).collect()
}

/// All jumps, with the lines in which they stand.
pub fn jumps(program: &Program) -> Vec<(u16, &Jump)> {
    let members = program
        .iter()
        .flat_map(|(line, members)| members.iter().map(|member| (*line, member)));
    members
        .flat_map(|(line, member)| member.all().map(move |statement| (line, statement)))
        .filter_map(|(line, statement)| jump(statement).map(|jump| (line, jump)))
        .collect()
}

/// The jump that a statement itself is.
pub fn jump(statement: &Statement) -> Option<&Jump> {
    match &statement.does {
        Does::Jump(jump) => Some(jump),
        _ => None,
    }
}

/// Which members of each line a run may come to.
struct Reached<'a> {
    program: &'a Program,
    members: BTreeMap<u16, Vec<bool>>,
    /// Places that were come to and not yet looked at.
    open: Vec<(u16, usize)>,
}

impl<'a> Reached<'a> {
    fn from(program: &'a Program, starts: &[u16]) -> Reached<'a> {
        let none = |(line, members): (&u16, &Vec<Statement>)| (*line, vec![false; members.len()]);
        let mut reached = Reached {
            program,
            members: program.iter().map(none).collect(),
            open: Vec::new(),
        };
        starts.iter().for_each(|line| reached.come_to(*line, 0));
        while let Some((line, at)) = reached.open.pop() {
            reached.look(line, at, &program[&line][at]);
        }
        reached
    }

    fn come_to(&mut self, line: u16, at: usize) {
        let member = self.members.get_mut(&line).and_then(|all| all.get_mut(at));
        if let Some(member) = member.filter(|member| !**member) {
            *member = true;
            self.open.push((line, at));
        }
    }

    fn come_to_next_line(&mut self, line: u16) {
        let next = self.program.range(line..).nth(1);
        if let Some((next, _)) = next {
            self.come_to(*next, 0);
        }
    }

    /// Goes on behind a member: in its line, or at the next one.
    fn come_behind(&mut self, line: u16, at: usize) {
        if at + 1 < self.program[&line].len() {
            self.come_to(line, at + 1);
        } else {
            self.come_to_next_line(line);
        }
    }

    fn look(&mut self, line: u16, at: usize, statement: &Statement) {
        match &statement.does {
            Does::Return | Does::End => {}
            Does::Remark => self.come_to_next_line(line),
            Does::If(_, then) => {
                self.come_to_next_line(line);
                self.look(line, at, then);
            }
            Does::Jump(jump) => {
                if let Some(target) = jump.constant() {
                    self.come_to(target, 0);
                }
                if jump.comes_back {
                    self.come_behind(line, at);
                }
            }
            _ => self.come_behind(line, at),
        }
    }
}

/// The first statement of each stretch to which no run comes that starts at one of these lines: its line, its byte, and how many lines
/// are lost whole. A remark is not run anyway, and an END or a RETURN that is not needed does no harm. Of a target that is worked out
/// nothing is known here.
pub fn unreached(program: &Program, starts: &[u16]) -> Vec<(u16, usize, usize)> {
    let reached = Reached::from(program, starts);
    let mut found = Vec::new();
    let mut lost: Option<usize> = None; // where in `found` the stretch stands that the line before was lost in
    for (line, members) in program {
        let here = &reached.members[line];
        let first = members
            .iter()
            .zip(here)
            .find(|(member, come)| !**come && matters(member));
        let whole = !here[0];
        match (first, lost.filter(|_| whole)) {
            (Some(_), Some(stretch)) => found_lines(&mut found, stretch),
            (Some((member, _)), None) => {
                found.push((*line, member.begin, usize::from(whole)));
                lost = whole.then_some(found.len() - 1);
            }
            (None, _) => lost = lost.filter(|_| whole),
        }
    }
    found
}

fn found_lines(found: &mut [(u16, usize, usize)], stretch: usize) {
    found[stretch].2 += 1;
}

fn matters(statement: &Statement) -> bool {
    !matches!(statement.does, Does::Remark | Does::End | Does::Return)
}

#[cfg(test)]
mod tests {
    use super::*;
    use crate::reading::{read, Typed};

    fn program(lines: &[&str]) -> Program {
        let line = |line: &&str| match read(line.as_bytes()) {
            Some(Typed::Store(number, members)) => (number, members),
            other => panic!("{line} is {other:?}"),
        };
        lines.iter().map(line).collect()
    }

    fn lost(lines: &[&str]) -> Vec<(u16, usize, usize)> {
        let program = program(lines);
        let first = *program.keys().next().expect("a line");
        unreached(&program, &[first])
    }

    #[test]
    fn behind_a_jump_nothing_runs() {
        assert_eq!(lost(&["10 GOTO 20:PRINT 1", "20 END"]), [(10, 11, 0)]);
        assert_eq!(lost(&["10 IF A GOTO 20:PRINT 1", "20 END"]), [(10, 16, 0)]);
        assert_eq!(lost(&["10 END", "20 A=1", "30 A=2"]), [(20, 3, 2)]);
        assert_eq!(lost(&["10 GOTO 30", "20 A=1", "30 GOTO 10"]), [(20, 3, 1)]);
        let two = ["10 GOTO 40", "20 A=1", "40 GOTO 60", "50 A=1", "60 END"];
        assert_eq!(lost(&two), [(20, 3, 1), (50, 3, 1)]);
        assert_eq!(lost(&["10 END", "20 GOTO 20"]), [(20, 3, 1)]);
        assert_eq!(lost(&["10 END", "20 REM", "30 A=1"]), [(30, 3, 1)]);
    }

    #[test]
    fn what_can_be_reached_or_does_no_harm() {
        for good in [
            &["10 GOSUB 100:END:REM LOOK HERE", "100 A=1:RETURN"][..],
            &["10 IF A END", "20 A=1"],
            &["10 IF A=0 IF B=0 END", "20 A=1"],
            &["10 DO:A=A+1:UNTIL A=3:FOR I=1 TO 3:NEXT I", "20 A=1"],
            &["10 GOTO 10", "20 END", "30 REM SUBROUTINES", "40 RETURN"],
            &["10 REM:GOTO 50", "20 A=1"],
            &["10 GOTO 30", "20 A=1:END", "30 GOSUB 20"],
        ] {
            assert_eq!(lost(good), [], "{good:?}");
        }
    }

    #[test]
    fn a_typed_jump_starts_there_too() {
        let program = program(&["10 END", "20 A=1", "30 END", "40 A=2"]);
        assert_eq!(unreached(&program, &[10, 20]), [(40, 3, 1)]);
        assert_eq!(unreached(&program, &[10, 20, 40]), []);
    }

    #[test]
    fn jumps_are_found_behind_ifs() {
        let program = program(&["10 IF A IF B GOTO 20:GOSUB C", "20 END"]);
        let found: Vec<_> = jumps(&program)
            .into_iter()
            .map(|(line, jump)| (line, jump.begin, jump.constant()))
            .collect();
        assert_eq!(found, [(10, 18, Some(20)), (10, 27, None)]);
    }
}
