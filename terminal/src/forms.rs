//! Saved forms, which carry a rule set to another box: what one has, in words; and, for a box with no terminal, a rule book turned into a
//! form and a form into a listing.

use nibl::{Call, Controller, Stop, SAVED_MOST};

use crate::desk::{LISTING, MEMORY, PAGE};
use crate::files::rows;
use crate::words::{counted, grouped};

const MEMORY_MOST: usize = 4096;
const CR: u8 = 13;
/// Where a form's line count stands, and its records.
const COUNT: usize = 54;
const RECORDS: usize = 56;

/// What a form says that it has.
#[derive(Clone, Copy, Debug, PartialEq, Eq)]
pub struct Carried {
    pub lines: usize,
    pub memory: usize,
}

impl Carried {
    /// Of a form, if its counts are there. Whether it is a sound one is for the box to say.
    pub fn of(form: &[u8]) -> Option<Carried> {
        let two = |at: usize| {
            let bytes = form.get(at..at + 2)?;
            Some(usize::from(u16::from_be_bytes([bytes[0], bytes[1]])))
        };
        let lines = two(COUNT)?;
        let mut at = RECORDS;
        for _ in 0..lines {
            at += usize::from(*form.get(at + 2)?);
        }
        Some(Carried {
            lines,
            memory: two(at)?,
        })
    }

    /// "12 lines, the variables and 1,024 bytes of memory".
    pub fn words(self) -> String {
        format!(
            "{}, the variables and {} of memory",
            counted(self.lines as u64, "line"),
            counted(self.memory as u64, "byte")
        )
    }
}

/// A refused load in words: what the form has, where that says more.
pub fn refusal(stop: Stop, form: &[u8], memory: usize) -> String {
    match (stop, Carried::of(form)) {
        (Stop::OtherMemory, Some(carried)) => format!(
            "{stop}: {}, and here are {}; {}",
            counted(carried.memory as u64, "byte"),
            grouped(memory as u64),
            stop.effect()
        ),
        _ => format!("{stop}; {}", stop.effect()),
    }
}

/// The form of a controller's rule set. A run that is paused stays paused.
pub fn form_of(controller: &mut Controller<Vec<u8>, Vec<u8>>) -> Result<Vec<u8>, Stop> {
    let mut form = vec![0; SAVED_MOST];
    let answer = controller.save(&mut form, 0);
    form.truncate(answer.outpos);
    match answer.stop {
        Stop::Done => Ok(form),
        stop => Err(stop),
    }
}

/// A form that was made of a rule book.
#[derive(Debug, PartialEq, Eq)]
pub struct Exported {
    pub form: Vec<u8>,
    /// The rows of lines with no number, which are no part of a program.
    pub left_out: Vec<usize>,
}

/// The memory of the box that the form is for: so many bytes, or as many as are given; what is not given is 0.
pub fn memory(length: Option<usize>, bytes: &[u8]) -> Result<Vec<u8>, String> {
    let wanted = match (length, bytes.len()) {
        (Some(length), _) => length,
        (None, 0) => MEMORY,
        (None, given) => given,
    };
    if wanted > MEMORY_MOST {
        return Err(format!(
            "a memory of {} bytes: a box has at most {}",
            grouped(wanted as u64),
            grouped(MEMORY_MOST as u64)
        ));
    }
    if bytes.len() > wanted {
        return Err(format!(
            "{} given for a memory of {}",
            counted(bytes.len() as u64, "byte"),
            grouped(wanted as u64)
        ));
    }
    let mut memory = bytes.to_vec();
    memory.resize(wanted, 0);
    Ok(memory)
}

/// Types the numbered lines of a book into a fresh box with this memory, and saves that. A line that is refused, with its row, is all
/// that is handed back then.
pub fn export(book: &[u8], memory: Vec<u8>) -> Result<Exported, String> {
    let mut controller = Controller::new(nibl::empty_page(PAGE), memory);
    let mut left_out = Vec::new();
    for (row, (line, _)) in (1..).zip(rows(book)) {
        match line.iter().find(|byte| **byte != b' ') {
            None => {}
            Some(byte) if byte.is_ascii_digit() => {
                let input = [line, &[CR]].concat();
                let stop = controller.take_line(&input, &mut [], Call::default()).stop;
                if stop != Stop::Done {
                    return Err(format!("{row}: {}: {stop}", String::from_utf8_lossy(line)));
                }
            }
            Some(_) => left_out.push(row),
        }
    }
    let form = form_of(&mut controller).map_err(|stop| stop.to_string())?;
    Ok(Exported { form, left_out })
}

/// A form that was taken apart.
#[derive(Debug, PartialEq, Eq)]
pub struct Imported {
    /// What LIST writes of its program.
    pub listing: Vec<u8>,
    pub memory: Vec<u8>,
    /// What a listing does not have.
    pub left_out: String,
}

/// Loads a form into a box with a memory of its length, and lists that; or says in words why it is none.
pub fn import(form: &[u8]) -> Result<Imported, String> {
    let length = Carried::of(form).map_or(0, |carried| carried.memory);
    let mut controller = Controller::owned(PAGE, length.min(MEMORY_MOST));
    let stop = controller.load(form).stop;
    if stop != Stop::Done {
        return Err(refusal(stop, form, controller.memory.len()));
    }
    let mut listing = vec![0; LISTING];
    let answer = controller.take_line(b"LIST\r", &mut listing, Call::default());
    listing.truncate(answer.outpos);
    Ok(Imported {
        listing,
        left_out: left_out(&controller.record.vars, &controller.memory),
        memory: controller.memory,
    })
}

/// "variables A=258, Z=-2; 1,024 bytes of memory, of which 3 are not 0".
fn left_out(vars: &[u16; 26], memory: &[u8]) -> String {
    let named = |(letter, value): (char, &u16)| format!("{letter}={}", *value as i16);
    let given: Vec<String> = ('A'..='Z')
        .zip(vars)
        .filter(|(_, value)| **value != 0)
        .map(named)
        .collect();
    let variables = match given.is_empty() {
        true => "variables, all 0".to_string(),
        false => format!("variables {}", given.join(", ")),
    };
    let set = memory.iter().filter(|byte| **byte != 0).count();
    let bytes = counted(memory.len() as u64, "byte");
    let which = match set {
        0 => "all 0".to_string(),
        1 => "of which 1 is not 0".to_string(),
        _ => format!("of which {} are not 0", grouped(set as u64)),
    };
    match memory.is_empty() {
        true => format!("{variables}; no memory"),
        false => format!("{variables}; {bytes} of memory, {which}"),
    }
}

#[cfg(test)]
mod tests {
    use super::*;

    const BOOK: &[u8] = b"10 PRINT A\r\n\r\nRUN\r\n 20 END\r\n";

    fn form() -> Vec<u8> {
        let memory = memory(Some(4), b"\x07").expect("a memory");
        export(BOOK, memory).expect("a form").form
    }

    #[test]
    fn a_book_becomes_a_form_and_a_form_a_listing() {
        let memory = memory(Some(4), &[7]).expect("a memory");
        let exported = export(BOOK, memory).expect("a form");
        assert_eq!(exported.left_out, [3]);
        assert_eq!(exported.form.len(), 56 + 20 + 2 + 4);
        assert_eq!(
            Carried::of(&exported.form).expect("counts").words(),
            "2 lines, the variables and 4 bytes of memory"
        );
        let imported = import(&exported.form).expect("a listing");
        assert_eq!(imported.listing, b"10 PRINT A\r\n20 END\r\n");
        assert_eq!(imported.memory, [7, 0, 0, 0]);
        let wanted = "variables, all 0; 4 bytes of memory, of which 1 is not 0";
        assert_eq!(imported.left_out, wanted);
    }

    #[test]
    fn the_memory_is_as_long_as_is_said_or_as_given() {
        let lengths = |length, bytes: &[u8]| memory(length, bytes).map(|memory| memory.len());
        assert_eq!(lengths(None, b""), Ok(1024));
        assert_eq!(lengths(None, b"123"), Ok(3));
        assert_eq!(lengths(Some(0), b""), Ok(0));
        assert_eq!(lengths(Some(5), b"123"), Ok(5));
        let more = "3 bytes given for a memory of 2".to_string();
        assert_eq!(lengths(Some(2), b"123"), Err(more));
        let wide = "a memory of 4,097 bytes: a box has at most 4,096".to_string();
        assert_eq!(lengths(Some(4097), b""), Err(wide));
    }

    #[test]
    fn a_line_that_is_refused_makes_no_form() {
        let fault = export(b"10 END\n20 PRIMT\n", Vec::new()).expect_err("a fault");
        assert_eq!(fault, "2: 20 PRIMT: 5: over-long or no reading");
    }

    #[test]
    fn what_is_no_form_is_said_in_words() {
        let fault = |form: &[u8]| import(form).expect_err("no form");
        let nothing = "22: no saved form, or one of another number; nothing was changed";
        assert_eq!(fault(b""), nothing);
        assert_eq!(fault(b"10 END\r\n"), nothing);
        let damaged = "23: a damaged form: counts, lines or length; nothing was changed";
        assert_eq!(fault(&form()[..80]), damaged);
        assert_eq!(fault(&[1]), damaged);
        let wide = [&form()[..54], &[0, 0, 19, 136], &[0; 5000]].concat();
        let wanted = "24: the form's memory has another length: 5,000 bytes, and here are 4,096; nothing was changed";
        assert_eq!(fault(&wide), wanted);
    }

    #[test]
    fn variables_are_named_that_are_not_0() {
        let mut vars = [0; 26];
        (vars[0], vars[25]) = (258, 65_534);
        assert_eq!(left_out(&vars, &[]), "variables A=258, Z=-2; no memory");
        let wanted = "variables A=258, Z=-2; 3 bytes of memory, all 0";
        assert_eq!(left_out(&vars, &[0; 3]), wanted);
    }
}
