//! The listing: the kept lines, typed into an empty page of the proved controller and listed by it.

use nibl::{Call, Controller, Stop};

use crate::walk::{lines, Fault, Line};

const PAGE: usize = 4096;
/// No listing of a page is longer: a line's CR LF and number take the place of its length byte, its CR and its two bytes of number.
const OUTPUT: usize = 4 * PAGE;

/// What is kept of a page.
#[derive(Debug)]
pub struct Kept {
    pub listing: String,
    /// How many lines it has.
    pub lines: usize,
    /// The lines that stand more than once: the first, and the others.
    pub doubles: Vec<(Line, Vec<Line>)>,
}

/// The listing of a page in which lines may stand twice.
pub fn listing(page: &[u8]) -> Result<Kept, Fault> {
    let mut lines = lines(page)?.into_iter().peekable();
    let mut controller = Controller::owned(PAGE, 0);
    let (mut count, mut doubles) = (0, Vec::new());
    while let Some(line) = lines.next() {
        type_in(&mut controller, &line)?;
        count += 1;
        let mut others = Vec::new();
        while let Some(other) = lines.next_if(|other| other.number == line.number) {
            others.push(other);
        }
        if !others.is_empty() {
            doubles.push((line, others));
        }
    }
    let mut output = vec![0; OUTPUT];
    let answer = controller.take_line(b"LIST\r", &mut output, Call::at(0, 0, 0));
    Ok(Kept {
        listing: String::from_utf8_lossy(&output[..answer.outpos]).into_owned(),
        lines: count,
        doubles,
    })
}

/// Types a line; one that has no reading is the page's fault, at the first byte that cannot stand.
fn type_in(controller: &mut Controller<Vec<u8>, Vec<u8>>, line: &Line) -> Result<(), Fault> {
    let typed = format!("{}\r", line.typed());
    let answer = controller.take_line(typed.as_bytes(), &mut [], Call::at(0, 0, 0));
    let digits = typed.len() - 1 - line.text.len();
    match answer.stop {
        Stop::Done => Ok(()),
        stop => Err(Fault {
            at: line.at + 3 + usize::from(answer.column).saturating_sub(digits),
            what: format!("line {} is refused, {stop}: {}", line.number, line.typed()),
        }),
    }
}

#[cfg(test)]
mod tests {
    use super::*;

    /// A page with these lines as they are.
    fn page(lines: &[(u16, &str)]) -> Vec<u8> {
        let mut page = Vec::new();
        for (number, text) in lines {
            page.extend(number.to_be_bytes());
            page.push(text.len() as u8 + 4);
            page.extend(text.bytes());
            page.push(13);
        }
        [page, vec![255, 255, 7]].concat()
    }

    fn fault(page: &[u8]) -> String {
        listing(page).expect_err("a fault").to_string()
    }

    #[test]
    fn the_first_of_each_number_is_kept() {
        let kept = listing(&page(&[
            (10, " A=1"),
            (10, " A=2"),
            (10, " A=3"),
            (20, " END"),
        ]))
        .expect("a listing");
        assert_eq!(kept.listing, "10 A=1\r\n20 END\r\n");
        let [(first, others)] = &kept.doubles[..] else {
            panic!("one line stands more than once");
        };
        assert_eq!((first.at, first.typed().as_str()), (0, "10 A=1"));
        let others: Vec<(usize, String)> = others
            .iter()
            .map(|other| (other.at, other.typed()))
            .collect();
        assert_eq!(
            others,
            [(8, "10 A=2".to_string()), (16, "10 A=3".to_string())]
        );
    }

    #[test]
    fn a_page_without_doubles_is_listed() {
        let kept = listing(&[255, 255]).expect("a listing");
        assert_eq!(
            (kept.listing.as_str(), kept.lines, kept.doubles.len()),
            ("", 0, 0)
        );
        let full: Vec<(u16, &str)> = (0..511).map(|number| (number, " A=1")).collect();
        let bytes = page(&full);
        assert_eq!(listing(&bytes[..4090]).expect("a listing").lines, 511);
    }

    #[test]
    fn other_faults_are_named_with_their_position() {
        assert_eq!(
            fault(&[255]),
            "at 0: a page has 2 to 4,096 bytes, and these are 1"
        );
        assert_eq!(
            fault(&[0; 4097]),
            "at 0: a page has 2 to 4,096 bytes, and these are 4097"
        );
        assert_eq!(
            fault(&[0, 10, 7, 32, 65]),
            "at 2: 7 cannot be the length of line 10"
        );
        assert_eq!(
            fault(&[0, 10, 4, 13, 255, 255]),
            "at 2: 4 cannot be the length of line 10"
        );
        assert_eq!(
            fault(&[128, 0, 8, 32, 65]),
            "at 0: 32768 is no line number: the highest is 32767"
        );
        let good = page(&[(10, " A=1"), (20, " END")]);
        assert_eq!(
            fault(&good[..16]),
            "at 16: the page ends here, without the end mark 255 255"
        );
        assert_eq!(
            fault(&good[..17]),
            "at 16: the page ends here, without the end mark 255 255"
        );
        let with =
            |at: usize, byte: u8| fault(&[&good[..at], &[byte][..], &good[at + 1..]].concat());
        assert_eq!(
            with(7, 10),
            "at 7: line 10: it ends in byte 10, and not in CR (13)"
        );
        assert_eq!(
            with(4, b'_'),
            "at 4: line 10: byte 95 cannot stand in a line"
        );
        assert_eq!(with(3, b'1'), "at 3: line 10: its text begins with a digit");
        assert_eq!(with(9, 5), "at 8: line 5 stands behind line 10");
        assert_eq!(
            with(13, b'M'),
            "at 13: line 20 is refused, 5: over-long or no reading: 20 EMD"
        );
        assert_eq!(
            with(5, b':'),
            "at 5: line 10 is refused, 5: over-long or no reading: 10 A:1"
        );
        let long = format!(" REM {}", "X".repeat(66));
        assert_eq!(
            fault(&page(&[(10, &long)])),
            "at 0: line 10 has 73 bytes, and 72 are the most"
        );
    }
}
