//! Pages of ordinary rule lines, to measure on.

use crate::line::LineNumber;
use crate::page::{read_page, store, END_MARK};

/// Ordinary rule lines; the first is the shortest.
pub const RULES: [&str; 6] = [
    " A=A+1",
    " IF @(C+2)>M-5 THEN GOSUB 900: GOTO 40",
    " FOR I=1 TO 8: T=T+@(I*2): NEXT I",
    " PRINT \"COW\",C,\" GATE \",STAT AND 3;: REM OPEN: SHUT",
    " DO: N=N+2: UNTIL (MOD(I,N)=0) OR (N>J)",
    " $600=\"WAIT: FULL\": IF A<>#1F STAT=STAT OR 4",
];

/// The same with their words written together.
pub const TOGETHER: [&str; 6] = [
    "A=A+1",
    "IF@(C+2)>M-5THENGOSUB900:GOTO40",
    "FORI=1TO8:T=T+@(I*2):NEXTI",
    "PRINT\"COW\",C,\" GATE \",STATAND3;:REMOPEN: SHUT",
    "DO:N=N+2:UNTIL(MOD(I,N)=0)OR(N>J)",
    "$600=\"WAIT: FULL\":IFA<>#1FSTAT=STATOR4",
];

pub fn empty_page(length: usize) -> Vec<u8> {
    let mut page = vec![0; length];
    page[..2].copy_from_slice(&END_MARK);
    page
}

/// A page of 4,096 bytes filled with these texts in turn, as long as they fit.
pub fn full_page(texts: &[&str]) -> Vec<u8> {
    let mut page = empty_page(4096);
    for (number, text) in (0..).step_by(10).zip(texts.iter().cycle()) {
        let program = read_page(&page).expect("a sound page");
        if !store(&mut page, &program, LineNumber(number), text.as_bytes()) {
            break;
        }
    }
    page
}
