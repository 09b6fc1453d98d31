//! Words and lines at the edges of the rules: each as an immediate line, in one, in a line to store, and as a reply.

use super::{typed, Visit};
use model::random::lines::kept;
use model::random::pages::Lines;
use model::random::texts::{Scribe, Setting};
use model::random::{Random, Size};

const KEYWORDS: [&str; 25] = [
    "LET", "GO", "TO", "SUB", "GOTO", "GOSUB", "RETURN", "PR", "PRINT", "IF", "THEN", "DO",
    "UNTIL", "FOR", "STEP", "NEXT", "INPUT", "REM", "END", "STAT", "TOP", "MOD", "AND", "OR",
    "NOT",
];

const COMMANDS: [&str; 4] = ["NEW", "CLEAR", "LIST", "RUN"];

/// Whole lines.
const LINES: &str = "\
    | |0|00000|7|  7  |32767|32768|032767 |99999 END|32767 END|32768 END|10RUN|10 RUN|10 NEW|10 CLEAR|10 LIST|\
    10 LIST 5|10 10 END|#10 END|10#10|NEW| NEW |NEW 1|CLEAR|CLEAR:|RUN|RUN 10|RUNS|RUN:RUN|LIST|LIST 7|LIST7|\
    LIST #7|LIST 32767|LIST 32768|LIST 1 2|LIST A|LIST,|LISTA|LET LIST=1|A=1:B=2|A=1:|10 A=1:|10:END|10 END::END|\
    10 END:REM :A:\"|10 PRINT \"A:B\":END|10 PRINT \"A:B|IF 1 IF 2 THEN NEXT A|IF 1 IF 2 THEN A=1|IF 1 NEW|\
    INPUT A,B|INPUT $7|REM DO|DO|\
    IFA>B GOTOX|IFA>BGOTOX|IFA>1GOTOX|PRINTA|PRINTAA|REMARK|10REMARK:A|GOTOP|GO TOP|GO TO P|GOTOTOP|PRI|PRIN|PRINTTOP|\
    AANDB|A=AANDB|A=A ANDB|A=(A)ANDB|IFADO|IFA DO|IFAEND|IF1END|IF1THENEND|A=BORC|A=B ORC|A=STATORTOPANDNOTB|\
    FOR I=1TOP|10FOR I=1TOP|10FORI=1TO P|10FORI=1TOB|10FORI=ATOB|10FORI=#ATO#BSTEP#C|10NEXTI|10NEXTIJ|10INPUTA,B|\
    10INPUTAB|PRINT#5AND 3|PRINT#5ANDB|PRINT#1FORB|PRINT#1ORB|NEWA=1|NEWNEW|RUNX|RUNEND|LISTA|LISTTOP|LIST10|CLEARA|\
    10NEWA=1|IF1RUN|PRINTRUN|LETSTAT=NOTNOTA|GOSUBNOT0";

/// Every keyword and command, whole, cut, lengthened to seven letters and more, misspelt, and with neighbours that touch it or
/// do not.
fn near_keywords(texts: &mut Vec<String>) {
    for word in KEYWORDS.iter().chain(&COMMANDS) {
        let last = word.len() - 1;
        texts.extend((0..=last).map(|cut| word[..cut].to_string()));
        texts.extend((1..=last).map(|cut| word[cut..].to_string()));
        texts.extend(
            ["", "S", "7", " 7", "\"", "(", "=A", "#1", "_", "a"].map(|s| format!("{word}{s}")),
        );
        texts.extend(["A", "7", "#1", "#1G", " ", "  ", "\t", "<"].map(|s| format!("{s}{word}")));
        texts.extend((1..8).map(|n| format!("{word}{}", "A".repeat(n))));
        texts.extend([word.to_lowercase(), format!("{}@", &word[..last])]);
        texts.extend(KEYWORDS.map(|other| format!("{word}{other}")));
        texts.extend(letters().flat_map(|c| [format!("{word}{c}"), format!("{word}{c}=1")]));
        texts.extend(["A", "1", "P=1", " A"].map(|s| format!("{word}NOT{s}")));
        texts.extend(["B", "B C", "1", "NOTB"].map(|s| format!("A {word}{s}")));
    }
}

fn letters() -> impl Iterator<Item = char> {
    (b'A'..=b'Z').map(char::from)
}

#[rustfmt::skip]
const CONSTANTS: [u64; 17] = [
    0, 1, 9, 10, 32_766, 32_767, 32_768, 32_769, 65_535, 65_536, 98_303, 327_670, 4_294_967_295, 4_294_967_296,
    4_295_000_063, 42_949_672_970, u64::MAX,
];

fn constants(texts: &mut Vec<String>) {
    for value in CONSTANTS {
        for zeros in ["", "0", "00000000000000000000"] {
            texts.extend(["", " 1", "A", ".5"].map(|s| format!("{zeros}{value}{s}")));
        }
        for zeros in ["", "0", "000", "F0000"] {
            texts.extend(["", " 1", "G", "a"].map(|s| format!("#{zeros}{value:X}{s}")));
        }
    }
    let hex = "0123456789ABCDEFFEDCBA98765432100FEDCBA98";
    texts.extend((1..40).map(|n| format!("#{}", &hex[..n])));
    texts.extend((1..40).map(|n| "1".repeat(n)));
    texts.extend(["#", "##1", "# 1", "#G", "#-1", "1#1", "12 34", "1E4"].map(String::from));
}

/// Runs of capitals of every length up to a line's, and all of two.
fn runs(texts: &mut Vec<String>) {
    texts.extend(letters().flat_map(|a| letters().map(move |b| format!("{a}{b}"))));
    texts.extend((0..=72).map(|n| "Z".repeat(n)));
    texts.extend((0..=72).map(|n| format!("{}A{}", " ".repeat(n), " ".repeat(72 - n))));
}

/// Texts of bytes that may be no text bytes: each alone, in a string, before a string's end, and beside another mark.
fn bytes(texts: &mut Vec<Vec<u8>>) {
    for byte in 0..=255 {
        texts.push(vec![byte]);
        texts.push(vec![b' ', byte, b'A']);
        texts.push(vec![b'"', byte, b'"', b'A']);
        texts.push(vec![b'"', b'O', b'K', byte]);
        texts.push(vec![b'A', byte]);
        texts.push(vec![b'7', byte]);
    }
    let marks = || (32..127u8).filter(|byte| !byte.is_ascii_alphanumeric());
    texts.extend(marks().flat_map(|a| marks().map(move |b| vec![a, b, b'"'])));
}

/// Lines and replies that mostly have a reading.
fn readable(texts: &mut Vec<Vec<u8>>) {
    let mut random = Random::new(1976);
    texts.extend((0..3000).map(|_| kept(&mut random, Size::Full)));
    for _ in 0..600 {
        let setting = Setting {
            size: Size::Small,
            lines: &[],
            memory: 64,
        };
        let mut scribe = Scribe::new(&mut random, setting);
        scribe.reply();
        texts.push(scribe.finish().into_bytes());
    }
}

fn texts() -> Vec<Vec<u8>> {
    let mut plain: Vec<String> = LINES.split('|').map(String::from).collect();
    near_keywords(&mut plain);
    constants(&mut plain);
    runs(&mut plain);
    let mut texts: Vec<Vec<u8>> = plain.into_iter().map(String::into_bytes).collect();
    bytes(&mut texts);
    readable(&mut texts);
    texts
}

/// What stands before a text: it is a line, or a part of one, or the reply to a line 10 for one, two or three values or
/// for a string.
const FRONTS: [(&str, &str); 12] = [
    ("", ""),
    ("", "PRINT "),
    ("", "A="),
    ("", "10"),
    ("", "10 IF 1 PRINT "),
    ("", "PRINT"),
    ("", "IFA"),
    ("", "10FORI=1"),
    ("INPUT A:PRINT A", "RUN\r"),
    ("INPUT A,B:PRINT A,B", "RUN\r"),
    ("INPUT A,B,C:PRINT A+B+C", "RUN\r"),
    ("INPUT $3", "RUN\r"),
];

pub fn each(visit: &mut Visit) {
    for text in texts() {
        for (line, front) in FRONTS {
            let mut lines: Lines = vec![(20, "END".to_string())];
            if !line.is_empty() {
                lines.insert(0, (10, line.to_string()));
            }
            let mut case = typed(&lines, &[front.as_bytes(), &text, b"\r"].concat());
            case.page.resize(150, 0); // room for a line more
            visit(case, 0);
        }
    }
}
