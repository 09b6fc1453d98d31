//! Document 02, item 1: words that are written together.

mod gate;

use gate::{fresh_out, fresh_stop, Gate};
use model::line::{read_line, Command, LineNumber, TypedLine};
use model::random::lines::kept;
use model::random::texts::{Scribe, Setting};
use model::random::{Random, Size};
use model::reader::read_reply;
use model::rules::{RULES, TOGETHER};
use model::tree::Tree;
use model::words::{Word, Words};

#[rustfmt::skip]
const KEYWORDS: [&str; 25] = [
    "LET", "GO", "TO", "SUB", "GOTO", "GOSUB", "RETURN", "PR", "PRINT", "IF", "THEN", "DO", "UNTIL",
    "FOR", "STEP", "NEXT", "INPUT", "REM", "END", "STAT", "TOP", "MOD", "AND", "OR", "NOT",
];
const COMMANDS: [&str; 4] = ["NEW", "CLEAR", "LIST", "RUN"];

/// A line's reading, without positions: what it is, and its tree.
fn reading(line: &str) -> Option<String> {
    let mut tree = Tree::default();
    let kind = match read_line(&mut tree, line.as_bytes())? {
        TypedLine::Blank => "blank".to_string(),
        TypedLine::Delete(number) => format!("delete {number:?}"),
        TypedLine::Store(number, _) => format!("store {number:?}"),
        TypedLine::Command(command) => format!("{command:?}"),
        TypedLine::Statement(id) => format!("{id:?}"),
    };
    Some(format!("{kind} {tree:?}"))
}

fn all_alike(lines: &[(&str, &str)]) {
    for (together, apart) in lines {
        assert!(reading(apart).is_some(), "{apart}");
        assert_eq!(reading(together), reading(apart), "{together}");
    }
}

fn none_has_a_reading(lines: &[&str]) {
    for line in lines {
        assert_eq!(reading(line), None, "{line}");
    }
}

#[test]
fn keywords_touch_what_follows() {
    all_alike(&[
        ("IFA>B GOTOX", "IF A>B GOTO X"),
        ("PRINTA", "PRINT A"),
        ("REMARK", "REM ARK"),
        ("GOTOP", "GOTO P"),
        ("GOSUBS", "GO SUB S"),
        ("PRI", "PR I"),
        ("PRINTTOP", "PRINT TOP"),
        ("PRSTAT", "PR STAT"),
        ("LETSTAT=NOTNOTA", "LET STAT=NOT NOT A"),
        (
            "IFNOTA IFMOD(A,2)THENRETURN",
            "IF NOT A IF MOD(A,2) THEN RETURN",
        ),
        ("A=STATORTOPANDNOTB", "A=STAT OR TOP AND NOT B"),
        ("10FORI=1TO9STEPS:NEXTI", "10 FOR I=1 TO 9 STEP S:NEXT I"),
        ("10DO:UNTILNOT@A", "10 DO:UNTIL NOT @A"),
        ("10INPUTA,B:INPUT$5", "10 INPUT A,B:INPUT $5"),
        ("10IF1IF2THENIFA END", "10 IF 1 IF 2 THEN IF A END"),
        ("10 FOR I=1TOB", "10 FOR I=1 TO B"),
    ]);
}

#[test]
fn rule_lines_are_the_same_together_and_apart() {
    for (apart, together) in RULES.iter().zip(TOGETHER) {
        all_alike(&[(&format!("10{together}"), &format!("10{apart}"))]);
    }
}

#[test]
fn the_longest_is_taken_also_where_a_shorter_one_would_do() {
    none_has_a_reading(&["10 FOR I=1TOP", "10 FOR I=1TOP+1", "GO TOP", "PRIN"]);
    all_alike(&[
        ("GOTOTOP", "GOTO TOP"),
        ("10 FOR I=1TOTOP", "10 FOR I=1 TO TOP"),
        ("IF 1 THENEND", "IF 1 THEN END"),
    ]);
}

#[test]
fn a_letter_before_a_letter_is_no_variable() {
    none_has_a_reading(&[
        "AANDB",
        "A=AANDB",
        "IFADO",
        "IFAEND",
        "IFA>BGOTOX",
        "A=BORC",
        "A=AA",
        "AB=1",
        "PRINTAA",
        "PRINTAB",
        "NEXTII",
        "10 FORI=ATOB",
        "10 NEXTIJ",
        "10 INPUTAB",
        "10 INPUTA,BC",
        "XPRINT 1",
    ]);
    all_alike(&[
        ("A=B ORC", "A=B OR C"),
        ("A=(B)ORC", "A=(B) OR C"),
        ("IFA END", "IF A END"),
    ]);
}

#[test]
fn constants_come_first() {
    none_has_a_reading(&["PRINT #5AND 3", "PRINT#5ANDB", "PRINT #", "PRINT#G"]);
    all_alike(&[
        ("PRINT#1FORB", "PRINT #1F OR B"),
        ("PRINT#1ORB", "PRINT #1 OR B"),
        ("PRINT#5 ANDB", "PRINT #5 AND B"),
        ("PRINT5ANDB", "PRINT 5 AND B"),
        ("A=1ORB", "A=1 OR B"),
        ("10FORI=#ATO#BSTEP#C", "10 FOR I=#A TO #B STEP #C"),
    ]);
}

#[test]
fn commands_stand_at_the_front_alone() {
    let list = |number| Some(TypedLine::Command(Command::List(LineNumber(number))));
    for (line, number) in [("LIST10", 10), ("LIST 10", 10), (" LIST", 0)] {
        assert_eq!(
            read_line(&mut Tree::default(), line.as_bytes()),
            list(number)
        );
    }
    none_has_a_reading(&[
        "RUNX",
        "LISTA",
        "LISTTOP",
        "NEWA=1",
        "NEWS",
        "CLEARA",
        "RUNRUN",
        "NEWLIST",
        "RUNEND",
        "NE",
        "LIS",
        "CLEA",
        "RU",
        "10 RUN",
        "10LIST",
        "IF1RUN",
        "IF 1 THENNEW",
        "PRINTRUN",
        "A=NEW",
    ]);
}

#[test]
fn what_lines_written_together_do() {
    let mut gate = Gate::with(&[
        "10REMARK",
        "20FORI=1TO3:PRINTI;:NEXTI",
        "30IFI=4GOTO50",
        "50END",
    ]);
    let reply = gate.line("RUN");
    assert_eq!((reply.stop, reply.line), (20, Some(50)));
    assert_eq!(reply.out, " 1  2  3 ");
    assert_eq!(gate.out("LIST30"), "30IFI=4GOTO50\r\n50END\r\n");
    assert_eq!(fresh_out("PRINTNOT0"), "-1 ");
    assert_eq!(fresh_out("PRI"), " 0 ");
    assert_eq!(fresh_stop("GOTOP"), 8);
    assert_eq!(fresh_stop("IFA>B GOTOX"), 0);
    assert_eq!(fresh_stop("FORI=1TO2"), 3);
    assert_eq!(fresh_stop("DO"), 3);
    assert_eq!(fresh_stop("DOA"), 5);
}

#[test]
fn stored_texts_follow_the_rule() {
    let stop_on = |text: &str| {
        let mut gate = Gate::new();
        let record = [
            &[0, 10, text.len() as u8 + 4],
            text.as_bytes(),
            &[13, 255, 255],
        ]
        .concat();
        gate.page[..record.len()].copy_from_slice(&record);
        gate.stop("")
    };
    for text in [
        "PRINTA",
        "REMARK",
        "IFA>B GOTOX",
        "GOTOP",
        "FORI=1TO9:NEXTI",
        "A=STATORB",
    ] {
        assert_eq!(stop_on(text), 0, "{text}");
    }
    for text in [
        "A=AANDB",
        "AANDB",
        "FORI=1TOP",
        "PRIN",
        "NEWA=1",
        "IFADO",
        "GO TOP",
        "RUN",
    ] {
        assert_eq!(stop_on(text), 18, "{text}");
    }
}

#[test]
fn replies_follow_the_rule() {
    let given = |reply: &str| {
        let mut gate = Gate::with(&["10INPUTA,B"]);
        gate.record.variables[2] = 5;
        gate.feed(&["GOTO10", reply]).stop
    };
    for reply in [
        "NOTC,NOTNOTC",
        "1ORC,TOPANDC",
        "STATORTOP,C",
        "1,C,AANDB",
        "C ANDC,(C)ANDC",
    ] {
        assert_eq!(given(reply), 0, "{reply}");
    }
    for reply in [
        "CANDC,1",
        "1,CC",
        "1,CORC",
        "1,PRIN",
        "1,RUN",
        "1ORCOR2,3",
        "#5ANDC,1",
        "TOPC,1",
    ] {
        assert_eq!(given(reply), 6, "{reply}");
    }
}

/// The words that stand at a text's front by the rule's own words: of all
/// keywords that begin there the longest, else a single letter.
fn longest(text: &str) -> Option<usize> {
    let begins = KEYWORDS.iter().filter(|word| text.starts_with(**word));
    let alone = text.len() == 1 || !text.as_bytes()[1].is_ascii_uppercase();
    begins.map(|word| word.len()).max().or(alone.then_some(1))
}

#[test]
fn every_two_keywords_and_every_letter_behind_one() {
    let letters = ('A'..='Z').map(String::from);
    let seconds: Vec<String> = KEYWORDS
        .iter()
        .map(|word| word.to_string())
        .chain(letters)
        .collect();
    let cuts = KEYWORDS
        .iter()
        .flat_map(|word| (1..=word.len()).map(|cut| word[..cut].to_string()));
    for first in cuts {
        for text in seconds.iter().map(|second| format!("{first}{second}")) {
            let mut words = Words::new(text.as_bytes());
            let found = words.next_word().1 != Word::Nothing;
            assert_eq!(found.then(|| words.position()), longest(&text), "{text}");
        }
    }
}

/// Document 01's rule: a run of capitals is one word. The line with a space
/// behind each of its words, or `None` where a run is none.
fn by_one_word(line: &str, commands: bool) -> Option<String> {
    let mut apart = String::new();
    let mut rest = line.trim_start_matches(' ');
    let immediate = commands && !rest.starts_with(|first: char| first.is_ascii_digit());
    while !rest.is_empty() {
        let run = rest.trim_start_matches(|byte: char| byte.is_ascii_uppercase());
        let run = &rest[..rest.len() - run.len()];
        let word = match run.len() {
            0 => other_word(rest)?,
            1 => run,
            _ if KEYWORDS.contains(&run) => run,
            _ if immediate && apart.is_empty() && COMMANDS.contains(&run) => run,
            _ => return None,
        };
        if word == "REM" {
            return Some(apart + rest);
        }
        apart = apart + word + " ";
        rest = rest[word.len()..].trim_start_matches(' ');
    }
    Some(apart)
}

/// The word that a text begins with, if that is no letter.
fn other_word(text: &str) -> Option<&str> {
    let mut words = Words::new(text.as_bytes());
    let found = words.next_word().1 != Word::Nothing;
    found.then(|| &text[..words.position()])
}

/// Both rules read a line alike whose words are all apart. So a line keeps its
/// reading if it has that of its words apart.
#[test]
fn every_line_that_had_a_reading_keeps_it() {
    let mut random = Random::new(1976);
    let (mut kept_readings, mut gained, mut none) = (0, 0, 0);
    for round in 0..60_000 {
        let line = kept(&mut random, [Size::Small, Size::Full][round % 2]);
        let Ok(line) = String::from_utf8(line) else {
            continue;
        };
        let before = by_one_word(&line, true).and_then(|apart| reading(&apart));
        match (before, reading(&line)) {
            (None, None) => none += 1,
            (None, Some(_)) => gained += 1,
            (before, now) => {
                assert_eq!(before, now, "{line}");
                kept_readings += 1;
            }
        }
    }
    let counts = [kept_readings, gained, none];
    assert!(counts.iter().all(|&count| count > 3_000), "{counts:?}");
}

/// A reply up to the comma that ends the part that is needed for so many
/// variables; no rule looks at a word behind it.
fn needed(reply: &str, variables: usize) -> &str {
    let (mut open, mut left) = (0, variables);
    for (at, byte) in reply.bytes().enumerate() {
        match byte {
            b'(' => open += 1,
            b')' => open -= 1,
            b',' if open == 0 => left -= 1,
            _ => {}
        }
        if left == 0 {
            return &reply[..=at];
        }
    }
    reply
}

#[test]
fn every_reply_that_had_a_reading_keeps_it() {
    let read = |text: &str, count| {
        let mut tree = Tree::default();
        read_reply(&mut tree, text.as_bytes(), count).map(|ids| format!("{ids:?} {tree:?}"))
    };
    let mut random = Random::new(1977);
    let setting = Setting {
        size: Size::Full,
        lines: &[],
        memory: 64,
    };
    let mut same = 0;
    for _ in 0..20_000 {
        let mut scribe = Scribe::new(&mut random, setting);
        scribe.reply();
        let reply = scribe.finish();
        for count in 1..=3 {
            let part = needed(&reply, count);
            let before = by_one_word(part, false).and_then(|apart| read(&apart, count));
            if before.is_some() {
                assert_eq!(before, read(&reply, count), "{reply}");
                same += 1;
            }
        }
    }
    assert!(same > 3_000, "{same}");
}
