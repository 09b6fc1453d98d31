//! Where document 01 leaves a choice: one test for each reading taken.

mod gate;

use gate::{fresh_out, fresh_stop, run, Gate};
use model::{continue_run, take_line, Pause, Place};

/// Each of these lines answers with this stop in a fresh session.
fn all_stop(stop: u8, lines: &[&str]) {
    for line in lines {
        assert_eq!(fresh_stop(line), stop, "{line}");
    }
}

// Answers

#[test]
fn a_depth_of_200_is_19() {
    let mut gate = Gate::new();
    gate.record.gosubs.depth = 200;
    assert_eq!(gate.stop("CLEAR"), 19);
}

#[test]
fn a_typed_start_does_not_hide_the_line() {
    for start in ["RUN", "GOTO 10", "GOSUB 10"] {
        let reply = Gate::with(&["10 A=1/0"]).line(start);
        assert_eq!((reply.stop, reply.line, reply.steps), (13, Some(10), 1));
    }
    let mut gate = Gate::with(&["10 GOSUB 20:A=1/0", "20 END"]);
    assert_eq!(gate.line("RUN").stop, 20);
    let reply = gate.line("RETURN");
    assert_eq!((reply.stop, reply.line, reply.steps), (13, Some(10), 1));
}

#[test]
fn continue_needs_no_input() {
    let mut gate = Gate::with(&["10 PRINT 1;"]);
    gate.record.paused = Some(Pause::Start);
    assert_eq!(gate.call(b"", continue_run).out, " 1 ");
}

#[test]
fn a_pause_checks_the_page_even_when_there_is_none() {
    let mut gate = Gate::new();
    gate.page[1] = 0;
    assert_eq!(gate.go_on().stop, 18);
}

// Places

#[test]
fn the_colon_itself_is_the_place() {
    let mut gate = Gate::with(&["10 DO  :UNTIL 1"]);
    gate.budget = 1;
    assert_eq!(gate.line("RUN").stop, 14);
    let colon = Place(8);
    assert_eq!(gate.page[8], b':');
    assert_eq!(gate.record.dos.top(), Some(colon));
    assert_eq!(gate.record.paused, Some(Pause::After(colon)));
    // The spaces before it, and the text's first byte, are no places.
    for other in [3, 6, 7, 9] {
        gate.record.paused = Some(Pause::After(Place(other)));
        assert_eq!(gate.go_on().stop, 19);
    }
}

#[test]
fn colons_in_strings_and_remarks_are_no_places() {
    let mut gate = Gate::with(&["10 PRINT\":\":REM:"]);
    let places: Vec<u16> = (0..=512)
        .filter(|&place| {
            gate.record.paused = Some(Pause::After(Place(place)));
            gate.go_on().stop != 19
        })
        .collect();
    let text = &gate.page[3..];
    assert_eq!(&text[..14], b" PRINT\":\":REM:");
    assert_eq!(places, [12, 17]);
}

#[test]
fn where_a_run_pauses() {
    let pause_after = |typed: &str, budget: u32| {
        let mut gate = Gate::with(&["10 A=1", "20 IF 0 A=1:A=2", "30 GOTO 20"]);
        gate.budget = budget;
        assert_eq!(gate.line(typed).stop, 14);
        gate.record.paused
    };
    let ten = Some(Pause::After(Place(7)));
    let twenty = Some(Pause::After(Place(24)));
    assert_eq!(pause_after("RUN", 0), Some(Pause::Start));
    assert_eq!(pause_after("GOTO 10", 0), Some(Pause::Start));
    assert_eq!(pause_after("GOTO 20", 0), ten);
    assert_eq!(pause_after("RUN", 1), ten);
    assert_eq!(pause_after("RUN", 2), twenty);
    assert_eq!(pause_after("RUN", 3), ten);
}

#[test]
fn pauses_with_nothing_left_fit() {
    let mut gate = Gate::new();
    gate.record.paused = Some(Pause::Start);
    let reply = gate.go_on();
    assert_eq!((reply.stop, reply.steps), (0, 0));
    let mut gate = Gate::with(&["10 END"]);
    gate.record.paused = Some(Pause::After(Place(7)));
    let reply = gate.go_on();
    assert_eq!((reply.stop, reply.steps, gate.record.paused), (0, 0, None));
}

#[test]
fn a_push_overwrites_one_slot() {
    let mut gate = Gate::with(&["10 GOSUB 20", "20 END"]);
    gate.record.gosubs.places = [Place(1); 8];
    gate.line("RUN");
    assert_eq!(gate.record.gosubs.depth, 1);
    assert_eq!(gate.record.gosubs.places[0], Place(12));
    assert_eq!(gate.record.gosubs.places[1..], [Place(1); 7]);
    gate.line("CLEAR");
    assert_eq!(gate.record.gosubs.depth, 0);
    assert_eq!(gate.record.gosubs.places[0], Place(12));
}

// Typing

#[test]
fn only_21_clears_over_long() {
    let full = format!("REM{}", " ".repeat(69));
    assert_eq!(fresh_stop(&full), 0);
    assert_eq!(fresh_stop(&format!("{full}X_")), 5);
    assert_eq!(fresh_stop(&format!("{full}X___________")), 5);
    assert_eq!(fresh_stop(&format!("{full}_X")), 0);
    let cleared = Gate::new().line(&format!("{full}XYZ\u{15}PRINT 1;"));
    assert_eq!((cleared.stop, cleared.out.as_str()), (0, " 1 "));
    let zeros = "\0\n".repeat(50);
    assert_eq!(fresh_stop(&format!("{zeros}{full}{zeros}")), 0);
}

#[test]
fn erasing() {
    assert_eq!(Gate::new().out("PRINT 12_\0\n_3;"), " 3 ");
    assert_eq!(Gate::new().out("___PRINT \"AB_C\";"), "AC");
    assert_eq!(Gate::new().out("PRINT 1\u{15}PRINT 2;"), " 2 ");
    assert_eq!(Gate::new().out("\u{15}\u{15}_PRINT 2;"), " 2 ");
}

#[test]
fn bytes_that_are_no_text() {
    let fresh = |input: &[u8]| Gate::new().call(input, take_line).stop;
    let lines: [&[u8]; 7] = [
        b"PRINT \"\x09\"\r",
        b"REM \x7f\r",
        b"REM \x80\r",
        b"10\x09\r",
        b"10 REM \xff\r",
        b"\x09\r",
        b"PRINT\x091\r",
    ];
    for line in lines {
        assert_eq!(fresh(line), 5, "{line:?}");
    }
    assert_eq!(fresh(b"PRINT \"~|a\"\r"), 0);
}

#[test]
fn line_numbers() {
    let mut gate = Gate::with(&["0010 END", "  7 END ", "0 END"]);
    assert_eq!(gate.out("LIST"), "0 END\r\n7 END \r\n10 END\r\n");
    for typed in ["99999", "10 20 END", "10 20", "32768", "1 2"] {
        assert_eq!(gate.stop(typed), 5, "{typed}");
    }
    assert_eq!(gate.stop(&format!("{}7", "0".repeat(71))), 0);
    assert_eq!(gate.out("LIST"), "0 END\r\n10 END\r\n");
}

#[test]
fn stored_text_keeps_its_spaces() {
    let gate = Gate::with(&["  10   A = 1  "]);
    assert_eq!(gate.used(), b"\0\x0a\x0e   A = 1  \r\xff\xff");
    let gate = Gate::with(&["10A=1"]);
    assert_eq!(gate.used(), b"\0\x0a\x07A=1\r\xff\xff");
}

#[test]
fn which_edits_clear_the_stacks() {
    let edited = |typed: &str| {
        let mut gate = Gate::with(&["10 GOSUB 20", "20 DO:FOR I=1 TO 2:END"]);
        assert_eq!(gate.line("RUN").stop, 20);
        gate.line(typed);
        let record = &gate.record;
        assert_eq!(record.gosubs.depth, record.dos.depth);
        assert_eq!(record.gosubs.depth, record.fors.depth);
        record.gosubs.depth
    };
    for typed in ["10", "10  ", "10 GOSUB 20", "30 END", "NEW", "CLEAR"] {
        assert_eq!(edited(typed), 0, "{typed}");
    }
    for typed in ["", "30", "30  ", "LIST", "30 NONSENSE", "A=1"] {
        assert_eq!(edited(typed), 1, "{typed}");
    }
}

#[test]
fn new_writes_two_bytes() {
    let mut gate = Gate::with(&["10 PRINT 1"]);
    gate.stop("A=5");
    gate.stop("STAT=3");
    let mut expected = gate.page.clone();
    expected[..2].fill(255);
    assert_eq!(gate.stop("NEW"), 0);
    assert_eq!(gate.page, expected);
    assert_eq!((gate.variable('A'), gate.record.flags), (5, 3));
    assert_eq!(gate.stop("CLEAR"), 0);
    assert_eq!((gate.variable('A'), gate.record.flags), (0, 3));
    gate.stop("A=5");
    assert_eq!(gate.stop("RUN"), 0);
    assert_eq!((gate.variable('A'), gate.record.flags), (0, 3));
}

#[test]
fn bytes_after_the_end_mark_hold() {
    let mut gate = Gate::with(&["10 PRINT 1", "20 END"]);
    gate.page[22..].fill(77);
    let before = gate.page.clone();
    gate.stop("10");
    assert_eq!(gate.used(), b"\0\x14\x08 END\r\xff\xff");
    assert_eq!(gate.page[10..], before[10..]);
}

#[test]
fn listing() {
    let mut gate = Gate::with(&["5 A=1", "100 END"]);
    assert_eq!(gate.out("LIST 5"), "5 A=1\r\n100 END\r\n");
    assert_eq!(gate.out("LIST6"), "100 END\r\n");
    assert_eq!(gate.out("LIST 101"), "");
    assert_eq!(gate.out("  LIST 32767  "), "");
    all_stop(
        5,
        &[
            "LIST 32768",
            "LIST #5",
            "LIST A",
            "LIST 1+1",
            "LIST 1 2",
            "LIST:",
        ],
    );
}

// Words

#[test]
fn nothing_is_split_again() {
    all_stop(
        5,
        &[
            "PRINT #5AND 3",
            "PRINT #",
            "PRINT # 5",
            "FOR I=1TOP",
            "GO TOP",
            "PRIN",
        ],
    );
    assert_eq!(fresh_out("PRINT #1FOR 2"), " 31 ");
    assert_eq!(fresh_out("PRINT#5 AND 3"), " 1 ");
    assert_eq!(fresh_out("PRINT1"), " 1 ");
    assert_eq!(fresh_out("PRINT #FFFFF"), "-1 ");
    let mut gate = Gate::with(&["10 FOR I=1TO2STEP3"]);
    assert_eq!(gate.out("LIST10"), "10 FOR I=1TO2STEP3\r\n");
}

#[test]
fn pairs_are_one_word() {
    all_stop(
        5,
        &[
            "PRINT 1< =2",
            "PRINT 1=<2",
            "PRINT 1=>2",
            "PRINT 1><2",
            "PRINT 1<>=2",
        ],
    );
    assert_eq!(fresh_out("PRINT 1<=2,2>=3,1<>1"), " 1  0  0 ");
}

#[test]
fn commands_stand_at_the_front_only() {
    let lines = [
        "10 LIST",
        "10 RUN",
        "10 NEW",
        "10 CLEAR",
        "IF 1 THEN RUN",
        "IF 1 LIST",
        "NEW 1",
        "RUN 10",
        "CLEAR A",
        "LET NEW",
        "RUN:RUN",
        "NEWS",
        "CLEAR:",
    ];
    all_stop(5, &lines);
    all_stop(0, &["  RUN", " NEW ", "CLEAR  ", "LIST"]);
    let mut gate = Gate::with(&["10 INPUT A"]);
    assert_eq!(gate.feed(&["RUN", "RUN"]).stop, 6);
}

#[test]
fn empty_strings_and_remarks() {
    assert_eq!(fresh_out("PRINT \"\""), "");
    all_stop(0, &["REM", "REM1", "REM:", "REM \"", "REM A:B", "REM#X"]);
    all_stop(5, &["PRINT \"", "PRINT \"A", "PRINT \"A\"B\""]);
}

#[test]
fn print_lists() {
    all_stop(
        5,
        &[
            "PRINT",
            "PR",
            "PRINT 1,",
            "PRINT 1;2",
            "PRINT ;",
            "PRINT 1;;",
            "PRINT ,1",
        ],
    );
    assert_eq!(Gate::new().out("PR 1 ;"), " 1 ");
    assert_eq!(Gate::new().out("PR \"A\",\"B\""), "AB\r\n");
}

#[test]
fn signs_stand_at_a_sums_front() {
    let refused = [
        "PRINT 2*-3",
        "PRINT 2--3",
        "PRINT NOT -1",
        "PRINT @-1",
        "PRINT 2+-3",
        "PRINT --1",
        "PRINT -",
        "@-1=0",
        "PRINT 2 AND -1",
    ];
    all_stop(5, &refused);
    assert_eq!(fresh_out("PRINT 1=-1,(-1),1<-1,+1"), " 0 -1  0  1 ");
}

#[test]
fn one_statement_in_an_immediate_line() {
    all_stop(5, &["A=1:B=2", "PRINT 1:", ":", "END:END"]);
    let mut gate = Gate::new();
    gate.stop("A=1:B=2");
    assert_eq!(gate.variable('A'), 0);
}

/// Each statement in each of its forms.
const FORMS: [&str; 7] = [
    "10 LET A=1:A=1:LET STAT=1:STAT=1:LET @0=1:@0=1",
    "10 LET $0=\"A\":$0=\"\":LET $0=$1:$0=$(1+2)",
    "10 GOTO 1:GO TO 1:GOSUB 1:GO SUB 1:GO  TO 1:RETURN",
    "10 PR 1:PRINT \"A\",$0,1=2;:IF A THEN B=1:IF A IF B END",
    "10 DO:UNTIL A:FOR I=1 TO 2 STEP 3:NEXT I:INPUT A:INPUT A,B,C",
    "10 INPUT $0:INPUT $@(A):END:REM",
    "10 A=MOD(1=2,3):B=@@0+NOT NOT @(1):C=TOP:D=STAT",
];

/// Forms that a statement or an expression does not have.
#[rustfmt::skip]
const NO_FORMS: [&str; 57] = [
    "10 LET", "10 LET GOTO 1", "10 GO 1", "10 GO", "10 SUB 1", "10 TO 1", "10 GOTO",
    "10 RETURN 1", "10 IF 1", "10 IF THEN END", "10 IF 1 THEN THEN END", "10 DO 1", "10 UNTIL",
    "10 FOR I TO 2", "10 FOR I=1", "10 FOR 1=1 TO 2", "10 FOR I=1 TO 2 STEP", "10 NEXT",
    "10 NEXT I,J", "10 NEXT 1", "10 INPUT", "10 INPUT 1", "10 INPUT A,", "10 INPUT A,$0",
    "10 INPUT \"A\"", "10 END 1", "10 A", "10 A=", "10 A==1", "10 =1", "10 TOP=1",
    "10 MOD(1,2)=1", "10 A=MOD(1)", "10 A=MOD 1,2", "10 A=(1", "10 A=1)", "10 $0=1", "10 $0=A",
    "10 $A=\"X\"+\"Y\"", "10 A=\"X\"", "10 A=$0", "10 ::", "10 END::END", "10 END:", "10 :END",
    "10 a=1", "10 A=1.5", "10 A=32768", "10 A=1 B=2", "10 AB=1", "10 A=1%2", "10 ?",
    "10 PRINT A B", "10 $0 \"A\"", "10 @0", "10 NOT A", "10 THEN END",
];

#[test]
fn every_statement_has_its_forms() {
    all_stop(0, &FORMS);
    all_stop(5, &NO_FORMS);
}

// Values

#[test]
fn the_first_refusal_counts() {
    all_stop(
        16,
        &[
            "PRINT @9999/0",
            "PRINT MOD(@9999,0)",
            "PRINT 0*@9999",
            "PRINT 0 AND @9999",
        ],
    );
    all_stop(
        13,
        &[
            "PRINT 1/0*@9999",
            "PRINT 1/0=@9999",
            "PRINT 1 OR 1/0",
            "@9999=1/0",
        ],
    );
}

#[test]
fn arithmetic() {
    let mut gate = Gate::new();
    gate.sense = 0xff;
    let rows = [
        ("PRINT -(#8000);", "-32768 "),
        ("PRINT -5 AND 3;", "-1 "),
        ("PRINT MOD(#8000,-1);", " 0 "),
        ("PRINT MOD(7,-2),MOD(#8000,#7FFF);", " 1  1 "),
        ("PRINT -32767-1;", "-32768 "),
        ("PRINT -32767-2;", " 32767 "),
        ("PRINT #8000*#8000,#FFFF*#FFFF;", " 0  1 "),
        ("PRINT 8-4-2,64/4/2,-2*3+1;", " 2  8 -5 "),
        ("PRINT NOT NOT 5,NOT 5;", " 5 -6 "),
        ("PRINT 6 AND 3 OR 8,8 OR 6 AND 3;", " 10  10 "),
        ("PRINT 1+2 OR 4-1;", " 6 "),
        ("PRINT -7/2,7/-(2);", ""),
        ("PRINT #8000<0,1>2,2>1,2=2,2<>2;", " 1  0  1  1  0 "),
        ("PRINT 2<=2,2>=2,3<=2,2>=3,2<2,2>2;", " 1  1  0  0  0  0 "),
        ("PRINT STAT;", " 48 "),
        ("PRINT TOP;", " 2 "),
    ];
    for (typed, printed) in rows {
        match printed {
            "" => assert_eq!(gate.stop(typed), 5, "{typed}"),
            _ => assert_eq!(gate.out(typed), printed, "{typed}"),
        }
    }
    gate.stop("STAT=-1");
    assert_eq!(gate.record.flags, 7);
    assert_eq!(gate.out("PRINT STAT;"), " 55 ");
    gate.stop("STAT=8");
    assert_eq!(gate.record.flags, 0);
}

#[test]
fn memory() {
    let mut gate = Gate::new();
    gate.memory = vec![13, 200, 65, 13, 66];
    assert_eq!(gate.out("PRINT @1,@(@0-11);"), " 200  65 ");
    assert_eq!(gate.out("PRINT $0,$2,$3;"), "A");
    assert_eq!(gate.stop("PRINT $4"), 16);
    assert_eq!(gate.stop("PRINT $5"), 16);
    assert_eq!(gate.stop("PRINT $(-1)"), 16);
    assert_eq!(gate.stop("$3=$1"), 16);
    assert_eq!(gate.memory, [13, 200, 65, 13, 66]);
    assert_eq!(gate.stop("$2=$1"), 0);
    assert_eq!(gate.memory, [13, 200, 200, 65, 13]);
    assert_eq!(gate.stop("$0=$1"), 0);
    assert_eq!(gate.memory, [200, 200, 65, 13, 13]);
}

// Statements

#[test]
fn for_works_out_all_first() {
    let mut gate = Gate::with(&["10 I=5:FOR I=1 TO I+1 STEP I:END"]);
    gate.line("RUN");
    let entry = gate.record.fors.top().expect("an entry");
    assert_eq!((gate.variable('I'), entry.limit, entry.step), (1, 6, 5));
    let mut gate = Gate::with(&["10 I=5:FOR I=1 TO 1/0"]);
    assert_eq!(gate.stop("RUN"), 13);
    assert_eq!((gate.variable('I'), gate.record.fors.depth), (5, 0));
}

#[test]
fn next_wraps_and_looks_at_the_top_only() {
    let lines = [
        "10 FOR I=32767 TO 32767",
        "20 N=N+1:IF N=2 END",
        "30 NEXT I",
    ];
    let mut gate = Gate::with(&lines);
    assert_eq!(gate.stop("RUN"), 20);
    assert_eq!(gate.variable('I'), -32768);
    let mut gate = Gate::with(&["10 FOR I=1 TO 9:I=20:NEXT I"]);
    assert_eq!(gate.line("RUN").steps, 3);
    assert_eq!(gate.variable('I'), 21);
    // Step 0 goes on while the variable is at most the limit.
    let mut gate = Gate::with(&["10 FOR I=1 TO 9 STEP 0:I=I+4:NEXT I"]);
    assert_eq!(gate.line("RUN").steps, 7);
    assert_eq!(gate.variable('I'), 13);
}

#[test]
fn until_works_out_its_value_first() {
    assert_eq!(run(&["10 UNTIL 1/0"]), (13, Some(10), 1));
    let mut gate = Gate::with(&["10 DO:A=A+1:UNTIL A=3:PRINT A;"]);
    let reply = gate.line("RUN");
    assert_eq!((reply.out.as_str(), reply.steps), (" 3 ", 8));
    assert_eq!(gate.record.dos.depth, 0);
}

#[test]
fn typed_gosub_and_return() {
    let mut gate = Gate::with(&["10 PRINT 1;:END", "20 RETURN"]);
    assert_eq!(gate.stop("IF 1 GOSUB 10"), 20);
    assert_eq!(gate.record.gosubs.top(), Some(Place::IMMEDIATE));
    let reply = gate.line("RETURN");
    assert_eq!((reply.stop, reply.line, reply.steps), (0, None, 0));
    assert_eq!(gate.record.gosubs.depth, 0);
    assert_eq!(gate.stop("RETURN"), 9);
    let mut gate = Gate::with(&["10 GOSUB 20:PRINT 7;", "15 END", "20 END"]);
    gate.stop("RUN");
    let reply = gate.line("IF 1 THEN RETURN");
    assert_eq!(
        (reply.out.as_str(), reply.line, reply.steps),
        (" 7 ", Some(15), 2)
    );
}

#[test]
fn a_false_if_ends_an_immediate_line() {
    let mut gate = Gate::with(&["10 PRINT 1;"]);
    let reply = gate.line("IF 0 GOTO 10");
    assert_eq!((reply.stop, reply.steps, reply.out.as_str()), (0, 0, ""));
}

#[test]
fn print_checks_the_item_before_its_room() {
    let mut gate = Gate::new();
    gate.output_room = 0;
    assert_eq!(gate.stop("PRINT $0"), 16);
    assert_eq!(gate.stop("PRINT 1/0"), 13);
    assert_eq!(gate.stop("PRINT \"\";"), 0);
    gate.memory[0] = 13;
    assert_eq!(gate.stop("PRINT $0;"), 0);
    assert_eq!(gate.stop("PRINT $0"), 17);
}

// INPUT

#[test]
fn input_order() {
    let reply = Gate::with(&["10 INPUT $(1/0)"]).feed(&["RUN", "X"]);
    assert_eq!((reply.stop, reply.out.as_str(), reply.taken), (13, "", 4));
    let reply = Gate::with(&["10 INPUT $64"]).feed(&["RUN", "X"]);
    assert_eq!((reply.stop, reply.out.as_str(), reply.taken), (16, "?", 6));
    let reply = Gate::with(&["10 INPUT A,B"]).feed(&["RUN", "1/0,NONSENSE"]);
    assert_eq!(reply.stop, 6);
    let mut gate = Gate::with(&["10 INPUT A,B,C"]);
    let reply = gate.feed(&["RUN", "4,1/0,6"]);
    assert_eq!((reply.stop, reply.taken), (13, 12));
    assert_eq!(
        ['A', 'B', 'C'].map(|letter| gate.variable(letter)),
        [4, 0, 0]
    );
}

#[test]
fn input_takes_relations_in_turn() {
    let mut gate = Gate::with(&["10 INPUT A,A"]);
    assert_eq!(gate.feed(&["RUN", "3,A*7"]).stop, 0);
    assert_eq!(gate.variable('A'), 21);
    assert_eq!(gate.feed(&["RUN", " 1 = 1 , #10 "]).stop, 0);
    assert_eq!(gate.variable('A'), 16);
}

#[test]
fn what_follows_the_last_comma_is_ignored() {
    let mut gate = Gate::with(&["10 INPUT A"]);
    for reply in [
        "5,",
        "5,6",
        "5,\"",
        "5,\u{1}\u{2}",
        "5,REM",
        " 5 , 32768",
        "5,,",
    ] {
        gate.record.variables[0] = 0;
        assert_eq!(gate.feed(&["RUN", reply]).stop, 0, "{reply}");
        assert_eq!(gate.variable('A'), 5);
    }
    for reply in [
        "5 6", "5;", "", " ", "\"5\"", "5\u{1}", "\u{9}5", ",5", "5:", "A B", "32768",
    ] {
        assert_eq!(gate.feed(&["RUN", reply]).stop, 6, "{reply}");
    }
    let over_long = format!("5,{}", "X".repeat(71));
    assert_eq!(gate.feed(&["RUN", &over_long]).stop, 6);
    assert_eq!(gate.feed(&["RUN", &over_long[..72]]).stop, 0);
}

#[test]
fn input_text_keeps_any_bytes() {
    let mut gate = Gate::with(&["10 INPUT $1"]);
    let reply = gate.call(b"RUN\rA\x01\x00\xff_\"\n\x80\r", take_line);
    assert_eq!((reply.stop, reply.out.as_str()), (0, "?"));
    assert_eq!(gate.memory[..7], *b"\0A\x01\"\x80\r\0");
    assert_eq!(gate.feed(&["RUN", ""]).stop, 0);
    assert_eq!(gate.memory[1], 13);
}

// Steps

#[test]
fn the_budget_is_looked_at_before_each_member() {
    let mut gate = Gate::with(&["10 GOTO 10"]);
    gate.budget = 1;
    let reply = gate.line("RUN");
    assert_eq!((reply.stop, reply.line, reply.steps), (14, None, 1));
    let mut gate = Gate::with(&["10 A=1"]);
    gate.budget = 1;
    assert_eq!(gate.stop("RUN"), 0);
    gate.budget = 0;
    assert_eq!(gate.stop("RUN"), 14);
    assert_eq!(gate.stop("PRINT 1"), 0);
    assert_eq!(Gate::new().stop("RUN"), 0);
}

#[test]
fn typed_gosub_at_budget_0() {
    let mut gate = Gate::with(&["10 RETURN"]);
    gate.budget = 0;
    let reply = gate.line("GOSUB 10");
    assert_eq!((reply.stop, reply.steps), (14, 0));
    assert_eq!(gate.record.gosubs.depth, 1);
    assert_eq!(gate.record.paused, Some(Pause::Start));
    let reply = gate.go_on();
    assert_eq!((reply.stop, reply.steps), (14, 0));
    assert_eq!(gate.record.paused, Some(Pause::Start));
    gate.budget = 1;
    let reply = gate.go_on();
    assert_eq!((reply.stop, reply.steps), (0, 1));
}

#[test]
fn unfinished_loops_stay() {
    let mut gate = Gate::with(&["10 FOR I=1 TO 2", "20 DO"]);
    assert_eq!(gate.stop("RUN"), 0);
    assert_eq!((gate.record.fors.depth, gate.record.dos.depth), (1, 1));
    assert_eq!(gate.stop("RUN"), 0);
    assert_eq!((gate.record.fors.depth, gate.record.dos.depth), (1, 1));
    assert_eq!(gate.stop("GOTO 10"), 0);
    assert_eq!((gate.record.fors.depth, gate.record.dos.depth), (2, 2));
}

#[test]
fn a_blank_line_only_ends_a_pause() {
    for blank in ["", "   ", "X_", "\n", "ABC\u{15} "] {
        let mut gate = Gate::with(&["10 GOTO 10"]);
        gate.stop("RUN");
        assert!(gate.record.paused.is_some());
        let mut expected = gate.record.clone();
        expected.paused = None;
        let reply = gate.line(blank);
        assert_eq!((reply.stop, reply.steps), (0, 0));
        assert_eq!(gate.record, expected);
    }
}
