//! Programs that reach what chance seldom does, with little or much budget and room, without a table and with one.

use super::{typed, Visit};
use model::case::Case;
use model::random::pages::Lines;

/// A statement, a stop or an edge of one each. Lines stand 10 apart, and each program is run with the replies beside it.
#[rustfmt::skip]
const WRITTEN: [(&[&str], &str); 74] = [
    (&["A=1:B=A+2:LET C=B*B-A/2", "PRINT A,B,C"], ""),
    (&["A=32767+1:B=-32767-2:C=A*B:D=MOD(C,7)", "PRINT A,B,C,D;"], ""),
    (&["PRINT -32767-1,32767,#FFFF,#7F", "PRINT \"\"", "PRINT \"COW\";:PRINT \" \",1<2,2<1"], ""),
    (&["PRINT NOT 5,6 AND 3,6 OR 3,(1=1) AND NOT (2<>2)"], ""),
    (&["PRINT 1/0"], ""), (&["A=5:B=A/(A-5)"], ""), (&["PRINT \"X\",MOD(4,0)"], ""),
    (&["PRINT -7/2,7/(-2),MOD(7,2),-7/(-2)"], ""),
    (&["@3=65:@4=321:PRINT @3,@4"], ""), (&["@64=1"], ""), (&["PRINT @64"], ""), (&["@(-1)=1"], ""), (&["A=@#FFFF"], ""),
    (&["$2=\"HELLO\":PRINT $2:$20=$2:PRINT $20,$4"], ""), (&["$60=\"HELLO\""], ""), (&["$59=\"12345\":$58=\"12345\""], ""),
    (&["PRINT $0"], ""), (&["$0=\"\":PRINT $0:$0=$0:$1=$0"], ""), (&["$10=\"ABC\":$11=$10:PRINT $10"], ""),
    (&["$40=\"ABCDEFGHIJ\":$52=$40:$55=$40"], ""), (&["PRINT $64"], ""), (&["$70=$0"], ""),
    (&["STAT=13:PRINT STAT:STAT=STAT OR 2:PRINT STAT AND 3"], ""), (&["PRINT TOP:A=TOP-1:PRINT A"], ""),
    (&["GOTO 20", "PRINT \"NO\"", "PRINT \"YES\""], ""), (&["GOTO 10+20", "END"], ""), (&["GOTO 15"], ""), (&["GOTO -1"], ""),
    (&["A=0", "A=A+1:GOTO 10"], ""), (&["GOTO 0"], ""), (&["GOTO 32767"], ""), (&["GOSUB 5"], ""),
    (&["GOSUB 20:PRINT \"BACK\":END", "END", "PRINT \"SUB\":RETURN:PRINT \"NO\""], ""), (&["RETURN"], ""),
    (&["GOSUB 0"], ""), (&["A=A+1:GOSUB 0:PRINT A"], ""), (&["GOSUB 10:RETURN", "RETURN"], ""),
    (&["IF 1 PRINT \"A\":PRINT \"B\"", "IF 0 THEN PRINT \"C\":PRINT \"D\"", "PRINT \"E\""], ""),
    (&["IF A=0 THEN IF B=0 THEN A=7:PRINT A", "IF A<7 GOTO 0:PRINT \"?\""], ""),
    (&["DO:A=A+1:UNTIL A=3:PRINT A"], ""), (&["DO", "A=A+1:PRINT A;", "UNTIL A>=3", "PRINT \"!\""], ""), (&["UNTIL 1"], ""),
    (&["DO:GOTO 0"], ""), (&["DO:DO:DO:UNTIL 1:UNTIL 1:A=A+1:UNTIL A=5"], ""),
    (&["FOR I=1 TO 3:PRINT I;:NEXT I:PRINT I"], ""), (&["FOR I=3 TO 1 STEP -1", "PRINT I", "NEXT I"], ""),
    (&["FOR I=1 TO 2 STEP 0:A=A+1:IF A=9 I=5", "NEXT I:PRINT I"], ""), (&["FOR I=5 TO 1:PRINT I:NEXT I:PRINT \"X\""], ""),
    (&["FOR I=32760 TO 32767 STEP 5:A=A+1:NEXT I:PRINT I,A"], ""), (&["FOR I=-32767 TO -32767-1 STEP -1:NEXT I:PRINT I"], ""),
    (&["FOR I=1 TO 2:FOR J=1 TO 2:PRINT I*J;:NEXT J:NEXT I"], ""), (&["NEXT I"], ""), (&["FOR I=1 TO 2:NEXT J"], ""), (&["A=4", "FOR I=1 TO 3:FOR J=1 TO 2", "NEXT I"], ""),
    (&["FOR I=1 TO 9:GOTO 0"], ""), (&["FOR I=1 TO 2:FOR I=5 TO 6:PRINT I:NEXT I:NEXT I"], ""),
    (&["INPUT A:PRINT A", "INPUT B,C:PRINT B+C"], "42\r1,2\r"), (&["INPUT A"], "X=\r"), (&["INPUT A,B"], "1\r"), (&["INPUT A"], "1"),
    (&["INPUT A:INPUT B"], "1\r"), (&["INPUT A"], "111111111122222222223333333333444444444455555555556666666666777777777788\r"),
    (&["INPUT $4:PRINT $4:INPUT $60"], "MILK\rMUCH\r"), (&["A=3:INPUT A,B:PRINT B"], "7,A+@0\r"), (&["REM A:B=1", "END:PRINT 1", "REM"], ""),
    (&["FORI=1TO3:PRINTI;:NEXTI", "IFI>3GOTO30", "PRINT\"NO\"", "REMARK:PRINT 1"], ""), (&["P=20:GOTOP", "END", "PRI:LETSTAT=STATOR2:PRSTAT"], ""),
    (&["GOSUB20:PRINTA;:END", "END", "A=NOTA:RETURN"], ""), (&["DO:A=A+1:UNTILA=3:IFA=3THENPRINTTOP"], ""), (&["IFA IFB END", "IFNOTA IFNOTB END"], ""),
    (&["INPUTA,B:PRINTA,A ORB;"], "NOTB,STATORA\r"), (&["INPUTA"], "AANDB\r"), (&["INPUTA,B"], "1,TOPA\r"), (&["PRINT#1FORA,#5 ANDNOTA"], ""),
];

/// How often a paused run goes on.
const ROUNDS: usize = 6;

fn lines(texts: &[&str]) -> Lines {
    let numbers = (0..).step_by(10);
    let texts = texts.iter().map(|text| format!(" {text}"));
    numbers.zip(texts).collect()
}

pub fn each(visit: &mut Visit) {
    for (texts, replies) in WRITTEN {
        let lines = lines(texts);
        let input = format!("RUN\r{replies}");
        for budget in [0, 1, 2, 7, 1000] {
            for room in [0, 1, 2, 3, 4, 5, 6, 12, 200] {
                let mut case = typed(&lines, input.as_bytes());
                case.memory = (32..96).collect();
                case.memory[50] = 13;
                case.budget = budget;
                case.output.truncate(room);
                let tabled = Case {
                    table: Some(nibl::table_of(&case.page)),
                    ..case.clone()
                };
                visit(case, ROUNDS);
                visit(tabled, ROUNDS);
            }
        }
    }
}
