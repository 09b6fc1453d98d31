//! The rule desk's table, its typed page and its session.

mod gate;

use std::io::Write;
use std::process::{Command, Stdio};

use gate::{fresh_out, fresh_stop, Gate};

#[test]
fn printed_rows() {
    let rows = [
        ("PRINT 7/2,-7/2,MOD(-7,2)", " 3 -3  1 "),
        ("PRINT 32767+1", "-32768 "),
        ("PRINT #8000/#FFFF", "-32768 "),
        ("PRINT #12345", " 9029 "),
        ("PRINT 300*300", " 24464 "),
        ("PRINT NOT 0=0", " 0 "),
        ("PRINT 2+3*4 OR 1", " 15 "),
        ("PRINT #8000", "-32768 "),
        ("PRINT 0", " 0 "),
        ("PRINT 1005", " 1005 "),
    ];
    for (typed, printed) in rows {
        assert_eq!(fresh_out(typed), printed, "{typed}");
    }
}

#[test]
fn refused_rows() {
    for typed in ["PRINT -32768", "PRINT 1<2<3", "IF A=B=C"] {
        assert_eq!(fresh_stop(typed), 5, "{typed}");
    }
}

#[test]
fn comparison_assigned() {
    let mut gate = Gate::new();
    assert_eq!(gate.stop("A=B=C"), 0);
    assert_eq!(gate.variable('A'), 1);
}

#[test]
fn one_byte_stored() {
    let mut gate = Gate::new();
    gate.memory = vec![0, 7];
    assert_eq!(gate.stop("@0=#1FF"), 0);
    assert_eq!(gate.memory, [255, 7]);
}

#[test]
fn largest_line_number() {
    let mut gate = Gate::new();
    assert_eq!(gate.stop("32767 END"), 0);
    assert_eq!(gate.used(), b"\x7f\xff\x08 END\r\xff\xff");
    let before = gate.page.clone();
    assert_eq!(gate.stop("32768 END"), 5);
    assert_eq!(gate.page, before);
}

#[test]
fn line_0_listed() {
    let mut gate = Gate::with(&["0 END"]);
    assert_eq!(gate.out("LIST"), "0 END\r\n");
}

#[test]
fn kept_bytes() {
    let remark = |length: usize| format!("REM {}", "X".repeat(length - 4));
    assert_eq!(fresh_stop(&remark(72)), 0);
    assert_eq!(fresh_stop(&remark(73)), 5);
}

#[test]
fn typed_page() {
    let mut gate = Gate::with(&["10 END", "5 END", "10 REM X", "5"]);
    assert_eq!(
        gate.used(),
        [0, 10, 10, 32, 82, 69, 77, 32, 88, 13, 255, 255]
    );
    assert_eq!(gate.out("LIST"), "10 REM X\r\n");
}

/// Runs the built session program.
fn session(input: &[u8]) -> Vec<u8> {
    let mut child = Command::new(env!("CARGO_BIN_EXE_session"))
        .stdin(Stdio::piped())
        .stdout(Stdio::piped())
        .spawn()
        .expect("the session program starts");
    // The program may stop reading at its limit; what it does not take is lost.
    let _ = child.stdin.take().expect("a pipe").write_all(input);
    let output = child.wait_with_output().expect("the session program ends");
    assert!(output.status.success());
    output.stdout
}

#[test]
fn desk_session() {
    let typed = b"10 FOR I=3 TO 1 STEP -1\r20 PRINT I;\r30 NEXT I\rRUN\rLIST 25\r";
    let written = b"0 - 0\n0 - 0\n0 - 0\n 3  2  1 0 - 7\n30 NEXT I\r\n0 - 0\n";
    assert_eq!(session(typed), written);
}

#[test]
fn session_ends_without_cr() {
    assert_eq!(session(b""), b"");
    assert_eq!(session(b"PRINT 1"), b"");
    assert_eq!(session(b"PRINT 1;\rPRINT 2"), b" 1 0 - 0\n");
}

#[test]
fn session_shows_the_seven_of_input() {
    assert_eq!(session(b"10 INPUT A\rRUN\r"), b"0 - 0\n?7 10 1\n");
}

#[test]
fn session_budget_and_pause() {
    let written = session(b"10 A=A+1:GOTO 10\rRUN\rPRINT A\r");
    assert_eq!(written, b"0 - 0\n14 - 10000\n 5000 \r\n0 - 0\n");
}

#[test]
fn session_output_is_fresh_for_each_line() {
    let fill = b"10 PRINT \"12345678\";:GOTO 10\rRUN\rPRINT 1;\r";
    let mut written = b"0 - 0\n".to_vec();
    written.extend(b"12345678".repeat(1024));
    written.extend(b"17 10 2049\n 1 0 - 0\n");
    assert_eq!(session(fill), written);
}

#[test]
fn session_memory_is_1024_bytes_long() {
    let written = session(b"PRINT @1023;\rPRINT @1024;\rPRINT TOP,STAT;\r");
    assert_eq!(written, b" 0 0 - 0\n16 - 0\n 2  0 0 - 0\n");
}

#[test]
fn session_looks_at_65535_bytes() {
    let mut typed = vec![b'\n'; 65_535 - 9];
    typed.extend(b"PRINT 12\r");
    assert_eq!(session(&typed), b" 12 \r\n0 - 0\n");
    typed.insert(0, b'\n');
    assert_eq!(session(&typed), b"");
}
