//! The desk's list of easy mistakes.

mod gate;

use gate::Gate;

#[test]
fn the_replaced_record_goes() {
    let mut gate = Gate::with(&["10 PRINT 1", "20 END", "10 PRINT 2"]);
    assert_eq!(gate.out("LIST"), "10 PRINT 2\r\n20 END\r\n");
    let mut gate = Gate::with(&["10 PRINT 1", "20 END", "10 A=1"]);
    assert_eq!(gate.out("LIST"), "10 A=1\r\n20 END\r\n");
    let mut gate = Gate::with(&["10 A=1", "20 END", "10 PRINT \"LONGER\""]);
    assert_eq!(gate.out("LIST"), "10 PRINT \"LONGER\"\r\n20 END\r\n");
}

#[test]
fn next_adds_before_it_tests() {
    let mut gate = Gate::with(&["10 FOR I=1 TO 3", "20 PRINT I;", "30 NEXT I"]);
    assert_eq!(gate.out("RUN"), " 1  2  3 ");
    assert_eq!(gate.variable('I'), 4);
    // A loop past its limit still runs once.
    let mut gate = Gate::with(&["10 FOR I=5 TO 3:PRINT I;:NEXT I"]);
    assert_eq!(gate.out("RUN"), " 5 ");
    assert_eq!(gate.variable('I'), 6);
}

#[test]
fn false_if_leaves_the_line() {
    let mut gate = Gate::with(&["10 IF 0 PRINT 1;:PRINT 2;", "20 PRINT 3;"]);
    assert_eq!(gate.out("RUN"), " 3 ");
    let mut gate = Gate::with(&["10 IF 1 PRINT 1;:PRINT 2;", "20 PRINT 3;"]);
    assert_eq!(gate.out("RUN"), " 1  2  3 ");
    let mut gate = Gate::with(&["10 IF 1 IF 0 THEN PRINT 1;:PRINT 2;", "20 PRINT 3;"]);
    let reply = gate.line("RUN");
    assert_eq!((reply.out.as_str(), reply.steps), (" 3 ", 2));
}

#[test]
fn one_byte_is_stored() {
    let mut gate = Gate::new();
    gate.memory = vec![1, 2, 3];
    assert_eq!(gate.stop("@1=-1"), 0);
    assert_eq!(gate.memory, [1, 255, 3]);
}

#[test]
fn return_goes_behind_the_gosub() {
    let lines = [
        "10 PRINT 1;:GOSUB 100:PRINT 2;",
        "20 END",
        "100 PRINT 3;:RETURN",
    ];
    let reply = Gate::with(&lines).line("RUN");
    assert_eq!(reply.out, " 1  3  2 ");
    assert_eq!((reply.stop, reply.line, reply.steps), (20, Some(20), 6));
}

#[test]
fn colon_in_a_string_separates_nothing() {
    let mut gate = Gate::with(&["10 PRINT \"A:B\";:PRINT \"C\";"]);
    let reply = gate.line("RUN");
    assert_eq!((reply.out.as_str(), reply.steps), ("A:BC", 2));
    let mut gate = Gate::with(&["10 REM A:PRINT 1", "20 $0=\":\":PRINT $0;"]);
    let reply = gate.line("RUN");
    assert_eq!((reply.out.as_str(), reply.steps), (":", 3));
}
