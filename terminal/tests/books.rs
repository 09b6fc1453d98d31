//! Rule books checked: one with every fault, one with none, and the project's own.

use std::fs;
use std::path::PathBuf;
use std::process::{Command, Output};

use nibl::{Call, Controller, Stop};
use nibl_terminal::check::{check, total, Checked, Grade};
use nibl_terminal::why::no_reading;

fn root(path: &str) -> PathBuf {
    PathBuf::from(env!("CARGO_MANIFEST_DIR"))
        .join("..")
        .join(path)
}

/// The rows that are reported.
fn found(book: &[u8]) -> Vec<String> {
    let checked = check(book, &[]);
    checked.report("").lines().map(str::to_string).collect()
}

/// The warnings' names.
fn names(checked: &Checked) -> Vec<&'static str> {
    let grades = checked.findings.iter().map(|finding| finding.grade);
    grades
        .filter_map(|grade| match grade {
            Grade::Warning(warning) => Some(warning.name()),
            Grade::Error | Grade::Note => None,
        })
        .collect()
}

/// One line, of a book in which nothing else is wrong: what is found, and at which byte.
fn one(line: &str) -> Vec<String> {
    let book = format!("10 M=@3:A=@4:B=@5\r\n{line}\r\n90 END\r\n");
    found(book.as_bytes())
}

#[test]
fn a_book_with_nothing_wrong() {
    let book = "NEW\r\n10 REM GATE\r\n20 INPUT C\r\n30 IF C GOSUB 100:GOTO 20\r\n40 END\r\n100 PRINT C:RETURN\r\nRUN\r\n17\r\n17,BERTA\r\n";
    for ends in ["\r\n", "\n", "\r"] {
        let checked = check(book.replace("\r\n", ends).as_bytes(), &[]);
        assert_eq!(checked.findings, []);
        assert_eq!((checked.rows, checked.replies), (9, 2));
    }
    assert_eq!(found(b""), [""; 0]);
}

#[test]
fn refused_lines_are_errors_at_their_bytes() {
    assert_eq!(
        one("20 PRINT"),
        [":2:9: error: the line ends too soon: something must follow PRINT"]
    );
    assert_eq!(one("20 print A"), [":2:4: error: words are in capitals"]);
    assert_eq!(
        one(&format!("20 REM {}", "X".repeat(68))),
        [":2:73: error: over-long by 3 bytes"]
    );
    assert_eq!(
        one("FOR I=1 TO 3"),
        [":2:1: error: only in a line with a number"]
    );
    let full: String = (0..80)
        .map(|n| format!("{} REM {}\n", 100 + n, "X".repeat(60)))
        .collect();
    let refused = found(full.as_bytes());
    assert_eq!(refused.len(), 80 - 4094 / 69);
    assert_eq!(refused[0], ":60:1: error: no room on the page");
}

#[test]
fn each_warning_at_its_byte() {
    let one_of = |line: &str, wanted: &str| assert_eq!(one(line), [wanted], "{line}");
    one_of(
        "20 IF A GOTO 55",
        ":2:14: warning: GOTO 55: there is no line 55 [target]",
    );
    one_of(
        "GOSUB 95",
        ":2:7: warning: GOSUB 95: there is no line 95 [target]",
    );
    one_of(
        "10 A=1",
        ":2:1: warning: replaces line 10, typed in row 1: 10 M=@3:A=@4:B=@5 [replaced]",
    );
    one_of(
        "10",
        ":2:1: warning: deletes line 10, typed in row 1: 10 M=@3:A=@4:B=@5 [replaced]",
    );
    one_of(
        "20 GOTO 90:A=1",
        ":2:12: warning: no run comes to this statement [unreached]",
    );
    one_of(
        "20 REMOVED",
        ":2:4: warning: REMOVED is REM: from here on the line is a remark [remark]",
    );
    one_of(
        "20 A=1_2",
        ":2:7: warning: _ takes back what stands before it: 20 A=2 [erased]",
    );
    one_of(
        "20 A=\01",
        ":2:6: warning: a NUL byte, which typing drops [nul]",
    );
    assert!(
        one("20 IF (A=B) AND (M AND 4) END")[0].starts_with(":2:13: warning: AND works on bits")
    );
    assert!(one("20 IF NOT (A=B) END")[0].starts_with(":2:7: warning: NOT turns all 16 bits"));
    assert_eq!(
        found(b"10 A=1\r\n20 A=2\n30 END\r\n"),
        [":2:7: warning: this line ends in LF, others in CR LF [ends]"]
    );
    assert_eq!(
        found(b"10 A=1\r\n20 END"),
        [":2:7: warning: this line has no end: where lines end in CR it is never typed [unended]"]
    );
}

#[test]
fn a_column_is_that_of_the_file_where_bytes_were_taken_back() {
    let rows = one("20 IX_F A GOTO 55");
    assert!(rows[1].starts_with(":2:16: warning: GOTO 55"), "{rows:?}");
}

#[test]
fn a_new_begins_another_program() {
    let book = b"10 GOTO 20\n20 END\nNEW\n10 GOTO 30\n";
    assert_eq!(
        found(book),
        [":4:9: warning: GOTO 30: there is no line 30 [target]"]
    );
    assert_eq!(found(b"10 INPUT A\nRUN\nBERTA\nNEW\nPRIMT\n").len(), 1);
}

#[test]
fn a_line_that_was_run_or_listed_may_be_changed() {
    assert_eq!(found(b"10 A=1\nRUN\n10 A=2\nLIST\n10\n"), [""; 0]);
    assert_eq!(found(b"10 A=1\n\n10 A=2\n").len(), 1);
}

#[test]
fn where_any_line_may_be_a_target_only_the_rest_of_a_line_is_lost() {
    let lost = [":1:12: warning: no run comes to this statement [unreached]"];
    assert_eq!(found(b"10 A=1:END:B=1\n20 B=2\n").len(), 2);
    assert_eq!(found(b"10 A=1:END:B=1\n20 GOTO 10*A\n30 B=2\n"), lost);
    let refused = found(b"10 A=1:END:B=1\n20 B=2\n30 GOTU 20\n");
    assert_eq!((refused.len(), &refused[0]), (2, &lost[0].to_string()));
}

#[test]
fn a_reply_deletes_no_line() {
    assert_eq!(found(b"10 INPUT A\n20 GOTO 10\nRUN\n10\n20\n"), [""; 0]);
}

/// The rule desk's rows are typed to be refused; no other book of the project has an error, and none a warning.
#[test]
fn the_projects_books_have_no_warnings() {
    let (mut count, mut errors) = (0, Vec::new());
    for folder in ["examples", "examples/week"] {
        for entry in fs::read_dir(root(folder)).expect("the folder is there") {
            let path = entry.expect("an entry").path();
            let name = path
                .file_name()
                .map(|name| name.to_string_lossy().into_owned());
            let name = name.filter(|name| name.ends_with(".nib"));
            let Some(name) = name else { continue };
            let checked = check(&fs::read(&path).expect("it is read"), &[]);
            assert_eq!(names(&checked), [""; 0], "{}", checked.report(&name));
            let refused = checked.findings.iter().filter(|f| f.grade == Grade::Error);
            errors.extend(refused.map(|finding| format!("{name}:{finding}")));
            count += 1;
        }
    }
    assert!(count >= 5);
    let wanted = [
        "desk.nib:5:5: error: a line number is at most 32767",
        "desk.nib:8:73: error: over-long by 1 byte",
    ];
    assert_eq!(errors, wanted);
}

/// The guide's sessions, by the rows at which they begin.
fn guide() -> Vec<(usize, Vec<u8>)> {
    let text = fs::read_to_string(root("docs/GUIDE.md")).expect("the guide is there");
    let mut books: Vec<(usize, Vec<u8>)> = Vec::new();
    let mut inside = false;
    for (row, line) in (1..).zip(text.lines()) {
        match line {
            "```nibl" => {
                inside = true;
                books.push((row, Vec::new()));
            }
            "```" => inside = false,
            _ if inside && line != ">" && !line.starts_with("> ") => {
                let book = &mut books.last_mut().expect("one has begun").1;
                book.extend(typed(line.strip_prefix("? ").unwrap_or(line)));
            }
            _ => {}
        }
    }
    books
}

/// A line of an example; one that begins with `N..M` is typed for each number.
fn typed(line: &str) -> Vec<u8> {
    let line = line.replace("^U", "\x15");
    let numbers = line.split_once("..").and_then(|(first, rest)| {
        let (last, text) = rest.split_once(' ')?;
        Some((first.parse::<u16>().ok()?, last.parse::<u16>().ok()?, text))
    });
    match numbers {
        None => format!("{line}\r\n").into_bytes(),
        Some((first, last, text)) => (first..=last)
            .flat_map(|number| format!("{number} {text}\r\n").into_bytes())
            .collect(),
    }
}

/// The guide shows faults too, so each of its warnings is looked at here: it has to be a true one.
#[test]
fn the_guides_books_have_no_false_warning() {
    let found: Vec<String> = guide()
        .iter()
        .flat_map(|(_, book)| {
            let checked = check(book, &[]);
            let rows = checked.report("");
            rows.lines().map(str::to_string).collect::<Vec<_>>()
        })
        .filter(|row| row.contains(": warning: "))
        .map(|row| row.splitn(5, ':').last().unwrap_or("").trim().to_string())
        .collect();
    let long = "PRINT \"COW 17 STANDS IN BOX 2. HER INTERVAL IS 285 MINUTES: 16 TO WAIT!";
    let wanted = [
        "_ takes back what stands before it: PRINT 300-285 [erased]",
        "Ctrl-U takes back what stands before it: PRINT \"BOX 1\" [erased]",
        &format!("_ takes back what stands before it: {long} [erased]"),
        "Ctrl-U takes back what stands before it: PRINT 16 [erased]",
        "GOTO 999: there is no line 999 [target]", // stop 8
        "no run comes to line 30 [unreached]",     // stop 20
    ];
    assert_eq!(found, wanted);
}

/// What stands in the guide's one block of a kind.
fn block(kind: &str) -> String {
    let text = fs::read_to_string(root("docs/GUIDE.md")).expect("the guide is there");
    let (_, rest) = text.split_once(&format!("```{kind}\n")).expect("it begins");
    rest.split_once("```").expect("it ends").0.to_string()
}

#[test]
fn the_guide_shows_what_is_found() {
    let checked = check(block("book").as_bytes(), &[]);
    assert_eq!(
        checked.report("rules.nib") + &total(&[checked]),
        block("found")
    );
}

#[test]
fn the_guide_has_every_warning() {
    let rows = nibl_terminal::warnings::table();
    let guide = fs::read_to_string(root("docs/GUIDE.md")).expect("the guide is there");
    for row in rows.lines() {
        let name = row["--no-".len()..].split(' ').next().expect("a name");
        assert!(guide.contains(&format!("| `{name}` | ")), "{name}");
    }
}

/// What stands between backquotes.
fn code(text: &str) -> impl Iterator<Item = &str> {
    text.split('`').skip(1).step_by(2)
}

/// The first stop that a line is answered with in a fresh session, and its column.
fn stop(line: &str) -> (Stop, u16) {
    let input = format!("{line}\r");
    let mut controller = Controller::owned(4096, 1024);
    let answer = controller.take_line(input.as_bytes(), &mut [0; 256], Call::at(0, 0, 0));
    (answer.stop, answer.column)
}

#[test]
fn what_the_guide_says_of_other_basics_is_so() {
    let text = fs::read_to_string(root("docs/GUIDE.md")).expect("the guide is there");
    let (_, rest) = text
        .split_once("## If you know another BASIC")
        .expect("a chapter");
    let (chapter, _) = rest.split_once("\n## ").expect("another one");
    let mut count = 0;
    for row in chapter.lines().filter(|row| row.starts_with("| `")) {
        let mut cells = row.split(" | ");
        let (theirs, ours) = (cells.next().expect("theirs"), cells.next().expect("ours"));
        for line in code(theirs).filter(|line| line.len() > 2) {
            let (stop, column) = stop(line);
            if line == "IF NOT (A=B) END" {
                assert_eq!(stop, Stop::End, "{line}"); // it is taken, and that is the trap
            } else {
                assert_eq!(stop, Stop::NoReading, "{line}");
                let why = no_reading(line.as_bytes(), 0, column);
                assert!(why.is_some(), "{line}: nothing is said of it");
            }
            count += 1;
        }
        for line in code(ours).filter(|line| line.len() > 2 && !line.starts_with('.')) {
            let numbered = format!("10 {line}");
            let read = stop(line).0 != Stop::NoReading || stop(&numbered).0 != Stop::NoReading;
            assert!(read || line == "@A", "{line}");
        }
    }
    assert!(count > 25, "{count}");
}

fn nibl(words: &[&str]) -> Output {
    let program = env!("CARGO_BIN_EXE_nibl-terminal");
    let run = Command::new(program).args(words).output();
    run.expect("it starts")
}

fn said(output: &Output) -> (Option<i32>, String, String) {
    let text = |bytes: &[u8]| String::from_utf8_lossy(bytes).into_owned();
    (
        output.status.code(),
        text(&output.stdout),
        text(&output.stderr),
    )
}

#[test]
fn the_status_is_that_of_linters() {
    let room = std::env::temp_dir().join(format!("nibl-books-{}", std::process::id()));
    fs::create_dir_all(&room).expect("a room");
    let path = |name: &str, book: &str| {
        let path = room.join(name);
        fs::write(&path, book).expect("it is written");
        path.to_string_lossy().into_owned()
    };
    let (good, poor, bad) = (
        path("good.nib", "10 END\r\n"),
        path("poor.nib", "10 GOTO 20\r\n"),
        path("bad.nib", "10 ENDE\r\n"),
    );
    let none = room.join("none").to_string_lossy().into_owned();
    let warned = format!("{poor}:1:9: warning: GOTO 20: there is no line 20 [target]\n");
    let one = |words: &str| format!("1 book, 1 line: {words}\n");
    assert_eq!(
        said(&nibl(&["--check", &good])),
        (Some(0), one("0 errors, 0 warnings"), String::new())
    );
    assert_eq!(
        said(&nibl(&["--check", &poor])),
        (Some(0), warned + &one("0 errors, 1 warning"), String::new())
    );
    assert_eq!(
        said(&nibl(&["--check", "--no-target", "--", &poor])),
        (Some(0), one("0 errors, 0 warnings"), String::new())
    );
    assert_eq!(nibl(&["--check", &good, &bad]).status.code(), Some(1));
    let unread = said(&nibl(&["--check", &none, &bad]));
    assert_eq!(
        (unread.0, unread.2),
        (Some(2), format!("nibl: there is no file {none}\n"))
    );
    assert!(unread.1.starts_with(&format!("{bad}:1:7: error: ")));
    assert_eq!(nibl(&["--check"]).status.code(), Some(2));
    assert_eq!(
        nibl(&["--check", "--no-such", &good]).status.code(),
        Some(2)
    );
    fs::remove_dir_all(&room).expect("it is removed");
}
