//! The case driver, its JSON and its refusals.

use std::io::Write;
use std::process::{Command, Stdio};

use model::case::{drive, Call, Case, Unread};
use model::{Pause, Place, Record};

const CASE: &str = concat!(
    r#"{"call":"line","page":[255,255,7],"mem":[],"inp":[80,82,32,49,59,13],"out":[9,9,9,9],"#,
    r#""inpos":0,"outpos":1,"budget":5,"sense":0,"rec":{"vars":[-32768,0,0,0,0,0,0,0,0,0,0,0,0,"#,
    r#"0,0,0,0,0,0,0,0,0,0,0,0,32767],"flags":3,"gosub":[1,[65535,2,3,4,5,6,7,8]],"#,
    r#""do":[0,[1,0,0,0,0,0,0,0]],"for":[0,[{"var":1,"limit":-2,"step":3,"place":4},"#,
    r#"{"var":0,"limit":0,"step":0,"place":0},{"var":0,"limit":0,"step":0,"place":0},"#,
    r#"{"var":0,"limit":0,"step":0,"place":0}]],"paused":{"start":true}}}"#
);

const OUTCOME: &str = concat!(
    r#"{"stop":0,"line":null,"steps":0,"column":0,"inpos":6,"outpos":4,"page":[255,255,7],"mem":[],"#,
    r#""out":[9,32,49,32],"rec":{"vars":[-32768,0,0,0,0,0,0,0,0,0,0,0,0,0,0,0,0,0,0,0,0,0,0,0,0,"#,
    r#"32767],"flags":3,"gosub":[1,[65535,0,0,0,0,0,0,0]],"do":[0,[0,0,0,0,0,0,0,0]],"#,
    r#""for":[0,[{"var":0,"limit":0,"step":0,"place":0},{"var":0,"limit":0,"step":0,"place":0},"#,
    r#"{"var":0,"limit":0,"step":0,"place":0},{"var":0,"limit":0,"step":0,"place":0}]],"#,
    r#""paused":null}}"#
);

const SKIP: &str = "{\"skip\":true}";

#[test]
fn a_case_and_its_outcome() {
    assert_eq!(drive(CASE.as_bytes()), OUTCOME);
}

#[test]
fn the_column_stands_behind_the_steps() {
    for (typed, front) in [
        (
            "PRINT 1;2",
            r#"{"stop":5,"line":null,"steps":0,"column":8,"inpos":10,"#,
        ),
        (
            "10 RUN",
            r#"{"stop":5,"line":null,"steps":0,"column":4,"inpos":7,"#,
        ),
        (
            "DO",
            r#"{"stop":3,"line":null,"steps":0,"column":0,"inpos":3,"#,
        ),
    ] {
        let case = CASE.replace("[80,82,32,49,59,13]", &format!("\"{typed}\\r\""));
        let outcome = drive(case.as_bytes());
        assert!(outcome.starts_with(front), "{outcome}");
    }
}

#[test]
fn the_built_driver() {
    let mut child = Command::new(env!("CARGO_BIN_EXE_cases"))
        .stdin(Stdio::piped())
        .stdout(Stdio::piped())
        .spawn()
        .expect("the driver starts");
    let lines = format!("{CASE}\r\n\nnothing\n{CASE}");
    let mut pipe = child.stdin.take().expect("a pipe");
    pipe.write_all(lines.as_bytes()).expect("the driver reads");
    drop(pipe);
    let output = child.wait_with_output().expect("the driver ends");
    let text = String::from_utf8(output.stdout).expect("plain text");
    let answers: Vec<&str> = text.lines().collect();
    assert_eq!(answers.len(), 4);
    assert_eq!([answers[0], answers[3]], [OUTCOME; 2]);
    for answer in &answers[1..3] {
        assert!(answer.starts_with("{\"error\":\"") && answer.ends_with("\"}"));
    }
}

#[test]
fn a_case_is_written_as_it_was_read() {
    let case = Case::read(CASE.as_bytes()).expect("a case");
    assert_eq!(case.write(), CASE);
    let other = Case {
        call: Call::Continue,
        record: Record {
            paused: Some(Pause::After(Place(65_535))),
            ..Record::default()
        },
        ..case
    };
    assert_eq!(Case::read(other.write().as_bytes()), Ok(other));
}

#[test]
fn numbers_too_wide_for_the_record_are_skipped() {
    let wide = [
        ("\"flags\":3", "\"flags\":256"),
        ("\"flags\":3", "\"flags\":-1"),
        ("[-32768,", "[-32769,"),
        ("32767]", "32768]"),
        ("[65535,2", "[65536,2"),
        ("\"gosub\":[1,", "\"gosub\":[18446744073709551616,"),
        ("\"gosub\":[1,", "\"gosub\":[-1,"),
        ("\"var\":1,", "\"var\":256,"),
        ("\"limit\":-2", "\"limit\":40000"),
        ("{\"start\":true}", "{\"at\":65536}"),
    ];
    for (fits, too_wide) in wide {
        let case = CASE.replace(fits, too_wide);
        assert_eq!(drive(case.as_bytes()), SKIP, "{too_wide}");
    }
}

#[test]
fn garbage_that_fits_its_field_is_a_case() {
    let garbage = [
        ("\"flags\":3", "\"flags\":255"),
        ("\"gosub\":[1,", "\"gosub\":[4294967297,"),
        ("\"gosub\":[1,", "\"gosub\":[18446744073709551615,"),
        ("\"do\":[0,", "\"do\":[1,"),
        ("\"for\":[0,", "\"for\":[200,"),
        ("{\"start\":true}", "{\"at\":65535}"),
    ];
    for (fits, other) in garbage {
        let answer = drive(CASE.replace(fits, other).as_bytes());
        assert!(answer.starts_with("{\"stop\":19,"), "{other}: {answer}");
    }
    let far = CASE.replace("\"inpos\":0", "\"inpos\":4294967295");
    assert!(drive(far.as_bytes()).starts_with("{\"stop\":1,"));
}

#[test]
fn what_is_no_case() {
    let changes = [
        ("\"call\":\"line\"", "\"call\":\"run\""),
        ("\"call\":\"line\"", "\"call\":1"),
        ("\"call\":\"line\",", ""),
        ("\"call\"", "\"calls\""),
        ("\"sense\":0", "\"sense\":256"),
        ("\"sense\":0", "\"sense\":0,\"sense\":0"),
        ("\"inpos\":0", "\"inpos\":4294967296"),
        ("\"inpos\":0", "\"inpos\":-1"),
        ("\"inpos\":0", "\"inpos\":0.0"),
        ("\"inpos\":0", "\"inpos\":00"),
        ("\"inpos\":0", "\"inpos\":99999999999999999999"),
        ("\"mem\":[]", "\"mem\":[256]"),
        ("\"mem\":[]", "\"mem\":[1,]"),
        ("\"mem\":[]", "\"mem\":null"),
        ("[65535,2,", "[65535,"),
        ("32767]", "32767,0]"),
        ("{\"start\":true}", "{\"start\":false}"),
        ("{\"start\":true}", "true"),
        ("}}", "}"),
        ("}}", "}}}"),
    ];
    for (part, other) in changes {
        let answer = drive(CASE.replacen(part, other, 1).as_bytes());
        assert!(answer.starts_with("{\"error\":"), "{other}: {answer}");
    }
    let deep = "[".repeat(100_000);
    for line in ["", "{}", "null", "{\"call\":\"\\u0041\"}", &deep] {
        assert!(drive(line.as_bytes()).starts_with("{\"error\":"), "{line}");
    }
    assert!(drive(b"{\"\xff\":1}").starts_with("{\"error\":"));
    assert_eq!(drive(b"{"), r#"{"error":"no '\"' at byte 1"}"#);
}

/// The case with a field more, before its own.
fn with(field: &str) -> String {
    CASE.replacen('{', &format!("{{{field},"), 1)
}

#[test]
fn the_item_of_a_case() {
    assert_eq!(drive(with("\"upto\":5").as_bytes()), OUTCOME);
    for item in (0..=13).filter(|&item| item != 5) {
        let case = with(&format!("\"upto\":{item}"));
        assert_eq!(drive(case.as_bytes()), SKIP, "{item}");
        let other = format!("{{\"call\":\"save\",\"saved\":[1],\"upto\":{item}}}");
        assert_eq!(drive(other.as_bytes()), SKIP, "{item}");
    }
    for upto in [
        "14", "-1", "256", "261", "5.0", "null", "true", "[5]", "{}", "\"5\"",
    ] {
        let answer = drive(with(&format!("\"upto\":{upto}")).as_bytes());
        assert!(answer.starts_with("{\"error\":"), "{upto}: {answer}");
    }
    let twice = drive(with("\"upto\":5,\"upto\":5").as_bytes());
    assert_eq!(twice, r#"{"error":"\"upto\" twice"}"#);
}

#[test]
fn what_later_items_add_is_absent_or_null() {
    for (field, value) in [
        ("tables", "[]"),
        ("ranges", "{}"),
        ("form", "\"text\""),
        ("lists", "[]"),
        ("room", "0"),
    ] {
        for front in ["", "\"upto\":5,"] {
            let case = with(&format!("{front}\"{field}\":null"));
            assert_eq!(drive(case.as_bytes()), OUTCOME, "{field}");
            let answer = drive(with(&format!("{front}\"{field}\":{value}")).as_bytes());
            assert!(answer.starts_with("{\"error\":"), "{field}: {answer}");
        }
    }
    let inner = [
        ("\"flags\":3", "page", "1"),
        ("\"flags\":3", "gosub_pages", "[0,0,0,0,0,0,0,0]"),
        ("\"flags\":3", "do_pages", "[]"),
        ("\"flags\":3", "trace", "[0,[]]"),
        ("\"var\":1", "page", "0"),
    ];
    for (part, field, value) in inner {
        let case = CASE.replace(part, &format!("{part},\"{field}\":null"));
        assert_eq!(drive(case.as_bytes()), OUTCOME, "{field}");
        let case = CASE.replace(part, &format!("{part},\"{field}\":{value}"));
        assert!(drive(case.as_bytes()).starts_with("{\"error\":"), "{field}");
    }
    for (call, front) in [
        ("save", "{\"stop\":"),
        ("load", "{\"stop\":"),
        ("to_keywords", "{\"error\":"),
        ("to_text", "{\"error\":"),
        ("prepare", "{\"error\":"),
    ] {
        let case = CASE.replace("\"call\":\"line\"", &format!("\"call\":\"{call}\""));
        assert!(drive(case.as_bytes()).starts_with(front), "{call}");
    }
    for field in [
        "\"other\":null",
        "\"saved\":null,\"trace\":null",
        "\"\\n\\\"\":null",
    ] {
        let answer = drive(with(field).as_bytes());
        assert!(answer.starts_with("{\"error\":\"unknown "), "{answer}");
    }
}

/// The outcome with a table in its place.
fn with_table(table: &str) -> String {
    OUTCOME.replace(",\"rec\":", &format!(",\"table\":{table},\"rec\":"))
}

#[test]
fn a_table_stands_before_the_record() {
    let zeros = format!("[{}]", vec!["0"; 1025].join(","));
    let others = format!("[0{},7,8,8]", ",9".repeat(1100));
    let nines = format!(
        r#"{{"len":1104,"head":[0{},7],"fill":8}}"#,
        ",9".repeat(1100)
    );
    let (least, tail, alone) = (
        r#"{"len":1025,"head":[],"fill":0}"#,
        r#"{"len":1030,"head":[0,5,0,6],"fill":65535}"#,
        r#"{"len":1025,"head":[0],"fill":1}"#,
    );
    for (given, left) in [
        (zeros.as_str(), least),
        (r#"{"len":1025}"#, least),
        (r#"{"len":1025,"head":[0,0,0]}"#, least),
        (r#"{"fill":0,"head":[],"len":1025}"#, least),
        (&format!("{{\"head\":{zeros}}}"), least),
        (tail, tail),
        (r#"{"len":1030,"head":[0,5,0,6,65535],"fill":65535}"#, tail),
        (alone, alone),
        (&others, &nines),
    ] {
        let case = with(&format!("\"upto\":5,\"table\":{given}"));
        assert_eq!(drive(case.as_bytes()), with_table(left), "{given}");
    }
    assert_eq!(drive(with("\"table\":null").as_bytes()), OUTCOME);
}

#[test]
fn a_table_that_is_refused_comes_back() {
    for (table, stop) in [
        (r#"{"len":0,"head":[],"fill":0}"#, 1),
        (r#"{"len":1024,"head":[],"fill":0}"#, 1),
        (r#"{"len":1024,"head":[1],"fill":0}"#, 1),
        (r#"{"len":1025,"head":[1],"fill":0}"#, 26),
        (r#"{"len":1025,"head":[],"fill":65535}"#, 26),
    ] {
        let outcome = drive(with(&format!("\"table\":{table}")).as_bytes());
        let front =
            format!("{{\"stop\":{stop},\"line\":null,\"steps\":0,\"column\":0,\"inpos\":0,");
        assert!(outcome.starts_with(&front), "{outcome}");
        let back = format!("\"out\":[9,9,9,9],\"table\":{table},\"rec\":");
        assert!(outcome.contains(&back), "{outcome}");
        assert!(outcome.ends_with("\"paused\":{\"start\":true}}}"));
    }
    assert!(drive(with("\"table\":[]").as_bytes())
        .contains("\"table\":{\"len\":0,\"head\":[],\"fill\":0}"));
}

#[test]
fn a_table_is_written_as_it_was_read() {
    for table in [vec![], vec![3], vec![0; 1025], vec![2, 0, 8, 7, 7, 7]] {
        let case = Case::read(CASE.as_bytes()).expect("a case");
        let case = Case {
            table: Some(table),
            ..case
        };
        assert_eq!(Case::read(case.write().as_bytes()), Ok(case));
    }
}

#[test]
fn what_is_no_table() {
    for table in [
        "0",
        "true",
        "\"\"",
        "[65536]",
        "[-1]",
        "[null]",
        r#"{"len":-1}"#,
        r#"{"len":null}"#,
        r#"{"len":2,"head":[0,0,0]}"#,
        r#"{"len":4294967295,"head":[]}"#,
        r#"{"len":1025,"head":null}"#,
        r#"{"len":1025,"head":[65536]}"#,
        r#"{"len":1025,"fill":65536}"#,
        r#"{"len":1025,"fill":0,"fill":0}"#,
        r#"{"len":1025,"tail":[]}"#,
    ] {
        let answer = drive(with(&format!("\"table\":{table}")).as_bytes());
        assert!(answer.starts_with("{\"error\":"), "{table}: {answer}");
    }
    let twice = drive(with("\"table\":null,\"table\":null").as_bytes());
    assert_eq!(twice, r#"{"error":"\"table\" twice"}"#);
}

#[test]
fn what_a_case_need_not_say() {
    let case = Case::read(br#"{"call":"continue","page":[255,255]}"#).expect("a case");
    assert_eq!(case.call, Call::Continue);
    assert_eq!(case.page, [255, 255]);
    assert!(case.memory.is_empty() && case.input.is_empty() && case.output.is_empty());
    assert_eq!((case.input_position, case.output_position), (0, 0));
    assert_eq!((case.budget, case.sense), (0, 0));
    assert_eq!((case.record, case.table), (Record::default(), None));
    for line in [r#"{"call":"line"}"#, r#"{"page":[255,255]}"#] {
        assert!(drive(line.as_bytes()).starts_with("{\"error\":\"no "));
    }
}

#[test]
fn bytes_may_be_a_string() {
    let bytes = |text: &str| {
        let line = format!("{{\"call\":\"line\",\"page\":\"\",\"inp\":{text}}}");
        Case::read(line.as_bytes()).map(|case| case.input)
    };
    assert_eq!(bytes(r#""""#), Ok(vec![]));
    assert_eq!(bytes(r#""PR 1\r\u000d""#), Ok(b"PR 1\r\r".to_vec()));
    assert_eq!(
        bytes(r#""\"\\\/\b\f\n\t""#),
        Ok(b"\"\\/\x08\x0c\n\t".to_vec())
    );
    assert_eq!(
        bytes("\"\u{ff}\\u00ff\\u00FE~\u{7f}\""),
        Ok(vec![255, 255, 254, 126, 127])
    );
    for text in [
        r#""\u0100""#,
        "\"\u{100}\"",
        r#""\ud800""#,
        r#""\u00f""#,
        r#""\u+0ff""#,
        r#""\x41""#,
        r#""\"#,
        "\"\t\"",
        "\"A",
    ] {
        assert!(matches!(bytes(text), Err(Unread::Error(_))), "{text}");
    }
    let typed = CASE.replace("[80,82,32,49,59,13]", "\"PR 1;\\r\"");
    assert_eq!(drive(typed.as_bytes()), OUTCOME);
}

#[test]
fn blanks_and_another_order_of_keys_are_read() {
    let spaced = CASE.replace(',', " , ").replace(':', " : ");
    assert_eq!(drive(spaced.as_bytes()), OUTCOME);
    let moved = CASE.replace("\"call\":\"line\",", "");
    let moved = moved.replace("\"sense\":0,", "\"sense\":0,\"call\":\"line\",");
    assert_eq!(drive(moved.as_bytes()), OUTCOME);
}
