//! The library's driver beside the model's.

use model::case::{drive, drive_by, Case};
use model::random::cases::case;
use model::random::{Random, Size};
use model::{Pause, Place, Record};

const SKIP: &str = "{\"skip\":true}";

fn by_library(line: &str) -> String {
    drive_by(line.as_bytes(), cases::run)
}

#[test]
fn both_drivers_write_the_same_but_for_a_pause_that_the_record_cannot_say() {
    let mut random = Random::new(1976);
    for _ in 0..500 {
        let case = case(&mut random, Size::Full);
        let line = case.write();
        let wanted = match case.record.paused {
            Some(Pause::After(Place(65_534..))) => SKIP.to_string(),
            _ => drive(line.as_bytes()),
        };
        assert_eq!(by_library(&line), wanted, "{line}");
    }
}

#[test]
fn every_pause_up_to_65533_is_taken() {
    for place in [0, 1, 4095, 32_768, 65_532, 65_533, 65_534, 65_535] {
        let case = Case {
            record: Record {
                paused: Some(Pause::After(Place(place))),
                ..Record::default()
            },
            ..case(&mut Random::new(1), Size::Small)
        };
        let line = case.write();
        assert_eq!(by_library(&line) == SKIP, place > 65_533, "{place}");
    }
}

#[test]
fn depths_of_all_64_bits_are_taken() {
    let mut sound = case(&mut Random::new(3), Size::Small);
    sound.record = Record::default();
    for depth in [9, 1 << 32, (1 << 32) + 1, usize::MAX] {
        for stack in 0..3 {
            let mut case = sound.clone();
            match stack {
                0 => case.record.gosubs.depth = depth,
                1 => case.record.dos.depth = depth,
                _ => case.record.fors.depth = depth,
            }
            let line = case.write();
            let outcome = by_library(&line);
            assert!(outcome.starts_with("{\"stop\":19,"), "{outcome}");
            assert_eq!(outcome, drive(line.as_bytes()));
        }
    }
}

#[test]
fn cases_of_the_landed_item_alone_are_answered() {
    let line = case(&mut Random::new(2), Size::Small).write();
    let of = |upto: &str| line.replacen('{', &format!("{{\"upto\":{upto},"), 1);
    let answered = by_library(&line);
    assert!(answered.starts_with("{\"stop\":"), "{answered}");
    assert_eq!(by_library(&of("5")), answered);
    for item in (0..=13).filter(|&item| item != 5) {
        assert_eq!(by_library(&of(&item.to_string())), SKIP, "{item}");
    }
    for upto in ["14", "-1", "null", "\"1\""] {
        let outcome = by_library(&of(upto));
        assert!(outcome.starts_with("{\"error\":"), "{upto}: {outcome}");
    }
}

#[test]
fn what_later_items_add_is_absent_or_null() {
    let line = case(&mut Random::new(2), Size::Small).write();
    for field in ["tables", "ranges", "form", "lists", "room"] {
        let with = |value: &str| line.replacen('{', &format!("{{\"{field}\":{value},"), 1);
        assert_eq!(by_library(&with("null")), by_library(&line), "{field}");
        let outcome = by_library(&with("[]"));
        assert!(outcome.starts_with("{\"error\":"), "{field}: {outcome}");
    }
    for call in ["to_keywords", "to_text", "prepare"] {
        let outcome = by_library(&format!("{{\"call\":\"{call}\",\"page\":[255,255]}}"));
        assert!(outcome.starts_with("{\"error\":"), "{call}: {outcome}");
    }
}

#[test]
fn a_form_is_saved_and_loaded() {
    let both = |line: &str| {
        let outcome = by_library(line);
        assert_eq!(outcome, drive(line.as_bytes()));
        outcome
    };
    let saved =
        both(r#"{"call":"save","page":"\u0000\n\u0008 END\r\u00ff\u00ff","out":[],"mem":[7]}"#);
    assert!(saved.starts_with("{\"stop\":17,"), "{saved}");
    let form = format!("[1,26,{}0,1,0,10,8,32,69,78,68,13,0,1,9]", "0,".repeat(52));
    let load = |form: &str| {
        both(&format!(
            r#"{{"call":"load","page":[1,1,1,1,1,1,1,1,1,1,5],"mem":[7],"saved":{form}}}"#
        ))
    };
    let loaded = load(&form);
    assert!(loaded.starts_with("{\"stop\":0,"), "{loaded}");
    let page = "\"page\":[0,10,8,32,69,78,68,13,255,255,5]";
    assert!(
        loaded.contains(page) && loaded.contains("\"mem\":[9]"),
        "{loaded}"
    );
    for (wrong, stop) in [
        ("[]", 22),
        ("[2]", 22),
        ("[1]", 23),
        (&form.replace("0,1,9]", "0,2,9,9]")[..], 24),
    ] {
        let refused = load(wrong);
        assert!(
            refused.starts_with(&format!("{{\"stop\":{stop},")),
            "{refused}"
        );
    }
}

#[test]
fn what_a_case_need_not_say() {
    let line = r#"{"call":"line","page":[255,255],"inp":"PRINTNOT0;\r","out":"...."}"#;
    let outcome = by_library(line);
    assert!(outcome.contains("\"out\":[45,49,32,46]"), "{outcome}");
    assert_eq!(outcome, drive(line.as_bytes()));
}

#[test]
fn a_table_goes_in_and_comes_back_packed() {
    let left = |line: &str, table: &str| {
        let line = format!(
            r#"{{"upto":5,"call":"line","page":"\u0000\n\u0008 END\r\u00ff\u00ff........","inp":"{line}\r","table":{table}}}"#
        );
        let outcome = by_library(&line);
        assert_eq!(outcome, drive(line.as_bytes()));
        outcome
    };
    let packed = |head: &str| format!(r#"{{"len":1025,"head":{head},"fill":7}}"#);
    for (line, given, stop, back) in [
        ("20 END", "[1,0]", 0, "[2,0,8]"),
        ("10", "[1,0]", 0, "[0,0]"),
        ("RUN", "[1,0,9]", 14, "[1,0,9]"),
        ("RUN", "[2,0]", 26, "[2,0]"),
        ("RUN", "[1,1]", 26, "[1,1]"),
    ] {
        let outcome = left(line, &packed(given));
        let front = format!("{{\"stop\":{stop},");
        assert!(outcome.starts_with(&front), "{line}: {outcome}");
        let table = format!(",\"table\":{},\"rec\":", packed(back));
        assert!(outcome.contains(&table), "{line}: {outcome}");
    }
    let short = left("RUN", "[1,0,7,7]");
    assert!(short.starts_with("{\"stop\":1,"), "{short}");
    assert!(
        short.contains(r#","table":{"len":4,"head":[1,0],"fill":7},"rec":"#),
        "{short}"
    );
    assert!(!left("RUN", "null").contains("table"));
}

#[test]
fn what_is_no_case_is_answered_as_the_model_does() {
    for line in ["", "{}", "nothing", "{\"call\":\"line\"}"] {
        let outcome = by_library(line);
        assert!(outcome.starts_with("{\"error\":"), "{outcome}");
        assert_eq!(outcome, drive(line.as_bytes()));
    }
}
