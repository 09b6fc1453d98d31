//! Typed lines with the verdict of this model's reader.

use super::pages::program;
use super::texts::Setting;
use super::typed::{line, line_numbers};
use super::{Random, Size};
use crate::column::longest_front;
use crate::json::{push_bytes, push_list};
use crate::line::{read_line, LineNumber, TypedLine};
use crate::reader::read_list;
use crate::tree::Tree;
use crate::typing::LINE_LIMIT;

/// The kept bytes of a line, up to the limit.
pub fn kept(random: &mut Random, size: Size) -> Vec<u8> {
    let lines = program(random, size, 64);
    let numbers = line_numbers(&lines);
    let setting = Setting {
        size,
        lines: &numbers,
        memory: 64,
    };
    let mut kept = match (random.below(20), lines.as_slice()) {
        (0, _) => (0..random.below(12)).map(|_| random.byte()).collect(),
        (1..=6, [_, ..]) => {
            let (number, text) = random.pick(&lines);
            format!("{number}{text}").into_bytes()
        }
        _ => line(random, setting),
    };
    kept.truncate(LINE_LIMIT);
    kept
}

/// The verdict on kept bytes as a line of JSON without the line's end.
pub fn verdict(kept: &[u8]) -> String {
    let mut tree = Tree::default();
    let read = read_line(&mut tree, kept);
    let (name, number, text, program_only) = match read {
        None => ("none", None, None, false),
        Some(TypedLine::Blank) => ("blank", None, None, false),
        Some(TypedLine::Delete(number)) => ("delete", Some(number), None, false),
        Some(TypedLine::Store(number, text)) => ("store", Some(number), Some(text), false),
        Some(TypedLine::Command(_)) => ("command", None, None, false),
        Some(TypedLine::Statement(id)) => ("statement", None, Some(kept), tree.needs_program(id)),
    };
    let column = match read {
        None => longest_front(kept),
        Some(_) => 0,
    };
    let mut out = String::from("{\"text\":");
    push_bytes(&mut out, kept);
    out.push_str(&format!(
        ",\"verdict\":\"{name}\",\"column\":{column},\"number\":"
    ));
    out.push_str(&number.map_or("null".to_string(), |LineNumber(number)| number.to_string()));
    out.push_str(",\"ends\":");
    push_list(&mut out, &ends(kept, text), |out, end| {
        out.push_str(&end.to_string())
    });
    out.push_str(&format!(",\"three\":{program_only}}}"));
    out
}

/// Where the statements of the line's text end, counted from the line's first
/// byte.
fn ends(kept: &[u8], text: Option<&[u8]>) -> Vec<usize> {
    let mut ends = Vec::new();
    if let Some(text) = text {
        let before = kept.len() - text.len();
        let list = read_list(&mut Tree::default(), text, |member| {
            ends.push(before + member.end);
        });
        assert!(list.is_some(), "the line was read before");
    }
    ends
}
