//! One call of the controller as a line of JSON, and what it left.
//!
//! A case may say up to which of document 02's items the rules hold (`upto`).
//! Only cases of the item that has landed are answered; what later items add
//! to a case may be there as null.

use std::fmt::Write as _;
use std::io::{self, BufRead, Write};

use crate::calls::{continue_run, take_line, Answer, Lent};
use crate::json::{parse, push_bytes, push_list, Json};
use crate::record::{ForEntry, ForStack, Pause, Place, PlaceStack, Record};
use crate::saved::{load, save};

/// The last of document 02's items that is in force.
const LANDED: u8 = 5;

const ITEMS: u8 = 13;

/// What later items add to a case, to a record and to an entry of its FOR
/// stack.
const LATER: [&str; 5] = ["tables", "ranges", "form", "lists", "room"];
const LATER_IN_RECORD: [&str; 4] = ["page", "gosub_pages", "do_pages", "trace"];
const LATER_IN_FOR: [&str; 1] = ["page"];

/// The longest table that a few bytes of a case can ask for. The rules have no
/// limit.
const TABLE_MOST: usize = 1 << 20;

#[derive(Clone, Copy, Debug, PartialEq, Eq)]
pub enum Call {
    Line,
    Continue,
    Save,
    Load,
}

impl Call {
    pub const ALL: [Call; 4] = [Call::Line, Call::Continue, Call::Save, Call::Load];

    fn name(self) -> &'static str {
        match self {
            Call::Line => "line",
            Call::Continue => "continue",
            Call::Save => "save",
            Call::Load => "load",
        }
    }
}

/// All a call is given.
#[derive(Clone, Debug, PartialEq, Eq)]
pub struct Case {
    pub call: Call,
    pub page: Vec<u8>,
    pub memory: Vec<u8>,
    pub input: Vec<u8>,
    pub output: Vec<u8>,
    pub input_position: u32,
    pub output_position: u32,
    pub budget: u32,
    pub sense: u8,
    pub record: Record,
    /// The table of line places, where one is lent.
    pub table: Option<Vec<u16>>,
    /// The form that a load takes.
    pub saved: Vec<u8>,
}

/// Why a line does not give a call.
#[derive(Clone, Debug, PartialEq, Eq)]
pub enum Unread {
    /// It is a case, but one of another item, or it cannot be put into the
    /// record.
    Skip,
    Error(String),
}

pub type Reading<T> = Result<T, Unread>;

impl Case {
    /// A line typed on a page in a fresh session, with nothing else lent.
    pub fn typed(page: Vec<u8>, input: &[u8]) -> Case {
        Case {
            call: Call::Line,
            page,
            memory: Vec::new(),
            input: input.to_vec(),
            output: Vec::new(),
            input_position: 0,
            output_position: 0,
            budget: 0,
            sense: 0,
            record: Record::default(),
            table: None,
            saved: Vec::new(),
        }
    }

    /// What the call reads: a load its form, any other the input.
    pub fn slice(&self) -> &[u8] {
        match self.call {
            Call::Load => &self.saved,
            _ => &self.input,
        }
    }

    /// Makes the call. Afterwards the case holds what the call left.
    pub fn run(&mut self) -> Answer {
        let lent = Lent {
            page: &mut self.page,
            memory: &mut self.memory,
            input: &self.input,
            output: &mut self.output,
            input_position: self.input_position,
            output_position: self.output_position,
            sense: self.sense,
            budget: self.budget,
            table: self.table.as_deref_mut(),
        };
        match self.call {
            Call::Line => take_line(&mut self.record, lent),
            Call::Continue => continue_run(&mut self.record, lent),
            Call::Save => save(&self.record, lent),
            Call::Load => load(&mut self.record, lent, &self.saved),
        }
    }

    pub fn read(line: &[u8]) -> Reading<Case> {
        const KEYS: [&str; 13] = [
            "upto", "call", "page", "mem", "inp", "out", "inpos", "outpos", "budget", "sense",
            "table", "rec", "saved",
        ];
        let whole = parse(line).map_err(Unread::Error)?;
        check_item(&whole)?;
        let [_, call, page, mem, inp, out, inpos, outpos, budget, sense, table, rec, saved] =
            entries(&whole, KEYS, &LATER)?;
        Ok(Case {
            call: read_call(required(call, "call")?)?,
            page: read_bytes(required(page, "page")?)?,
            memory: or_default(mem, read_bytes)?,
            input: or_default(inp, read_bytes)?,
            output: or_default(out, read_bytes)?,
            input_position: or_default(inpos, lent_number)?,
            output_position: or_default(outpos, lent_number)?,
            budget: or_default(budget, lent_number)?,
            sense: or_default(sense, lent_number)?,
            record: or_default(rec, read_record)?,
            table: or_default(table, read_table)?,
            saved: or_default(saved, read_bytes)?,
        })
    }

    /// The case as a line of JSON, without the line's end.
    pub fn write(&self) -> String {
        let mut out = format!("{{\"call\":\"{}\"", self.call.name());
        push_field(&mut out, "page", &self.page);
        push_field(&mut out, "mem", &self.memory);
        push_field(&mut out, "inp", &self.input);
        push_field(&mut out, "out", &self.output);
        push_number(&mut out, "inpos", self.input_position);
        push_number(&mut out, "outpos", self.output_position);
        push_number(&mut out, "budget", self.budget);
        push_number(&mut out, "sense", self.sense.into());
        push_table(&mut out, self.table.as_deref());
        if self.call == Call::Load {
            push_field(&mut out, "saved", &self.saved);
        }
        push_record(&mut out, &self.record);
        out.push('}');
        out
    }

    /// What the call left, as a line of JSON without the line's end.
    pub fn write_outcome(&self, answer: &Answer) -> String {
        let mut out = format!("{{\"stop\":{}", answer.stop.number());
        match answer.line {
            None => out.push_str(",\"line\":null"),
            Some(line) => push_number(&mut out, "line", line.into()),
        }
        push_number(&mut out, "steps", answer.steps);
        push_number(&mut out, "column", answer.column);
        push_number(&mut out, "inpos", answer.input_position);
        push_number(&mut out, "outpos", answer.output_position);
        push_field(&mut out, "page", &self.page);
        push_field(&mut out, "mem", &self.memory);
        push_field(&mut out, "out", &self.output);
        push_table(&mut out, self.table.as_deref());
        push_record(&mut out, &without_dead_slots(&self.record));
        out.push('}');
        out
    }
}

/// Answers one line of a case driver's input.
pub fn drive(line: &[u8]) -> String {
    drive_by(line, |case| Ok(case.run()))
}

/// Answers one line of a case driver's input by whoever makes the call. Afterwards the case holds what it left.
pub fn drive_by(line: &[u8], make: impl Fn(&mut Case) -> Reading<Answer>) -> String {
    let outcome = Case::read(line).and_then(|mut case| {
        let answer = make(&mut case)?;
        Ok(case.write_outcome(&answer))
    });
    match outcome {
        Ok(outcome) => outcome,
        Err(Unread::Skip) => "{\"skip\":true}".to_string(),
        Err(Unread::Error(what)) => {
            let what = what.replace('\\', "\\\\").replace('"', "\\\"");
            format!("{{\"error\":\"{what}\"}}")
        }
    }
}

/// A case driver: each line of standard input is answered on standard output.
pub fn serve(drive: impl Fn(&[u8]) -> String) -> io::Result<()> {
    let mut input = io::stdin().lock();
    let mut sink = io::stdout().lock();
    let mut line = Vec::new();
    while input.read_until(b'\n', &mut line)? > 0 {
        // One write a case, so that whoever holds the other end can wait for it.
        let outcome = drive(line.trim_ascii_end()) + "\n";
        sink.write_all(outcome.as_bytes())?;
        line.clear();
    }
    Ok(())
}

fn error<T>(what: impl Into<String>) -> Reading<T> {
    Err(Unread::Error(what.into()))
}

/// Is the case one of the item that has landed? Of another one nothing else is
/// looked at.
fn check_item(case: &Json) -> Reading<()> {
    let Json::Map(map) = case else {
        return error("no map");
    };
    match map.iter().find(|(name, _)| name == "upto") {
        None => Ok(()),
        Some((_, upto)) => match lent_number::<u8>(upto)? {
            LANDED => Ok(()),
            0..=ITEMS => Err(Unread::Skip),
            other => error(format!("no item {other}")),
        },
    }
}

/// The values of these keys, in this order of keys, where they are there. Of
/// other keys, only those of later items may be there, as null.
fn entries<'a, const N: usize>(
    json: &'a Json,
    keys: [&str; N],
    later: &[&str],
) -> Reading<[Option<&'a Json>; N]> {
    let Json::Map(map) = json else {
        return error(format!("no map with {keys:?}"));
    };
    let mut found = [None; N];
    for (name, value) in map {
        match keys.iter().position(|key| key == name) {
            Some(at) if found[at].is_none() => found[at] = Some(value),
            Some(_) => return error(format!("{name:?} twice")),
            None if !later.contains(&name.as_str()) => return error(format!("unknown {name:?}")),
            None if *value != Json::Null => return error(format!("{name:?} is of a later item")),
            None => {}
        }
    }
    Ok(found)
}

fn required<'a>(found: Option<&'a Json>, key: &str) -> Reading<&'a Json> {
    found.ok_or_else(|| Unread::Error(format!("no {key}")))
}

/// The values of these keys, all of which are there.
fn all_entries<'a, const N: usize>(
    json: &'a Json,
    keys: [&str; N],
    later: &[&str],
) -> Reading<[&'a Json; N]> {
    let found = entries(json, keys, later)?;
    let mut all = [json; N];
    for ((slot, value), key) in all.iter_mut().zip(found).zip(keys) {
        *slot = required(value, key)?;
    }
    Ok(all)
}

fn or_default<T: Default>(found: Option<&Json>, read: impl Fn(&Json) -> Reading<T>) -> Reading<T> {
    found.map_or(Ok(T::default()), read)
}

/// The entries of a list of exactly this length.
fn list<const N: usize>(json: &Json) -> Reading<&[Json; N]> {
    let Json::List(list) = json else {
        return error("no list");
    };
    match list.as_slice().try_into() {
        Ok(list) => Ok(list),
        Err(_) => error(format!("no list of {N}")),
    }
}

fn number(json: &Json) -> Reading<i128> {
    match json {
        Json::Number(number) => Ok(*number),
        _ => error("no number"),
    }
}

/// A number of the call: one that does not fit makes the line no case.
fn lent_number<T: TryFrom<i128>>(json: &Json) -> Reading<T> {
    let number = number(json)?;
    number
        .try_into()
        .or_else(|_| error(format!("{number} does not fit")))
}

/// A number of the record: one that does not fit is skipped.
fn field<T: TryFrom<i128>>(json: &Json) -> Reading<T> {
    number(json)?.try_into().map_err(|_| Unread::Skip)
}

fn read_call(json: &Json) -> Reading<Call> {
    let Json::Text(name) = json else {
        return error("no call");
    };
    let call = Call::ALL.into_iter().find(|call| call.name() == name);
    call.ok_or_else(|| Unread::Error("no call".into()))
}

/// A list of numbers of any length.
fn read_numbers<T: TryFrom<i128>>(json: &Json) -> Reading<Vec<T>> {
    match json {
        Json::List(list) => list.iter().map(lent_number).collect(),
        _ => error("no list"),
    }
}

/// A list of numbers, or a string of characters below 256.
fn read_bytes(json: &Json) -> Reading<Vec<u8>> {
    let byte = |character: char| u8::try_from(character).or_else(|_| error("no byte"));
    match json {
        Json::Text(text) => text.chars().map(byte).collect(),
        _ => read_numbers(json),
    }
}

/// A list of numbers, or packed: its length, the numbers at its head, and the
/// one that fills the rest. Null if none is lent.
fn read_table(json: &Json) -> Reading<Option<Vec<u16>>> {
    match json {
        Json::Null => return Ok(None),
        Json::List(_) => return read_numbers(json).map(Some),
        _ => {}
    }
    let [length, head, fill] = entries(json, ["len", "head", "fill"], &[])?;
    let mut table = or_default(head, read_numbers)?;
    let length = length.map_or(Ok(table.len()), lent_number)?;
    if length < table.len() || length > TABLE_MOST {
        return error(format!("no table of {length}"));
    }
    table.resize(length, or_default(fill, lent_number)?);
    Ok(Some(table))
}

fn read_record(json: &Json) -> Reading<Record> {
    let keys = ["vars", "flags", "gosub", "do", "for", "paused"];
    let [variables, flags, gosubs, dos, fors, paused] = all_entries(json, keys, &LATER_IN_RECORD)?;
    Ok(Record {
        variables: fields(list(variables)?, field)?,
        flags: field(flags)?,
        gosubs: read_places(gosubs)?,
        dos: read_places(dos)?,
        fors: read_fors(fors)?,
        paused: read_pause(paused)?,
    })
}

fn fields<T: Copy + Default, const N: usize>(
    list: &[Json; N],
    read: impl Fn(&Json) -> Reading<T>,
) -> Reading<[T; N]> {
    let mut fields = [T::default(); N];
    for (field, json) in fields.iter_mut().zip(list) {
        *field = read(json)?;
    }
    Ok(fields)
}

fn read_place(json: &Json) -> Reading<Place> {
    field(json).map(Place)
}

fn read_places(json: &Json) -> Reading<PlaceStack> {
    let [depth, places] = list(json)?;
    Ok(PlaceStack {
        depth: field(depth)?,
        places: fields(list(places)?, read_place)?,
    })
}

fn read_fors(json: &Json) -> Reading<ForStack> {
    let [depth, slots] = list(json)?;
    let read_entry = |json: &Json| {
        let keys = ["var", "limit", "step", "place"];
        let [variable, limit, step, place] = all_entries(json, keys, &LATER_IN_FOR)?;
        Ok(ForEntry {
            variable: field(variable)?,
            limit: field(limit)?,
            step: field(step)?,
            place: read_place(place)?,
        })
    };
    Ok(ForStack {
        depth: field(depth)?,
        entries: fields(list(slots)?, read_entry)?,
    })
}

fn read_pause(json: &Json) -> Reading<Option<Pause>> {
    match json {
        Json::Null => Ok(None),
        Json::Map(map) => match map.as_slice() {
            [(key, Json::Bool(true))] if key == "start" => Ok(Some(Pause::Start)),
            [(key, place)] if key == "at" => Ok(Some(Pause::After(read_place(place)?))),
            _ => error("no paused place"),
        },
        _ => error("no paused place"),
    }
}

/// Dead slots are shown as zeros, whatever they hold.
fn without_dead_slots(record: &Record) -> Record {
    let mut shown = record.clone();
    for stack in [&mut shown.gosubs, &mut shown.dos] {
        stack
            .places
            .iter_mut()
            .skip(stack.depth)
            .for_each(|slot| *slot = Place::default());
    }
    let fors = &mut shown.fors;
    fors.entries
        .iter_mut()
        .skip(fors.depth)
        .for_each(|slot| *slot = ForEntry::default());
    shown
}

fn push(out: &mut String, what: std::fmt::Arguments) {
    out.write_fmt(what)
        .expect("a string takes all that is written");
}

fn push_number(out: &mut String, key: &str, number: u32) {
    push(out, format_args!(",\"{key}\":{number}"));
}

fn push_field(out: &mut String, key: &str, bytes: &[u8]) {
    push(out, format_args!(",\"{key}\":"));
    push_bytes(out, bytes);
}

/// What stands before the run of the last value at the end, and that value.
pub fn packed<T: Copy + Default + PartialEq>(whole: &[T]) -> (&[T], T) {
    let fill = whole.last().copied().unwrap_or_default();
    let last = whole.iter().rposition(|&value| value != fill);
    (&whole[..last.map_or(0, |last| last + 1)], fill)
}

fn push_table(out: &mut String, table: Option<&[u16]>) {
    let Some(table) = table else {
        return;
    };
    let (head, fill) = packed(table);
    let length = table.len();
    push(out, format_args!(",\"table\":{{\"len\":{length},\"head\":"));
    push_list(out, head, |out, number| push(out, format_args!("{number}")));
    push(out, format_args!(",\"fill\":{fill}}}"));
}

fn push_record(out: &mut String, record: &Record) {
    out.push_str(",\"rec\":{\"vars\":");
    push_list(out, &record.variables, |out, value| {
        push(out, format_args!("{value}"))
    });
    push_number(out, "flags", record.flags.into());
    push_places(out, "gosub", &record.gosubs);
    push_places(out, "do", &record.dos);
    push(out, format_args!(",\"for\":[{},", record.fors.depth));
    push_list(out, &record.fors.entries, |out, entry| {
        let (limit, step, place) = (entry.limit, entry.step, entry.place.0);
        push(out, format_args!("{{\"var\":{}", entry.variable));
        push(
            out,
            format_args!(",\"limit\":{limit},\"step\":{step},\"place\":{place}}}"),
        );
    });
    match record.paused {
        None => out.push_str("],\"paused\":null}"),
        Some(Pause::Start) => out.push_str("],\"paused\":{\"start\":true}}"),
        Some(Pause::After(place)) => {
            push(out, format_args!("],\"paused\":{{\"at\":{}}}}}", place.0));
        }
    }
}

fn push_places(out: &mut String, key: &str, stack: &PlaceStack) {
    push(out, format_args!(",\"{key}\":[{},", stack.depth));
    push_list(out, &stack.places, |out, place| {
        push(out, format_args!("{}", place.0))
    });
    out.push(']');
}
