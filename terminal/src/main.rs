//! Starts a dealer's session at the terminal, checks rule books, or turns one into a saved form and back.

use std::env;
use std::io::{stdin, stdout, IsTerminal, Write};
use std::path::Path;
use std::process::ExitCode;

use nibl_terminal::check::{check, total};
use nibl_terminal::files;
use nibl_terminal::forms::{self, Carried};
use nibl_terminal::keyboard::Keyboard;
use nibl_terminal::raw::Raw;
use nibl_terminal::screen::{Abilities, Screen};
use nibl_terminal::seat::Seat;
use nibl_terminal::session::Session;
use nibl_terminal::warnings::{table, Warning};
use nibl_terminal::window::Changes;
use nibl_terminal::words::counted;

/// The status where a book has an error, and where something could not be done at all.
const WRONG: u8 = 1;
const UNABLE: u8 = 2;

fn main() -> ExitCode {
    let words: Vec<String> = env::args().skip(1).collect();
    let words: Vec<&str> = words.iter().map(String::as_str).collect();
    let ended = match words.as_slice() {
        [] => work(&[]).map(|()| ExitCode::SUCCESS),
        ["-i", files @ ..] => work(files).map(|()| ExitCode::SUCCESS),
        ["--check", rest @ ..] => check_books(rest),
        ["--export", rest @ ..] => export_book(rest),
        ["--import", rest @ ..] => import_form(rest),
        _ => Err(
            "usage: nibl-terminal [-i FILE.. | --check FILE.. | --export .. | --import ..]"
                .to_string(),
        ),
    };
    ended.unwrap_or_else(|fault| {
        eprintln!("nibl: {fault}");
        ExitCode::from(UNABLE)
    })
}

/// Writes to standard output.
fn put(text: &str) -> Result<(), String> {
    let written = stdout().write_all(text.as_bytes());
    written.map_err(|error| format!("standard output cannot be written: {error}"))
}

/// Checks the books whose names stand behind the warnings that are not wanted.
fn check_books(words: &[&str]) -> Result<ExitCode, String> {
    let (unwanted, files) = asked(words)?;
    let mut books = Vec::new();
    let mut unread = false;
    for file in files {
        match files::read(file) {
            Ok(bytes) => {
                let book = check(&bytes, &unwanted);
                put(&book.report(file))?;
                books.push(book);
            }
            Err(fault) => {
                eprintln!("nibl: {fault}");
                unread = true;
            }
        }
    }
    put(&total(&books))?;
    let wrong = books.iter().any(|book| book.errors() > 0);
    Ok(match (unread, wrong) {
        (true, _) => ExitCode::from(UNABLE),
        (false, true) => ExitCode::from(WRONG),
        (false, false) => ExitCode::SUCCESS,
    })
}

/// The warnings that are not wanted, and the files.
fn asked<'a>(words: &[&'a str]) -> Result<(Vec<Warning>, Vec<&'a str>), String> {
    let (mut unwanted, mut files) = (Vec::new(), Vec::new());
    let mut words = words.iter();
    while let Some(word) = words.next() {
        match word.strip_prefix("--no-").map(Warning::named) {
            Some(Some(warning)) => unwanted.push(warning),
            _ if *word == "--" => files.extend(words.by_ref()),
            _ if word.starts_with('-') => {
                return Err(format!(
                    "{word} is no option of --check, which has\n{}",
                    table()
                ))
            }
            _ => files.push(*word),
        }
    }
    match files.is_empty() {
        true => Err("--check needs the names of files".to_string()),
        false => Ok((unwanted, files)),
    }
}

/// What stands behind --export and --import.
#[derive(Default)]
struct Carry<'a> {
    files: Vec<&'a str>,
    memory: Option<usize>,
    bytes: Option<&'a str>,
    /// A file that is there is written over.
    over: bool,
}

impl<'a> Carry<'a> {
    fn of(words: &[&'a str]) -> Result<Carry<'a>, String> {
        let mut carry = Carry::default();
        let mut words = words.iter();
        while let Some(word) = words.next() {
            let mut operand = || words.next().ok_or(format!("{word} needs a word behind it"));
            match *word {
                "--memory" => {
                    let number = operand()?;
                    let length = number.parse();
                    carry.memory = Some(length.map_err(|_| format!("{number} is no length"))?);
                }
                "--bytes" => carry.bytes = Some(operand()?),
                "--over" => carry.over = true,
                "--" => carry.files.extend(words.by_ref()),
                _ if word.starts_with('-') => return Err(format!("{word} is no option here")),
                _ => carry.files.push(word),
            }
        }
        Ok(carry)
    }

    /// Writes a file, unless there is one and nothing was said of that.
    fn write(&self, file: &str, bytes: &[u8]) -> Result<(), String> {
        match !self.over && Path::new(file).exists() {
            true => Err(format!("{file} is there already: --over writes over it")),
            false => files::write(file, bytes),
        }
    }
}

/// A fault of what a file holds, where the file itself could be read.
fn wrong(fault: &str) -> ExitCode {
    eprintln!("nibl: {fault}");
    ExitCode::from(WRONG)
}

/// Turns a rule book into a form for another box.
fn export_book(words: &[&str]) -> Result<ExitCode, String> {
    let carry = Carry::of(words)?;
    let [book, form] = carry.files[..] else {
        return Err("--export needs a rule book and the name of a form to be written".to_string());
    };
    let bytes = carry.bytes.map_or(Ok(Vec::new()), files::read)?;
    let memory = forms::memory(carry.memory, &bytes)?;
    let exported = match forms::export(&files::read(book)?, memory) {
        Ok(exported) => exported,
        Err(fault) => return Ok(wrong(&format!("{book}:{fault}; {form} was not written"))),
    };
    if !exported.left_out.is_empty() {
        let rows: Vec<String> = exported.left_out.iter().map(usize::to_string).collect();
        let rows = rows.join(", ");
        eprintln!("nibl: {book}: lines with no number are left out: {rows}");
    }
    carry.write(form, &exported.form)?;
    let carried = Carried::of(&exported.form).map_or(String::new(), Carried::words);
    let bytes = counted(exported.form.len() as u64, "byte");
    put(&format!("{carried} written to {form}, {bytes}\n"))?;
    Ok(ExitCode::SUCCESS)
}

/// Turns a form into a listing.
fn import_form(words: &[&str]) -> Result<ExitCode, String> {
    let carry = Carry::of(words)?;
    let (form, book) = match carry.files[..] {
        [form] => (form, None),
        [form, book] => (form, Some(book)),
        _ => {
            return Err("--import needs a form, and may be given a rule book to be written".into())
        }
    };
    if carry.memory.is_some() {
        return Err("--memory is for --export: a form says how long its memory is".to_string());
    }
    let imported = match forms::import(&files::read(form)?) {
        Ok(imported) => imported,
        Err(fault) => return Ok(wrong(&format!("{form}: {fault}"))),
    };
    if let Some(bytes) = carry.bytes {
        carry.write(bytes, &imported.memory)?;
    }
    match book {
        Some(book) => carry.write(book, &imported.listing)?,
        None => put(&String::from_utf8_lossy(&imported.listing))?,
    }
    eprintln!("nibl: not in the listing: {}", imported.left_out);
    Ok(ExitCode::SUCCESS)
}

fn work(files: &[&str]) -> Result<(), String> {
    if !stdin().is_terminal() {
        return Err("standard input is no terminal".to_string());
    }
    let _raw =
        Raw::enter().map_err(|error| format!("the terminal cannot be set by stty: {error}"))?;
    let changes = Changes::watched().map_err(|error| error.to_string())?;
    let screen = Screen::new(stdout(), abilities());
    let keyboard = Keyboard::of(stdin(), changes);
    Session::new(Seat::new(screen, keyboard)).run(files);
    Ok(())
}

/// What the terminal says that it can show: styles by its kind, and more than ASCII by the locale.
fn abilities() -> Abilities {
    let named = |name: &str| env::var(name).ok().filter(|value| !value.is_empty());
    let plain = named("TERM").map_or(true, |name| name == "dumb");
    let locale = ["LC_ALL", "LC_CTYPE", "LANG"].into_iter().find_map(named);
    let charset = locale.unwrap_or_default().to_ascii_lowercase();
    Abilities {
        styles: stdout().is_terminal() && !plain,
        signs: charset.contains("utf-8") || charset.contains("utf8"),
    }
}
