//! Decides a week of visits by a rule book, and writes reports and a picture: `tools/week`.

mod barn;
mod case;
mod early;
mod gate;
mod leftpage;
mod options;
mod paths;
mod picture;
mod progress;
mod remarks;
mod report;
mod rules;
mod run;
mod sheet;
mod summary;
mod sums;
mod tables;
mod times;
mod told;
mod typed;
mod waiting;
mod weeks;

use std::fs;
use std::io::{self, ErrorKind, Write};
use std::path::Path;
use std::process::ExitCode;
use std::time::Instant;

use case::Case;
use run::Run;
use weeks::Weeks;

fn main() -> ExitCode {
    let words: Vec<String> = std::env::args().skip(1).collect();
    if words.iter().any(|word| word == "-h" || word == "--help") {
        return said(say(options::USAGE));
    }
    match options::read(&words) {
        Ok((files, out)) => said(Case::read(&files).and_then(|case| tell(&case, &out))),
        Err(error) => {
            eprint!("week: {error}\n{}", options::USAGE);
            ExitCode::from(2)
        }
    }
}

fn said(result: Result<(), String>) -> ExitCode {
    match result {
        Ok(()) => ExitCode::SUCCESS,
        Err(error) => {
            eprintln!("week: {error}");
            ExitCode::FAILURE
        }
    }
}

/// Writes to standard output; who reads it may have gone.
fn say(text: &str) -> Result<(), String> {
    match io::stdout().write_all(text.as_bytes()) {
        Err(error) if error.kind() != ErrorKind::BrokenPipe => {
            Err(format!("standard output: {error}"))
        }
        _ => Ok(()),
    }
}

fn tell(case: &Case, out: &Path) -> Result<(), String> {
    let began = Instant::now();
    let weeks = Weeks::decide(case)?;
    let seconds = began.elapsed().as_secs_f32();
    let decisions = weeks.decisions();
    let mut run = Run::of(case, weeks)?;
    let files = run.files()?;
    fs::create_dir_all(out).map_err(|error| format!("{}: {error}", out.display()))?;
    for (name, bytes) in files {
        write(&out.join(name), bytes)?;
    }
    let text = run.summary()?;
    let place = out.display();
    say(&format!(
        "{text}{decisions} decisions in {seconds:.1} s\npicture: {place}/week.html\nreport:  {place}/report.csv\n"
    ))
}

/// Writes a file; one that this run does not have is not left there from another.
fn write(path: &Path, bytes: Option<Vec<u8>>) -> Result<(), String> {
    let result = match bytes {
        Some(bytes) => fs::write(path, bytes),
        None if path.exists() => fs::remove_file(path),
        None => Ok(()),
    };
    result.map_err(|error| format!("{}: {error}", path.display()))
}
