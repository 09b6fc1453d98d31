//! Reads the page of a box taken over from the old interpreter, names the lines that stand there twice, and writes a listing
//! to be typed again: `tools/oldpage`.

mod listing;
mod walk;

use std::fs;
use std::io::{self, Read, Write};
use std::process::ExitCode;

use listing::{listing, Kept};

const USAGE: &str = "\
usage: oldpage PAGE
Reads PAGE, the bytes of a page (2 to 4,096; - for standard input), and writes a listing of it to standard output, to be typed
into an empty page. Of lines with one number the first is kept, which is the one that was typed last; standard error shows all of
them. Any other fault of the page is named with its position, counted from 0, and nothing is listed.
";

fn main() -> ExitCode {
    let words: Vec<String> = std::env::args().skip(1).collect();
    match &words[..] {
        [word] if word == "-h" || word == "--help" => {
            print!("{USAGE}");
            ExitCode::SUCCESS
        }
        [name] => told(name),
        _ => {
            eprint!("{USAGE}");
            ExitCode::from(2)
        }
    }
}

fn told(name: &str) -> ExitCode {
    let result = read(name).and_then(|page| listing(&page).map_err(|fault| fault.to_string()));
    let written = result.and_then(|kept| {
        eprint!("{}", doubles(name, &kept));
        let out = io::stdout().write_all(kept.listing.as_bytes());
        out.map_err(|error| format!("standard output: {error}"))
    });
    match written {
        Ok(()) => ExitCode::SUCCESS,
        Err(error) => {
            eprintln!("oldpage: {name}: {error}");
            ExitCode::FAILURE
        }
    }
}

fn read(name: &str) -> Result<Vec<u8>, String> {
    let bytes = match name {
        "-" => {
            let mut bytes = Vec::new();
            io::stdin().read_to_end(&mut bytes).map(|_| bytes)
        }
        name => fs::read(name),
    };
    bytes.map_err(|error| error.to_string())
}

/// What is said of the lines that stand more than once.
fn doubles(name: &str, kept: &Kept) -> String {
    let mut text = String::new();
    for (first, others) in &kept.doubles {
        text += &format!(
            "oldpage: {name}: line {} stands {} times\n",
            first.number,
            1 + others.len()
        );
        text += &format!("  kept, at {}: {}\n", first.at, first.typed());
        for other in others {
            text += &format!("  left out, at {}: {}\n", other.at, other.typed());
        }
    }
    let left_out: usize = kept.doubles.iter().map(|(_, others)| others.len()).sum();
    text + &format!(
        "oldpage: {name}: {} lines listed, {left_out} left out\n",
        kept.lines
    )
}
