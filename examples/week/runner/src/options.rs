//! The words of the command line.

use std::path::{Path, PathBuf};

use crate::case::Files;

pub const USAGE: &str = "\
usage: week [OPTIONS] [OUT]
Decides a week of visits by a rule book, and writes reports and a picture to OUT (target/week if none is named).

  --folder FOLDER  where the files are that no other option names (examples/week)
  --herd FILE      the herd list (FOLDER/herd.csv)
  --visits FILE    the visits (FOLDER/visits.csv)
  --paper FILE     the rules on paper, for their names and words (FOLDER/rules.md)
  --rules FILE     the rule book, as it is typed on Monday (FOLDER/rules.nib). The folder's change and its second book do
                   not go with another one: name them, too
  --change FILE    lines that are typed into it at the change (FOLDER/retyped.nib)
  --at TIME        when the change is made: 5040, \"Thu 12:00\" (if none is named), \"2026-11-19 12:00\" or \"19.11.2026 12:00\"
  --left FILE      the second book is the first one with these lines typed behind the change (FOLDER/leftover.nib)
  --second FILE    the second book is this one, from the change on, or all week if nothing is changed
  --lived FILE     the visits as they come when the second book counts (FOLDER/visits-leftover.csv). Without such a list both
                   books decide the same visits
  --boxes N        boxes, 1 to 255 (3)
  --lines none     the picture does without the lines that each visit went through: it is written sooner
  --washing FILE   when the boxes are washed every day, or the word none (FOLDER/washing.csv)
";

/// The files, and where to write.
pub fn read(words: &[String]) -> Result<(Files, PathBuf), String> {
    let (mut options, mut places) = (Vec::new(), Vec::new());
    let mut rest = words.iter();
    while let Some(word) = rest.next() {
        match word.starts_with('-') {
            true => {
                let value = rest.next().ok_or_else(|| format!("{word} needs a value"))?;
                options.push((word.as_str(), value.as_str()));
            }
            false => places.push(word.as_str()),
        }
    }
    let last = |name| {
        options
            .iter()
            .rev()
            .find(|(option, _)| *option == name)
            .map(|(_, value)| *value)
    };
    let out = match places[..] {
        [] => last("--out").ok_or("where to write is not named")?,
        [out] => out,
        _ => {
            return Err(format!(
                "one place to write is enough, and these are {}: {}",
                places.len(),
                places.join(", ")
            ))
        }
    };
    let folder = last("--folder").ok_or("no folder is named")?;
    let mut files = Files::of(Path::new(folder));
    forget(&mut files, &options);
    for (name, value) in options {
        set(&mut files, name, value)?;
    }
    Ok((files, PathBuf::from(out)))
}

/// What belongs to the folder's rules or visits does not go with others.
fn forget(files: &mut Files, options: &[(&str, &str)]) {
    let is_named = |name| options.iter().any(|(option, _)| *option == name);
    if is_named("--rules") {
        (files.change, files.left, files.lived) = (None, None, None);
    }
    if is_named("--visits") || is_named("--herd") || is_named("--second") {
        files.lived = None;
    }
}

fn set(files: &mut Files, name: &str, value: &str) -> Result<(), String> {
    let path = PathBuf::from(value);
    match name {
        "--folder" | "--out" => {}
        "--herd" => files.herd = path,
        "--visits" => files.visits = path,
        "--paper" => files.paper = path,
        "--rules" => files.rules = path,
        "--change" => files.change = Some(path),
        "--at" => files.at = Some(value.to_string()),
        "--left" => (files.left, files.second) = (Some(path), None),
        "--second" => files.second = Some(path),
        "--lived" => files.lived = Some(path),
        "--boxes" => {
            let boxes = value.parse().ok().filter(|boxes| *boxes > 0);
            files.boxes = boxes
                .ok_or_else(|| format!("--boxes {value}: allowed is a number from 1 to 255"))?;
        }
        "--lines" if value == "none" => files.shows_lines = false,
        "--lines" => return Err(format!("--lines {value}: allowed is none")),
        "--washing" => files.washing = Some(path).filter(|_| value != "none"),
        _ => return Err(format!("there is no option {name}")),
    }
    Ok(())
}
