//! All that is read.

use std::fs;
use std::path::{Path, PathBuf};

use crate::barn::Farm;
use crate::gate::Gate;
use crate::rules::{rules, Rule};
use crate::sheet::Sheet;
use crate::tables::{self, Cow, Visit, Wash};
use crate::times::{date, parse, Calendar, FORMS, WEEK};
use crate::typed::Typed;

/// Where the files are. Those that may be missing are none.
#[derive(Debug, Default)]
pub struct Files {
    pub paper: PathBuf,
    pub rules: PathBuf,
    pub change: Option<PathBuf>,
    pub left: Option<PathBuf>,
    pub second: Option<PathBuf>,
    pub herd: PathBuf,
    pub visits: PathBuf,
    pub lived: Option<PathBuf>,
    pub washing: Option<PathBuf>,
    pub boxes: u8,
    /// When the change is made, as it was written.
    pub at: Option<String>,
    /// Whether the picture has the lines that each visit went through.
    pub shows_lines: bool,
}

/// The boxes of the example, and the moment at which its line 240 is retyped.
const BOXES: u8 = 3;
const CHANGED: &str = "Thu 12:00";

impl Files {
    /// The files of a folder, under the names that they have in the example.
    pub fn of(folder: &Path) -> Files {
        let there = |name: &str| Some(folder.join(name)).filter(|path| path.exists());
        Files {
            paper: folder.join("rules.md"),
            rules: folder.join("rules.nib"),
            change: there("retyped.nib"),
            left: there("leftover.nib"),
            second: None,
            herd: folder.join("herd.csv"),
            visits: folder.join("visits.csv"),
            lived: there("visits-leftover.csv"),
            washing: there("washing.csv"),
            boxes: BOXES,
            at: None,
            shows_lines: true,
        }
    }
}

/// The second book, from the change on.
pub enum Second {
    /// The first one, with these lines behind those of the change.
    Left(Typed),
    /// A book of its own.
    Whole(Typed),
}

pub struct Case {
    /// The rules on paper.
    pub rules: Vec<Rule>,
    /// The rule program, as it is typed on Monday.
    pub book: Typed,
    /// What is typed into it at the change.
    pub change: Option<Typed>,
    pub second: Option<Second>,
    pub herd: Vec<Cow>,
    pub visits: Vec<Visit>,
    /// The visits of the week as it was lived by the second book, if that is another list.
    pub lived: Option<Vec<Visit>>,
    pub washes: Vec<Wash>,
    pub boxes: u8,
    pub changed: u16,
    /// The date of the Monday, if the visits have dates.
    pub date: Option<String>,
    pub shows_lines: bool,
}

impl Case {
    pub fn read(files: &Files) -> Result<Case, String> {
        let typed = |path: &Option<PathBuf>| path.as_deref().map(Typed::read).transpose();
        let (herd, visits) = (Sheet::read(&files.herd)?, Sheet::read(&files.visits)?);
        let week = tables::calendar(&visits)?;
        let herd = tables::herd(&herd, files.boxes, week)?;
        let listed = |sheet: &Sheet| tables::visits(sheet, &herd, files.boxes, week);
        let lived = files.lived.as_deref().map(Sheet::read).transpose()?;
        let washing = files.washing.as_deref().map(Sheet::read).transpose()?;
        let washes = washing.map(|sheet| tables::washes(&sheet, files.boxes));
        let second = match typed(&files.second)? {
            Some(whole) => Some(Second::Whole(whole)),
            None => typed(&files.left)?.map(Second::Left),
        };
        Ok(Case {
            rules: paper(&files.paper)?,
            book: Typed::read(&files.rules)?,
            change: typed(&files.change)?,
            second,
            visits: listed(&visits)?,
            lived: lived.as_ref().map(listed).transpose()?,
            washes: washes.transpose()?.unwrap_or_default(),
            boxes: files.boxes,
            changed: moment(files, week)?,
            date: week.monday.map(date),
            shows_lines: files.shows_lines,
            herd,
        })
    }

    pub fn farm(&self) -> Farm<'_> {
        Farm {
            herd: &self.herd,
            washes: &self.washes,
            boxes: self.boxes,
            changed: self.changed,
        }
    }

    /// A gate with the book of Monday.
    pub fn monday(&self) -> Result<Gate, String> {
        Gate::with(&self.book)
    }

    /// Makes the change to a gate.
    pub fn change(&self, gate: &mut Gate) -> Result<(), String> {
        self.change
            .as_ref()
            .map_or(Ok(()), |lines| gate.type_in(lines))
    }

    /// Makes the second book of a gate with the book of Monday.
    pub fn change_to(&self, second: &Second, gate: &mut Gate) -> Result<(), String> {
        match second {
            Second::Whole(book) => *gate = Gate::with(book)?,
            Second::Left(lines) => {
                self.change(gate)?;
                gate.type_in(lines)?;
            }
        }
        Ok(())
    }
}

fn paper(path: &Path) -> Result<Vec<Rule>, String> {
    let name = path.display();
    let bytes = fs::read(path).map_err(|error| format!("{name}: {error}"))?;
    let rules = rules(&String::from_utf8_lossy(&bytes));
    match rules.is_empty() {
        true => Err(format!(
            "{name}: there is no rule in it, as \"1. **Box.** ..\" is one"
        )),
        false => Ok(rules),
    }
}

/// The minute of the week at which the change is made: where nothing is typed then, the two books differ from Monday on.
fn moment(files: &Files, week: Calendar) -> Result<u16, String> {
    let text = match (&files.at, &files.change) {
        (Some(text), _) => text,
        (None, Some(_)) => CHANGED,
        (None, None) => "0",
    };
    let minute = parse(text).and_then(|time| week.minute(time));
    let minute = minute.filter(|minute| (0..i64::from(WEEK)).contains(minute));
    minute
        .map(|minute| minute as u16)
        .ok_or_else(|| format!("--at {text:?} is no time in the week; allowed is {FORMS}, a date only where the visits have dates"))
}
