//! A dealer's session: typed lines go to the controller, lines with a dot to the desk itself.

use std::io::Write;

use crate::books::{export, import, is_refusal, load, save, Saved};
use crate::commands::{parse, Command, HELP};
use crate::desk::{Desk, Reply};
use crate::page;
use crate::screen::PROMPT;
use crate::seat::{Asked, Seat};
use crate::show;
use crate::words::{counted, grouped, sentence, stops};

pub struct Session<W: Write> {
    desk: Desk,
    seat: Seat<W>,
    saved: Saved,
    /// What stands behind the next prompt already.
    draft: String,
    /// The dealer has said that it ends.
    ended: bool,
}

impl<W: Write> Session<W> {
    pub fn new(seat: Seat<W>) -> Session<W> {
        Session {
            desk: Desk::default(),
            seat,
            saved: Saved::default(),
            draft: String::new(),
            ended: false,
        }
    }

    /// Types some files, and then what the dealer types, until the dealer leaves.
    pub fn run(&mut self, files: &[&str]) {
        self.say(&self.lent());
        self.say(".help says what can be done; .quit ends");
        for file in files {
            load(&mut self.desk, &mut self.seat, &mut self.saved, file);
        }
        while !self.ended && !self.seat.has_left() {
            let draft = std::mem::take(&mut self.draft);
            match self.seat.line(&draft) {
                Asked::Line(line) => self.obey(&line),
                Asked::Interrupted => {}
                Asked::Closed => self.quit(),
            }
        }
    }

    fn say(&mut self, words: &str) {
        self.seat.screen.say(words, false);
    }

    fn obey(&mut self, line: &str) {
        match parse(line) {
            None => {
                let reply = self.desk.take_line(line.as_bytes(), &mut self.seat);
                self.seat.point(PROMPT, line.as_bytes(), &reply);
                self.answer(&reply);
            }
            Some(Ok(command)) => self.command(command),
            Some(Err(fault)) => self.seat.screen.say(&fault, true),
        }
    }

    fn answer(&mut self, reply: &Reply) {
        let stands_out = is_refusal(reply.stop);
        self.seat.screen.say(&sentence(reply), stands_out);
        if let Some(was) = &reply.more.was {
            self.say(&format!("it was {was}"));
        }
    }

    fn command(&mut self, command: Command) {
        match command {
            Command::GoOn => {
                let reply = self.desk.go_on(&mut self.seat);
                self.answer(&reply);
            }
            Command::Load(file) => load(&mut self.desk, &mut self.seat, &mut self.saved, &file),
            Command::Save(file) => save(&self.desk, &mut self.seat, &mut self.saved, &file),
            Command::Export(file) => {
                export(&mut self.desk, &mut self.seat, &mut self.saved, &file);
            }
            Command::Import(file) => {
                import(&mut self.desk, &mut self.seat, &mut self.saved, &file);
            }
            Command::List(first, last) => self.list(first, last),
            Command::Edit(line) => self.edit(line),
            Command::Find(text) => self.find(&text),
            Command::Show => self.seat.screen.tell(&show::state(&self.desk)),
            Command::Help => self.seat.screen.tell(HELP),
            Command::Stops => self.seat.screen.tell(&stops()),
            Command::Quit => self.quit(),
            Command::Sense(value) => self.sense(value),
            Command::Budget(value) => self.budget(value),
            Command::Memory => {
                let rows = show::memory(&self.desk.controller.memory);
                self.seat.screen.tell(&rows);
            }
            Command::MemoryAt(address) => self.memory(address),
            Command::MemorySet(address, values) => self.store(address, &values),
        }
    }

    /// Ends, but not with a program that is in no file, unless the dealer has been told.
    fn quit(&mut self) {
        self.ended = self.seat.has_left() || !self.saved.is_to_be_told(&self.desk);
        if !self.ended {
            let words = "the program is in no file: .save FILE writes it; .quit or Ctrl-D ends";
            self.seat.screen.say(words, true);
        }
    }

    /// Lines as LIST writes them. The run that is paused stays paused.
    fn list(&mut self, first: u16, last: u16) {
        let rows = self.rows(|line, _| (first..=last).contains(&line));
        match rows.is_empty() {
            true => self.say("there is no such line"),
            false => self.seat.screen.tell(&rows.concat()),
        }
    }

    fn find(&mut self, text: &str) {
        let wanted = text.to_ascii_uppercase();
        let rows = self.rows(|_, row| row.to_ascii_uppercase().contains(&wanted));
        match rows.is_empty() {
            true => self.say(&format!("no line has {text}")),
            false => self.seat.screen.tell(&rows.concat()),
        }
    }

    /// The listed lines of which something holds.
    fn rows(&self, holds: impl Fn(u16, &str) -> bool) -> Vec<String> {
        let page = &self.desk.controller.page;
        let listed = |line: &page::Line| (line.number, page::listed(page, line));
        page::lines(page)
            .iter()
            .map(listed)
            .filter(|(number, row)| holds(*number, row))
            .map(|(_, row)| row + "\n")
            .collect()
    }

    fn edit(&mut self, line: u16) {
        match self.rows(|number, _| number == line).pop() {
            Some(row) => self.draft = row.trim_end_matches('\n').to_string(),
            None => self
                .seat
                .screen
                .say(&format!("there is no line {line}"), true),
        }
    }

    /// What the desk lends.
    fn lent(&self) -> String {
        format!(
            "a page of {} bytes, a memory of {}, {} for a reply",
            grouped(self.desk.controller.page.len() as u64),
            grouped(self.desk.controller.memory.len() as u64),
            counted(self.desk.budget, "step"),
        )
    }

    fn sense(&mut self, value: Option<u8>) {
        self.desk.sense = value.unwrap_or(self.desk.sense);
        let sense = self.desk.sense;
        self.seat.screen.say(
            &format!("the sense byte is {sense}; STAT reads {} of it", sense & 48),
            false,
        );
    }

    fn budget(&mut self, value: Option<u64>) {
        self.desk.budget = value.unwrap_or(self.desk.budget);
        self.seat.screen.say(
            &format!("{} for a reply", counted(self.desk.budget, "step")),
            false,
        );
    }

    fn memory(&mut self, address: usize) {
        match show::memory_at(&self.desk.controller.memory, address) {
            Some(rows) => self.seat.screen.tell(&rows),
            None => self.not_there(),
        }
    }

    fn store(&mut self, address: usize, values: &[u8]) {
        let memory = &mut self.desk.controller.memory;
        let Some(room) = memory.get_mut(address..address + values.len()) else {
            return self.not_there();
        };
        room.copy_from_slice(values);
        if let Some(rows) = show::memory_part(memory, address, values.len()) {
            self.seat.screen.tell(&rows);
        }
    }

    fn not_there(&mut self) {
        let last = self.desk.controller.memory.len() - 1;
        self.seat
            .screen
            .say(&format!("the memory goes from 0 to {last}"), true);
    }
}
