//! `cdf check`: whether files are streams, many at once and whole folders.

use std::collections::BTreeMap;
use std::ffi::{OsStr, OsString};
use std::fs;
use std::io::{self, IsTerminal};
use std::path::Path;
use std::time::{Duration, Instant};

use crate::args::Args;
use crate::escape::escaped_name;
use crate::json::Object;
use crate::output::{complain, Out};
use crate::units::refused;
use crate::{input, End, Stop};

pub fn run(args: &mut Args, out: &mut Out) -> Result<End, Stop> {
    let as_json = args.flag("--json");
    let mut given = Vec::new();
    while let Some(word) = args.word() {
        given.push(word);
    }
    args.finish()?;
    if given.is_empty() {
        given.push(OsString::from("-"));
    }
    if given.iter().filter(|word| *word == "-").count() > 1 {
        return Err(Stop::Usage("check: standard input can be read once".to_string()));
    }
    let many = given.len() > 1 || Path::new(&given[0]).is_dir();
    let mut totals = Totals::default();
    let mut files = Vec::new();
    for word in given {
        gather(&word, &mut files, &mut totals);
    }
    let mut bar = Bar::new(files.len());
    for file in &files {
        bar.step(totals.files);
        match input::read(file) {
            Ok(read) => {
                let answer = cdf::check(&read.bytes);
                totals.add(&answer);
                bar.clear();
                out.write(&line(&read.name, &answer, many, as_json))?;
            }
            Err(Stop::Failed(why)) if many => {
                bar.clear();
                totals.unread(&why);
            }
            Err(other) => return Err(other),
        }
    }
    bar.clear();
    if many && !as_json {
        out.write(&totals.words())?;
    }
    if totals.unread > 0 {
        out.flush()?;
        let files = if totals.unread == 1 { "a file" } else { "files" };
        return Err(Stop::Failed(format!("check: {files} could not be read ({})", totals.unread)));
    }
    Ok(if totals.refused() > 0 { End::Refused } else { End::Done })
}

/// The files that a word names: itself, or all below a folder, by their names. Hidden ones, links to folders, and what is no plain file are
/// passed over there; a folder that cannot be read is told, and the others are asked.
fn gather(word: &OsStr, files: &mut Vec<OsString>, totals: &mut Totals) {
    let path = Path::new(word);
    if word == "-" || !path.is_dir() {
        files.push(word.to_os_string());
        return;
    }
    let entries = fs::read_dir(path).and_then(|entries| entries.collect::<io::Result<Vec<_>>>());
    let mut entries = match entries {
        Ok(entries) => entries,
        Err(error) => {
            totals.unread(&format!("cannot read {}: {}", escaped_name(word), input::words(&error)));
            return;
        }
    };
    entries.retain(|entry| !entry.file_name().as_encoded_bytes().starts_with(b"."));
    entries.sort_by_key(|entry| entry.file_name());
    for entry in entries {
        let path = entry.path();
        let is_link = entry.file_type().is_ok_and(|kind| kind.is_symlink());
        if path.is_dir() && !is_link {
            gather(path.as_os_str(), files, totals);
        } else if path.is_file() {
            files.push(path.into_os_string());
        }
    }
}

fn line(name: &str, answer: &Result<usize, cdf::Refusal>, many: bool, as_json: bool) -> String {
    if as_json {
        let made = Object::new().text("file", name).boolean("accepted", answer.is_ok());
        let made = match answer {
            Ok(units) => made.number("units", *units as u64),
            Err(refusal) => refused(made, refusal),
        };
        return format!("{}\n", made.end());
    }
    let before = if many { format!("{name}: ") } else { String::new() };
    match answer {
        Ok(units) => format!("{before}ok {units}\n"),
        Err(refusal) => format!("{before}refused {} at {}\n", refusal.number, refusal.offset.unwrap_or(0)),
    }
}

#[derive(Default)]
struct Totals {
    files: usize,
    accepted: usize,
    by_number: BTreeMap<u64, usize>,
    unread: usize,
}

impl Totals {
    fn add(&mut self, answer: &Result<usize, cdf::Refusal>) {
        self.files += 1;
        match answer {
            Ok(_) => self.accepted += 1,
            Err(refusal) => *self.by_number.entry(refusal.number).or_default() += 1,
        }
    }

    fn unread(&mut self, why: &str) {
        complain(&format!("cdf: {why}\n"));
        self.files += 1;
        self.unread += 1;
    }

    fn refused(&self) -> usize {
        self.by_number.values().sum()
    }

    fn words(&self) -> String {
        let files = if self.files == 1 { "1 file".to_string() } else { format!("{} files", self.files) };
        let mut text = format!("{files}: {} accepted, {} refused", self.accepted, self.refused());
        if self.unread > 0 {
            text.push_str(&format!(", {} not read", self.unread));
        }
        text.push('\n');
        for (number, count) in &self.by_number {
            let rule = cdf::Refusal { number: *number, offset: None };
            text.push_str(&format!("    {count} by number {number}: {}\n", rule.rule()));
        }
        text
    }
}

/// How far it is, on standard error, where that is a terminal and it takes longer than a second.
struct Bar {
    files: usize,
    began: Instant,
    /// When it was last drawn, and whether it stands there now.
    shown: Option<Instant>,
    there: bool,
    wanted: bool,
}

impl Bar {
    fn new(files: usize) -> Bar {
        Bar { files, began: Instant::now(), shown: None, there: false, wanted: io::stderr().is_terminal() && files > 1 }
    }

    fn step(&mut self, done: usize) {
        let late = self.began.elapsed() > Duration::from_secs(1);
        let again = self.shown.is_none_or(|last| last.elapsed() > Duration::from_millis(100));
        if self.wanted && late && again {
            let full = done * 30 / self.files;
            complain(&format!("\r[{}{}] {done} of {} files", "#".repeat(full), " ".repeat(30 - full), self.files));
            self.shown = Some(Instant::now());
            self.there = true;
        }
    }

    /// Takes the bar away, so that what is written next has the line for itself.
    fn clear(&mut self) {
        if self.there {
            complain("\r\x1b[K");
            self.there = false;
        }
    }
}
