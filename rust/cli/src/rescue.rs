//! `cdf rescue`: what is whole in a broken E/R data group, written to another file, and what was dropped, in words.

use std::ffi::OsStr;
use std::fs::{self, OpenOptions};
use std::io::{self, Write};
use std::path::{Path, PathBuf};

use cdf::{Reader, Refusal};

use crate::args::Args;
use crate::escape::escaped_name;
use crate::input::{self, words};
use crate::json::Object;
use crate::output::Out;
use crate::saved::Saved;
use crate::units::refused;
use crate::{End, Stop};

/// As many bytes as a file to be rescued may have.
const MOST: usize = 1_048_576;
/// Room for any group.
const ROOM: usize = 65_535;

pub fn run(args: &mut Args, out: &mut Out) -> Result<End, Stop> {
    let as_json = args.flag("--json");
    let (Some(from), Some(to), 0) = (args.word(), args.word(), args.left()) else {
        return Err(Stop::Usage("rescue takes a file, and the file to write".to_string()));
    };
    args.finish()?;
    let file = input::read_up_to(&from, MOST + 1)?;
    let made = Object::new().text("file", &file.name);
    if file.bytes.len() > MOST {
        let why = "it has more than 1,048,576 bytes";
        let text = match as_json {
            true => format!("{}\n", made.boolean("written", false).text("rule", why).end()),
            false => format!("{}: refused: {why}. Nothing is written.\n", file.name),
        };
        out.write(&text)?;
        return Ok(End::Refused);
    }
    let mut buffer = vec![0; ROOM];
    let rescued = match cdf::rescue(&file.bytes, &mut buffer) {
        Ok(rescued) => rescued,
        Err(refusal) => {
            let text = match as_json {
                true => format!("{}\n", refused(made.boolean("written", false), &refusal).end()),
                false => format!(
                    "{}: refused, number {}: {}. Nothing is written.\n{}\n",
                    file.name,
                    refusal.number,
                    rule(&refusal),
                    next(&file.bytes)
                ),
            };
            out.write(&text)?;
            return Ok(End::Refused);
        }
    };
    let saved = Saved::new(&file.bytes, rescued.group, &rescued.dropped);
    replace(&to, rescued.group)?;
    let text = match as_json {
        true => format!("{}\n", saved.json(made.boolean("written", true).text("output", &escaped_name(&to)))),
        false => saved.text(&escaped_name(&to)),
    };
    out.write(&text)?;
    Ok(End::Done)
}

fn rule(refusal: &Refusal) -> &'static str {
    match refusal.number {
        3 => "it has fewer than six bytes",
        _ => refusal.rule(),
    }
}

/// What is to be done about a refused file.
fn next(bytes: &[u8]) -> String {
    match Reader::new(bytes).next() {
        Some(Ok(root)) if cdf::check(bytes).is_ok() => {
            format!("Nothing is wrong with it: it is a whole {}, and needs no rescue.", root.id())
        }
        _ => "Ask the sender for the file again.".to_string(),
    }
}

/// Writes a file that is whole or not there: under another name beside it, which then takes its place.
fn replace(to: &OsStr, bytes: &[u8]) -> Result<(), Stop> {
    let failed = |error: io::Error| Stop::Failed(format!("cannot write {}: {}", escaped_name(to), words(&error)));
    let before = fs::metadata(to).ok();
    if before.as_ref().is_some_and(|before| !before.is_file()) {
        return Err(Stop::Failed(format!("cannot write {}: it is no plain file", escaped_name(to))));
    }
    // A link stays one: what it leads to is written.
    let target = match before {
        Some(_) => fs::canonicalize(to).map_err(failed)?,
        None => PathBuf::from(to),
    };
    let name = target.file_name().ok_or_else(|| Stop::Failed(format!("cannot write {}: it names no file", escaped_name(to))))?;
    let mut beside = OsStr::new(".").to_os_string();
    beside.push(name);
    beside.push(format!(".{}.new", std::process::id()));
    let beside = target.with_file_name(beside);
    let written = write_new(&beside, bytes, before.map(|before| before.permissions())).and_then(|()| fs::rename(&beside, &target));
    written.map_err(|error| {
        // Nothing is left of it; where it was never made there is nothing to take away.
        let _ = fs::remove_file(&beside);
        failed(error)
    })
}

fn write_new(path: &Path, bytes: &[u8], permissions: Option<fs::Permissions>) -> io::Result<()> {
    let mut file = OpenOptions::new().write(true).create_new(true).open(path)?;
    if let Some(permissions) = permissions {
        file.set_permissions(permissions)?;
    }
    file.write_all(bytes)?;
    file.sync_all()
}
