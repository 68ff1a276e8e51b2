//! `cdf lookup`: a field's value, from the first of two files that has it.

use std::ffi::OsString;

use cdf::{Key, Refusal, Which};

use crate::args::{text_of, Args};
use crate::escape::{escaped, quoted};
use crate::input::Input;
use crate::json::Object;
use crate::output::Out;
use crate::units::refused;
use crate::{input, End, Stop};

pub fn run(args: &mut Args, out: &mut Out) -> Result<End, Stop> {
    let (as_json, raw, alone) = (args.flag("--json"), args.flag("--raw"), args.flag("--value"));
    let wrong = "lookup takes one file or two, a template's name, a key and a field's name";
    if !(4..=5).contains(&args.left()) {
        return Err(Stop::Usage(wrong.to_string()));
    }
    let two = args.left() == 5;
    let mut next = || args.word().ok_or_else(|| Stop::Usage(wrong.to_string()));
    let first = next()?;
    let second = if two { Some(next()?) } else { None };
    let (template, key, field) = (next()?, next()?, next()?);
    args.finish()?;
    if first == "-" && second.as_deref().is_some_and(|file| file == "-") {
        return Err(Stop::Usage("lookup: standard input can be read once".to_string()));
    }
    let key = key_of(&key)?;
    let one = input::read(&first)?;
    let other = second.map(|file| input::read(&file)).transpose()?;
    let files = Files { one: &one, other: other.as_ref() };
    let (first, second) = (&one.bytes[..], other.as_ref().map_or(&one.bytes[..], |file| &file.bytes[..]));
    let (template, field) = (name_of(&template), name_of(&field));
    let answer = cdf::lookup(first, second, &template, key.as_key(), &field);
    if as_json {
        let made = Object::new().boolean("found", answer.is_ok());
        let made = match &answer {
            Ok(found) => made
                .text("file", files.name(found.which))
                .number("which", if found.which == Which::First { 1 } else { 2 })
                .number("start", found.start as u64)
                .bytes("value", found.value),
            Err(refusal) => refused(made, refusal).some(files.blamed(refusal), |made, file| made.text("file", file)),
        };
        out.write(&format!("{}\n", made.end()))?;
    } else {
        match &answer {
            // Alone into a pipe the value is itself, byte for byte.
            Ok(found) if alone && (raw || !out.terminal) => out.write_bytes(found.value)?,
            Ok(found) if alone => out.write(&format!("{}\n", escaped(found.value)))?,
            Ok(found) if raw => {
                out.write_bytes(found.value)?;
                out.write("\n")?;
            }
            Ok(found) => {
                let (start, name) = (found.start, files.name(found.which));
                let which = files.which(found.which);
                out.write(&format!("Found in {which}{name}, from byte {start}: {}\n", quoted(found.value)))?;
            }
            Err(refusal) => out.write(&files.refusal(refusal))?,
        }
    }
    Ok(if answer.is_ok() { End::Done } else { End::Refused })
}

/// One file, which is then both, or two.
struct Files<'a> {
    one: &'a Input,
    other: Option<&'a Input>,
}

impl Files<'_> {
    fn name(&self, which: Which) -> &str {
        match (which, self.other) {
            (Which::Second, Some(file)) => &file.name,
            _ => &self.one.name,
        }
    }

    fn which(&self, which: Which) -> &'static str {
        match (which, self.other) {
            (_, None) => "",
            (Which::First, _) => "the first file, ",
            (Which::Second, _) => "the second file, ",
        }
    }

    /// The file that a refusal speaks of: the first that the check refuses, or that is no E/R data group.
    fn blamed(&self, refusal: &Refusal) -> Option<&str> {
        let files = [Some(self.one), self.other];
        let mut there = files.into_iter().flatten();
        let found = match refusal {
            Refusal { number: 15, .. } => None,
            Refusal { number: 7, offset: None } => there.find(|file| !is_group(&file.bytes)),
            _ => there.find(|file| cdf::check(&file.bytes).is_err()),
        };
        found.map(|file| file.name.as_str())
    }

    fn refusal(&self, refusal: &Refusal) -> String {
        match (refusal, self.blamed(refusal)) {
            (Refusal { number: 15, .. }, _) => {
                let where_ = if self.other.is_some() { "Neither file has" } else { "The file does not have" };
                format!("Refused, number 15. {where_} this field in the first template of this name and key.\n")
            }
            (Refusal { offset: None, .. }, Some(file)) => {
                format!("Refused, number {}. {file} is no E/R data group: only those have templates with fields.\n", refusal.number)
            }
            (Refusal { number, offset: Some(offset) }, Some(file)) => {
                format!("Refused, number {number} at byte {offset} of {file}: 'cdf explain' says why.\n")
            }
            (_, None) => format!("Refused, {refusal}.\n"),
        }
    }
}

/// Whether the root is an E/R data group.
fn is_group(stream: &[u8]) -> bool {
    cdf::Reader::new(stream).next().is_some_and(|unit| unit.is_ok_and(|unit| unit.id() == cdf::Id::ErGroup))
}

/// A key as it is given: '#' and a number, or a text; '##x' is the text '#x'.
enum Given {
    Number(u32),
    Text(Vec<u8>),
}

impl Given {
    fn as_key(&self) -> Key<'_> {
        match self {
            Given::Number(number) => Key::Temporary(*number),
            Given::Text(text) => Key::Template(text),
        }
    }
}

fn key_of(word: &OsString) -> Result<Given, Stop> {
    let bytes = text_of(word);
    let Some(behind) = bytes.strip_prefix(b"#") else {
        return Ok(Given::Text(bytes.to_vec()));
    };
    if behind.starts_with(b"#") {
        return Ok(Given::Text(behind.to_vec()));
    }
    let no_key = |why| Stop::Usage(format!("lookup: no key: '{}': {why}", escaped(bytes)));
    if behind.is_empty() || !behind.iter().all(u8::is_ascii_digit) {
        return Err(no_key("a number stands behind '#', or a second '#' for a text that begins with '#'"));
    }
    let digits = std::str::from_utf8(behind).unwrap_or_default().trim_start_matches('0');
    match if digits.is_empty() { Ok(0) } else { digits.parse() } {
        Ok(number) => Ok(Given::Number(number)),
        Err(_) => Err(no_key("the largest number is 4294967295")),
    }
}

/// A name as it reads. One that is no text is found nowhere, as no name of a stream has other bytes than letters, digits and underscores.
fn name_of(word: &OsString) -> String {
    word.to_string_lossy().into_owned()
}
