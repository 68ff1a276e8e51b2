//! `cdf explain`: why a file is refused, in words.

use cdf::{Action, Explanation, Id, NAME_MOST, VALUE_MOST};

use crate::args::Args;
use crate::cause::{likely, plural};
use crate::escape::{escaped, quoted};
use crate::input::{Input, MOST};
use crate::json::Object;
use crate::output::Out;
use crate::units::{actions, choice, head, ids, object, refused, Units};
use crate::{input, json, End, Stop};

pub fn run(args: &mut Args, out: &mut Out) -> Result<End, Stop> {
    let as_json = args.flag("--json");
    let file = input::read(&args.one_file()?)?;
    let Some(why) = cdf::explain(&file.bytes) else {
        let count = cdf::check(&file.bytes).unwrap_or_default();
        let text = match as_json {
            true => format!("{}\n", Object::new().text("file", &file.name).boolean("accepted", true).number("units", count as u64).end()),
            false => format!("{}: accepted, with {count} {}. Nothing is wrong.\n", file.name, plural(count, "unit")),
        };
        out.write(&text)?;
        return Ok(End::Done);
    };
    let fault = Fault::new(&file, &why);
    let text = if as_json { format!("{}\n", fault.json()) } else { fault.text() };
    out.write(&text)?;
    Ok(End::Refused)
}

/// A refusal with all that can be told of it.
pub struct Fault<'a> {
    file: &'a Input,
    why: &'a Explanation,
    pub units: Units<'a>,
    /// Where the refused unit begins, or would have to begin; beside 10 where the incomplete one does.
    pub start: usize,
}

impl<'a> Fault<'a> {
    pub fn new(file: &'a Input, why: &'a Explanation) -> Fault<'a> {
        let units = Units::of(&file.bytes);
        let start = if why.refusal.number == 10 { why.refusal.offset.unwrap_or(0) } else { units.next };
        Fault { file, why, units, start }
    }

    fn byte(&self, at: usize) -> Option<u8> {
        self.file.bytes.get(at).copied()
    }

    /// The refused unit's kind, by its sixth byte.
    fn kind(&self) -> Option<Id> {
        Id::from_number(u64::from(self.byte(self.start + 5)?))
    }

    fn stated(&self) -> usize {
        let byte = |at| usize::from(self.byte(self.start + at).unwrap_or(0));
        byte(2) * 256 + byte(3)
    }

    /// What is around the refused unit: in words, and where it ends.
    fn around(&self) -> (String, usize) {
        match self.why.open.last().and_then(|open| self.units.at(open.start)) {
            Some(unit) => (format!("the {} from byte {}", head(unit), unit.start()), unit.end()),
            None => ("the file".to_string(), self.file.bytes.len()),
        }
    }

    /// What is wrong, in a sentence or two.
    pub fn sentence(&self) -> String {
        let (around, end) = self.around();
        let left = left(end.saturating_sub(self.start));
        let kind = self.kind().map_or("unit".to_string(), |id| id.to_string());
        let a_kind = with_article(&kind);
        let stated = self.stated();
        match self.why.refusal.number {
            3 => format!("A unit would have to begin here, with six bytes, and {left} in {around}."),
            4 => {
                let two: Vec<String> = (0..2).filter_map(|k| self.byte(self.start + k)).map(|byte| format!("{byte:02X}")).collect();
                format!("A unit would have to begin here, with the bytes CD F1, and here stand {}.", two.join(" "))
            }
            5 if self.why.open.is_empty() => {
                let came = if self.file.is_long() { format!("more than {}", MOST - 1) } else { self.file.bytes.len().to_string() };
                format!("The stream states that it has {stated} {}, and the file has {came}.", plural(stated, "byte"))
            }
            5 if stated < 6 => format!("A unit here states a length of {stated} {}, and its first six are needed.", plural(stated, "byte")),
            5 => format!("A unit here states a length of {stated} bytes, and {left} in {around}."),
            6 => {
                let all = Id::ALL.map(Id::number);
                let (first, last) = (all[0], all[all.len() - 1]);
                format!("A unit here has the id {}, and there are the ids {first} to {last}.", self.byte(self.start + 5).unwrap_or(0))
            }
            7 if self.why.open.is_empty() => format!("{} is no stream by itself.", capital(&a_kind)),
            7 => format!("{} may not stand here.", capital(&a_kind)),
            8 => {
                let number = self.byte(self.start + 4).unwrap_or(0);
                let word = Action::from_number(u64::from(number)).map_or(number.to_string(), numbered);
                let allowed = self.actions();
                let unit = self.with_action(allowed.first()).unwrap_or(kind);
                let words: Vec<String> = allowed.into_iter().map(numbered).collect();
                format!("The {unit} has the action {word}. {} can have: {}.", capital(&a_kind), choice(&words))
            }
            9 => self.data(),
            _ => {
                let unit = self.units.at(self.start).map_or(kind, head);
                let missing: Vec<String> = self.why.admitted.iter().map(|id| with_article(&id.to_string())).collect();
                format!("The {unit} ends without what it must have: next it would have to hold {}.", choice(&missing))
            }
        }
    }

    /// The bytes with another action in the refused unit.
    fn acted(&self, action: &Action) -> Vec<u8> {
        let mut tried = self.file.bytes.clone();
        tried[self.start + 4] = action.number() as u8;
        tried
    }

    /// Beside 8 the actions that would do. The archive is asked: the stream with that byte exchanged.
    fn actions(&self) -> Vec<Action> {
        let allowed = |action: &Action| match cdf::check(&self.acted(action)) {
            Ok(_) => true,
            Err(refusal) => (refusal.number, refusal.offset) != (8, Some(self.start)),
        };
        Action::ALL.into_iter().filter(allowed).collect()
    }

    /// Beside 8 the refused unit with its name, if with a right action it is handed out.
    fn with_action(&self, action: Option<&Action>) -> Option<String> {
        Some(head(Units::of(&self.acted(action?)).at(self.start)?))
    }

    /// Beside 9 which of the unit's data is wrong: its name, its value or its number. The byte tells, as the first that is wrong.
    fn data(&self) -> String {
        let offset = self.why.refusal.offset.unwrap_or(0);
        let Some(kind) = self.kind() else {
            return self.why.refusal.to_string();
        };
        let count_at = self.start + 6;
        let count = usize::from(self.byte(count_at).unwrap_or(0));
        let mut unit = kind.to_string();
        let byte = self.byte(offset).filter(|_| offset < self.start + self.stated());
        let seen = byte.map_or(String::new(), |byte| format!("{byte:02X}, {}", quoted(&[byte])));
        let rule = match (kind.has_name(), offset - count_at) {
            (true, 0) => match byte {
                Some(byte) => format!("The name's count byte is {byte}: a name has 1 to {NAME_MOST} bytes, all of them in the unit."),
                None => "The unit ends where its name's count byte would have to stand.".to_string(),
            },
            (true, 1) => format!("The name begins with the byte {seen}: a name begins with a letter, A to Z."),
            (true, at) if at <= count => format!("In the name stands the byte {seen}: a name has letters A to Z, digits and underscores."),
            (named, _) if kind.has_value() => {
                if named {
                    let name = self.file.bytes.get(count_at + 1..count_at + 1 + count).unwrap_or_default();
                    unit = format!("{unit} {}", escaped(name));
                }
                format!("The value is longer than {} bytes: this is the first byte too many.", thousands(VALUE_MOST))
            }
            _ => {
                let (has, wants) = (self.stated() - 6, kind.numbers() * 4);
                format!(
                    "Behind its first six bytes the unit has {has}, and its {} {wants}.",
                    if wants > 4 { "two numbers take" } else { "number takes" }
                )
            }
        };
        format!("{rule} The unit is {}, from byte {}.", with_article(&unit), self.start)
    }

    fn text(&self) -> String {
        let refusal = &self.why.refusal;
        let mut text = format!("{}: refused, number {} at byte {}.\n", self.file.name, refusal.number, refusal.offset.unwrap_or(0));
        text.push_str(&format!("{}\n", self.sentence()));
        if self.why.open.is_empty() {
            text.push_str("No unit is around it: it is where the stream begins.\n");
        } else {
            let lead = if refusal.number == 10 { "It is the last of these units" } else { "The units around it" };
            text.push_str(&format!("{lead}, the outermost first:\n"));
            for unit in self.why.open.iter().filter_map(|open| self.units.at(open.start)) {
                text.push_str(&format!("    {}, from byte {} to {}\n", self.units.found_by(unit), unit.start(), unit.end() - 1));
            }
        }
        match (refusal.number, &self.why.admitted[..]) {
            (5 | 8..=10, _) => {}
            (_, []) => text.push_str("Nothing more could have stood here.\n"),
            (_, admitted) => text.push_str(&format!("Here could have stood: {}.\n", choice(admitted))),
        }
        if let Some(unit) = self.units.last_template(self.start) {
            text.push_str(&format!(
                "The last whole template before it: {}, from byte {} to {}.\n",
                self.units.found_by(unit),
                unit.start(),
                unit.end() - 1
            ));
        }
        if let Some(cause) = likely(self.file, &self.units, self.start) {
            text.push_str(&format!("Likely cause: {cause}\n"));
        }
        if let Some(rescue) = self.rescue() {
            text.push_str(&format!("{rescue}\n"));
        }
        text
    }

    /// Of an E/R data group what a rescue would do.
    fn rescue(&self) -> Option<String> {
        let is_group = self.byte(5) == Some(Id::ErGroup.number() as u8);
        if is_group && self.file.is_long() {
            return Some("'cdf rescue FILE OUT' reads more of it, and keeps what is whole.".to_string());
        }
        let answer = is_group.then(|| cdf::rescue(&self.file.bytes, &mut vec![0; MOST]).map(|rescued| rescued.group.len()))?;
        Some(match answer {
            Ok(length) => format!("'cdf rescue FILE OUT' keeps what is whole in it, as a group of {length} bytes."),
            Err(refusal) => format!("'cdf rescue FILE OUT' would refuse it: {}.", refusal.rule()),
        })
    }

    fn json(&self) -> String {
        let listed = |unit: &cdf::Unit| object(unit).text("found_by", &self.units.found_by(unit)).end();
        let open = self.why.open.iter().filter_map(|open| self.units.at(open.start)).map(listed);
        let refused_unit = Object::new()
            .number("start", self.start as u64)
            .some(self.kind(), |made, id| made.number("id", id.number()).text("kind", &id.to_string()));
        let made = refused(Object::new().text("file", &self.file.name).boolean("accepted", false), &self.why.refusal)
            .text("says", &self.sentence())
            .raw("unit", &refused_unit.end())
            .raw("open", &json::list(open));
        let made = match self.why.refusal.number {
            8 => made.raw("allowed_actions", &actions(&self.actions())),
            9 => made,
            _ => made.raw("admitted", &ids(&self.why.admitted)),
        };
        made.some(self.units.last_template(self.start), |made, unit| made.raw("last_whole_template", &listed(unit)))
            .some(likely(self.file, &self.units, self.start), |made, cause| made.text("likely_cause", &cause))
            .end()
    }
}

/// How many bytes are left, in words.
fn left(count: usize) -> String {
    match count {
        0 => "none is left".to_string(),
        1 => "one is left".to_string(),
        _ => format!("{count} are left"),
    }
}

pub fn with_article(kind: &str) -> String {
    format!("{} {kind}", if kind.starts_with(['a', 'e', 'o', 'E']) { "an" } else { "a" })
}

fn numbered(action: Action) -> String {
    format!("{} ({action})", action.number())
}

pub fn capital(text: &str) -> String {
    let mut rest = text.chars();
    rest.next().into_iter().flat_map(char::to_uppercase).chain(rest).collect()
}

/// A number of at least 1,000 with its comma.
fn thousands(number: usize) -> String {
    format!("{},{:03}", number / 1000, number % 1000)
}
