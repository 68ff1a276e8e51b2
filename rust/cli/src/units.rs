//! The units of a file in words: what each is, which person it belongs to.

use cdf::{Action, Id, Reader, Refusal, Unit};

use crate::escape::quoted;
use crate::json::{self, Object};

/// What a reader hands out of some bytes: the units up to the first that is refused.
pub struct Units<'a> {
    pub all: Vec<Unit<'a>>,
    /// Where the next unit stands, or would have to stand, behind those handed out.
    pub next: usize,
}

impl<'a> Units<'a> {
    pub fn of(stream: &'a [u8]) -> Units<'a> {
        let mut reader = Reader::new(stream);
        let all: Vec<Unit> = reader.by_ref().map_while(Result::ok).collect();
        // A unit that can be skipped admits others, and they begin where its own data ends.
        let behind = |last: &Unit| if reader.skip_unit().is_ok() { last.own_end() } else { last.end() };
        let next = all.last().map_or(0, behind);
        Units { all, next }
    }

    /// The unit that begins there.
    pub fn at(&self, start: usize) -> Option<&Unit<'a>> {
        self.all.iter().find(|unit| unit.start() == start)
    }

    /// The first unit in another that is one of these kinds.
    pub fn first_in(&self, outer: &Unit<'a>, ids: &[Id]) -> Option<&Unit<'a>> {
        self.all.iter().find(|unit| outer.start() < unit.start() && unit.start() < outer.end() && ids.contains(&unit.id()))
    }

    /// A unit as a person finds it: kind, name or number, and of a template its first key and its first field.
    pub fn found_by(&self, unit: &Unit<'a>) -> String {
        let mut text = head(unit);
        if matches!(unit.id(), Id::Template | Id::EntityKey) {
            if let Some(key) = self.first_in(unit, &[Id::TemporaryKey, Id::TemplateKey]) {
                text.push_str(&format!(" with the {}", head(key)));
            }
            if let Some(field) = self.first_in(unit, &[Id::Field]) {
                text.push_str(&format!(", {}", whole(field)));
            }
        }
        text
    }

    /// The last template that is whole before a byte.
    pub fn last_template(&self, before: usize) -> Option<&Unit<'a>> {
        self.all.iter().rev().find(|unit| unit.id() == Id::Template && unit.end() <= before)
    }
}

/// A unit without its value: kind, name or number. Of a key that is a text, the text.
pub fn head(unit: &Unit) -> String {
    let mut text = unit.id().to_string();
    if let Some(name) = unit.name() {
        text.push_str(&format!(" {name}"));
    }
    if let Some(number) = unit.number() {
        text.push_str(&format!(" {number}"));
    }
    if let Some(position) = unit.position() {
        text.push_str(&format!(" at position {position}"));
    }
    if unit.id() == Id::TemplateKey {
        text.push_str(&format!(" {}", quoted(unit.value().unwrap_or_default())));
    }
    text
}

/// A unit with its value.
pub fn whole(unit: &Unit) -> String {
    match (unit.id(), unit.value()) {
        (Id::TemplateKey, _) | (_, None) => head(unit),
        (_, Some(value)) => format!("{} {}", head(unit), quoted(value)),
    }
}

/// A unit as a field of JSON.
pub fn object(unit: &Unit) -> Object {
    Object::new()
        .number("start", unit.start() as u64)
        .number("end", unit.end() as u64)
        .number("depth", unit.depth() as u64)
        .number("rank", unit.rank() as u64)
        .number("id", unit.id().number())
        .text("kind", &unit.id().to_string())
        .text("action", &unit.action().to_string())
        .some(unit.name(), |made, name| made.text("name", name))
        .some(unit.number(), |made, number| made.number("number", u64::from(number)))
        .some(unit.position(), |made, position| made.number("position", u64::from(position)))
        .some(unit.value(), |made, value| made.bytes("value", value))
}

/// Kinds as in 'a, b or c'.
pub fn choice<T: ToString>(kinds: &[T]) -> String {
    let words: Vec<String> = kinds.iter().map(T::to_string).collect();
    match words.split_last() {
        None => String::new(),
        Some((last, [])) => last.clone(),
        Some((last, others)) => format!("{} or {last}", others.join(", ")),
    }
}

/// The refusal's fields of JSON.
pub fn refused(made: Object, refusal: &Refusal) -> Object {
    made.number("number", refusal.number)
        .some(refusal.offset, |made, offset| made.number("offset", offset as u64))
        .text("rule", refusal.rule())
}

pub fn ids(ids: &[Id]) -> String {
    json::list(ids.iter().map(|id| json::string(&id.to_string())))
}

pub fn actions(actions: &[Action]) -> String {
    json::list(actions.iter().map(|action| json::string(&action.to_string())))
}
