//! What a rescue kept and what it dropped, in words and as JSON.

use std::ops::Range;

use cdf::{Id, Unit};

use crate::alone::{alone, whole_at, Alone};
use crate::cause::plural;
use crate::json::{self, Object};
use crate::units::{head, Units};

/// As many units of a run as are told in words.
const TOLD: usize = 20;
/// How a unit begins.
const MARK: &[u8] = b"\xCD\xF1";

/// A run of dropped bytes, and the units in it that are right by themselves.
struct Run {
    place: Range<usize>,
    /// In the order of their starts.
    readable: Vec<Alone>,
    /// Which of them have a length that reaches too far: past the last byte, or into another unit that begins later, in the run or behind it.
    too_far: Vec<bool>,
}

/// What was kept and dropped, and the bytes that it was kept of.
pub struct Saved<'a> {
    bytes: &'a [u8],
    group: &'a [u8],
    dropped: Vec<Run>,
    units: Units<'a>,
}

impl<'a> Saved<'a> {
    pub fn new(bytes: &'a [u8], group: &'a [u8], dropped: &[Range<usize>]) -> Saved<'a> {
        Saved { bytes, group, dropped: dropped.iter().map(|place| Run::new(bytes, place)).collect(), units: Units::of(group) }
    }

    /// The units that were kept, each with its place in the broken bytes.
    fn kept(&self) -> Vec<Kept<'_, 'a>> {
        let (mut skipped, mut runs) = (0, self.dropped.iter().map(|run| &run.place).peekable());
        let mut kept = Vec::new();
        for unit in self.units.all.iter().filter(|unit| unit.depth() == 2) {
            while let Some(run) = runs.next_if(|run| run.start <= unit.start() + skipped) {
                skipped += run.len();
            }
            kept.push((unit, unit.start() + skipped..unit.end() + skipped));
        }
        kept
    }

    /// A kept unit as a person finds it.
    fn found(&self, (unit, place): &Kept<'_, 'a>) -> String {
        format!("{}, bytes {} to {}", self.units.found_by(unit), place.start, place.end - 1)
    }

    /// The units that were kept right before a run and right after it.
    fn beside(&self, run: &Run) -> (Option<Kept<'_, 'a>>, Option<Kept<'_, 'a>>) {
        let kept = self.kept();
        let before = kept.iter().find(|(_, place)| place.end == run.place.start).cloned();
        (before, kept.into_iter().find(|(_, place)| place.start == run.place.end))
    }

    /// The unit of which the one kept before a run has the first bytes, if the run begins with its rest: how many bytes these are, the
    /// unit, and if it is whole how a person finds it.
    fn swallowed(&self, run: &Run) -> Option<(usize, Alone, Option<String>)> {
        self.beside(run).0?;
        let of_group = |unit: &Alone| matches!(unit.id, Id::Template | Id::Relation | Id::OrderedRelation);
        let found = |count: usize| alone(self.bytes, run.place.start.checked_sub(count)?).filter(of_group).map(|unit| (count, unit));
        let (count, unit) = (1..=5).find_map(found)?;
        let whole = whole_at(self.bytes, unit.start);
        Some((count, unit, whole))
    }

    /// What is to be looked at around a run: kept units that may not be what was sent.
    fn checks(&self, run: &Run) -> Vec<String> {
        let mut checks = Vec::new();
        let (before, after) = self.beside(run);
        if let Some((before, _)) = before {
            let kind = head(before);
            if let Some((count, unit, whole)) = self.swallowed(run) {
                let ends = if count == 1 { "a byte that belongs".to_string() } else { format!("{count} bytes that belong") };
                let lost = match whole {
                    Some(found) => format!("{found}, bytes {} to {}, was dropped although it is undamaged", unit.start, unit.end - 1),
                    None => format!("{}, from byte {}, was dropped, and is damaged too", unit.says, unit.start),
                };
                checks.push(format!(
                    "Bytes seem to have been lost here: the {kind} kept before ends with {ends} to the next one. \
                     That next one, {lost}. Ask for both again."
                ));
            } else if !self.bytes[run.place.start..].starts_with(MARK) {
                checks.push(format!(
                    "Compare the {kind} kept before with what was sent: where it ends nothing else begins, so it may have lost bytes."
                ));
            }
        }
        if let Some((after, place)) = after {
            let (kind, id) = (head(after), after.id());
            if let Some(text) = run.text_around(&place) {
                checks.push(format!(
                    "Check the {kind} kept after: it seems to lie in the text of the {}, from byte {}. If so it was typed there, and is no {id}.",
                    text.name, text.start
                ));
            } else if !run.readable.iter().any(|unit| unit.end == run.place.end) {
                checks.push(format!(
                    "Check the {kind} kept after: nothing in the dropped bytes ends where it begins, \
                     so it may be text that was typed into a field, and no {id}."
                ));
            }
        }
        checks
    }

    /// The kept relations that name something by a temporary key that no kept template of that name has.
    fn missing(&self) -> Vec<Missing<'_, 'a>> {
        let kept = self.kept();
        let key = |unit| self.units.first_in(unit, &[Id::TemporaryKey]).and_then(Unit::number);
        let has = |name: Option<&str>, number| {
            kept.iter().any(|(unit, _)| unit.id() == Id::Template && unit.name() == name && key(unit) == Some(number))
        };
        let mut missing = Vec::new();
        for (relation, place) in kept.iter().filter(|(unit, _)| matches!(unit.id(), Id::Relation | Id::OrderedRelation)) {
            let inside = |unit: &&Unit| relation.start() < unit.start() && unit.start() < relation.end() && unit.id() == Id::EntityKey;
            for entity in self.units.all.iter().filter(inside) {
                if let Some(number) = key(entity).filter(|number| !has(entity.name(), *number)) {
                    let name = entity.name().unwrap_or_default().to_string();
                    // Where its key can be read, and else a template of its name.
                    let shown = |says: String| self.dropped.iter().find(|run| run.readable.iter().any(|unit| unit.says == says));
                    let run = shown(format!("temporary key {number}")).or_else(|| shown(format!("template {name}")));
                    let run = run.map(|run| run.place.clone());
                    missing.push(Missing { relation: (*relation, place.clone()), name, number, run });
                }
            }
        }
        missing
    }

    pub fn text(&self, to: &str) -> String {
        let kept = self.kept();
        let (templates, relations) = counts(&kept);
        let mut text = format!(
            "{to}: written, {}. Kept: {}, {}. ",
            counted(self.group.len(), "byte"),
            counted(templates, "template"),
            counted(relations, "relation")
        );
        let places = self.dropped.len();
        text.push_str(&match self.dropped.iter().map(|run| run.place.len()).sum::<usize>() {
            0 => "Nothing was dropped.\n".to_string(),
            lost => format!("Dropped: {lost} of {}, in {}.\n", counted(self.bytes.len(), "byte"), counted(places, "place")),
        });
        for run in &self.dropped {
            let (bytes, last) = (run.place.len(), run.place.end - 1);
            text.push_str(&match bytes {
                1 => format!("Dropped: byte {last}.\n"),
                _ => format!("Dropped: bytes {} to {last}, {bytes} bytes.\n", run.place.start),
            });
            let (before, after) = self.beside(run);
            for (when, unit) in [("before", before), ("after", after)] {
                if let Some(unit) = unit {
                    text.push_str(&format!("    Kept {when}: {}.\n", self.found(&unit)));
                }
            }
            for (unit, too_far) in run.readable.iter().zip(&run.too_far).take(TOLD) {
                let but = if *too_far { ", which may have lost bytes: its length reaches too far" } else { "" };
                text.push_str(&format!("    Still readable in the dropped bytes: {}, from byte {}{but}.\n", unit.says, unit.start));
            }
            if run.readable.len() > TOLD {
                text.push_str(&format!("    And {} more.\n", run.readable.len() - TOLD));
            }
            for check in self.checks(run) {
                text.push_str(&format!("    {check}\n"));
            }
        }
        for Missing { relation: (relation, place), name, number, run } in self.missing() {
            let (kind, start, last) = (head(relation), place.start, place.end - 1);
            let gone = match run {
                Some(run) => format!("which was not kept. It may be in the dropped bytes {} to {}.", run.start, run.end - 1),
                None if self.dropped.is_empty() => "which the file does not have.".to_string(),
                None => "which was not kept. The dropped bytes do not show it.".to_string(),
            };
            let what = format!("{name} with the temporary key {number}");
            text.push_str(&format!("Incomplete: the {kind}, bytes {start} to {last}, names {what}, {gone}\n"));
        }
        if !self.dropped.is_empty() {
            text.push_str("Next: ask the sender for the dropped parts again.\n");
        }
        text
    }

    pub fn json(&self, made: Object) -> String {
        let kept = self.kept();
        let (templates, relations) = counts(&kept);
        let listed = |unit: &Alone| Object::new().number("start", unit.start as u64).text("says", &unit.says);
        let placed = |(unit, place): &Kept<'_, 'a>| {
            let object = Object::new().number("start", place.start as u64).number("end", place.end as u64);
            object.text("found_by", &self.units.found_by(unit))
        };
        let runs = self.dropped.iter().map(|run| {
            let (before, after) = self.beside(run);
            let readable = run.readable.iter().zip(&run.too_far).map(|(unit, too_far)| listed(unit).boolean("too_far", *too_far).end());
            Object::new()
                .number("start", run.place.start as u64)
                .number("end", run.place.end as u64)
                .some(before, |made, unit| made.raw("kept_before", &placed(&unit).end()))
                .some(after, |made, unit| {
                    let text = run.text_around(&unit.1);
                    made.raw("kept_after", &placed(&unit).some(text, |made, text| made.raw("in_text_of", &listed(text).end())).end())
                })
                .raw("readable", &json::list(readable))
                .some(self.swallowed(run), |made, (count, unit, whole)| {
                    made.raw("swallowed", &listed(&unit).number("bytes", count as u64).boolean("whole", whole.is_some()).end())
                })
                .raw("checks", &json::list(self.checks(run).iter().map(|check| json::string(check))))
                .end()
        });
        let missing = self.missing().into_iter().map(|Missing { relation: (relation, place), name, number, run }| {
            Object::new()
                .number("start", place.start as u64)
                .text("relation", &head(relation))
                .text("template", &name)
                .number("key", u64::from(number))
                .some(run, |made, run| made.number("dropped_from", run.start as u64))
                .end()
        });
        let made = made.number("bytes", self.group.len() as u64).number("kept", kept.len() as u64);
        let made = made.number("templates", templates as u64).number("relations", relations as u64);
        made.raw("dropped", &json::list(runs)).raw("missing", &json::list(missing)).end()
    }
}

impl Run {
    fn new(bytes: &[u8], place: &Range<usize>) -> Run {
        let readable: Vec<Alone> = place.clone().filter_map(|at| alone(bytes, at)).collect();
        // What follows a run was kept.
        let after = bytes.get(place.end + 2..place.end + 4).map(|length| place.end + usize::from(length[0]) * 256 + usize::from(length[1]));
        let too_far = |unit: &Alone| {
            let later = readable.iter().skip(readable.partition_point(|other| other.start <= unit.start));
            let ends = later.take_while(|other| other.start < unit.end).map(|other| other.end);
            let after = after.filter(|_| place.end < unit.end);
            unit.end > bytes.len() || ends.chain(after).any(|end| unit.end < end)
        };
        let too_far = readable.iter().map(too_far).collect();
        Run { place: place.clone(), readable, too_far }
    }

    /// The field of a run, or the key, whose text by its length reaches over a kept unit.
    fn text_around(&self, place: &Range<usize>) -> Option<&Alone> {
        self.readable.iter().find(|unit| matches!(unit.id, Id::Field | Id::TemplateKey) && place.end <= unit.end)
    }
}

/// A unit that was kept, and its place in the broken bytes.
type Kept<'b, 'a> = (&'b Unit<'a>, Range<usize>);

/// A kept relation and what it names, a template that was not kept.
struct Missing<'b, 'a> {
    relation: Kept<'b, 'a>,
    name: String,
    number: u32,
    /// The run in which it may have stood.
    run: Option<Range<usize>>,
}

/// How many templates are among these, and how many relations, ordered ones too.
fn counts(kept: &[Kept]) -> (usize, usize) {
    let templates = kept.iter().filter(|(unit, _)| unit.id() == Id::Template).count();
    (templates, kept.len() - templates)
}

fn counted(count: usize, word: &str) -> String {
    format!("{count} {}", plural(count, word))
}
