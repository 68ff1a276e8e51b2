//! `cdf resolve`: which template of an E/R data group each entity key with a temporary key means, in words.

use cdf::{Action, Id, Refusal, Unit};

use crate::args::Args;
use crate::escape::{cut, quoted};
use crate::explain::{capital, with_article};
use crate::input::Input;
use crate::json::Object;
use crate::output::Out;
use crate::units::{head, object, Units};
use crate::{input, json, End, Stop};

/// As many fields of a template as are told in words, and as many characters of each.
const FIELDS: usize = 2;
const WIDTH: usize = 60;

pub fn run(args: &mut Args, out: &mut Out) -> Result<End, Stop> {
    let as_json = args.flag("--json");
    let file = input::read(&args.one_file()?)?;
    let group = Group { file: &file, units: Units::of(&file.bytes) };
    let answer = cdf::resolve(&file.bytes);
    let text = match (&answer, as_json) {
        (Ok(ranks), true) => format!("{}\n", group.json(ranks)),
        (Ok(ranks), false) => group.text(ranks),
        (Err(refusal), true) => format!("{}\n", group.refused_json(refusal)),
        (Err(refusal), false) => group.refused_text(refusal),
    };
    out.write(&text)?;
    Ok(if answer.is_ok() { End::Done } else { End::Refused })
}

/// A file with its units. What is resolved and what is refused was asked of the archive; here it is put into words.
struct Group<'a> {
    file: &'a Input,
    units: Units<'a>,
}

/// An entity key with a temporary key, and where it stands.
struct Named<'b, 'a> {
    entity: &'b Unit<'a>,
    relation: &'b Unit<'a>,
    number: u32,
}

impl Named<'_, '_> {
    fn side(&self) -> &'static str {
        if self.entity.rank() == 0 {
            "source"
        } else {
            "target"
        }
    }

    /// The template that it names.
    fn says(&self) -> String {
        format!("{} with the temporary key {}", self.entity.name().unwrap_or_default(), self.number)
    }

    fn object(&self) -> Object {
        Object::new()
            .number("start", self.entity.start() as u64)
            .text("relation", &head(self.relation))
            .number("relation_start", self.relation.start() as u64)
            .text("side", self.side())
            .text("template", self.entity.name().unwrap_or_default())
            .number("key", u64::from(self.number))
    }
}

impl<'a> Group<'a> {
    /// The temporary key of a template or an entity key.
    fn key(&self, unit: &Unit<'a>) -> Option<u32> {
        self.units.first_in(unit, &[Id::TemporaryKey]).and_then(Unit::number)
    }

    /// The entity keys with temporary keys, in the order of the stream.
    fn ends(&self) -> Vec<Named<'_, 'a>> {
        let mut ends = Vec::new();
        let mut relation = None;
        for unit in &self.units.all {
            match (unit.id(), relation) {
                (Id::Relation | Id::OrderedRelation, _) => relation = Some(unit),
                (Id::EntityKey, Some(relation)) => {
                    ends.extend(self.key(unit).map(|number| Named { entity: unit, relation, number }));
                }
                _ => {}
            }
        }
        ends
    }

    /// The templates with temporary keys.
    fn templates(&self) -> impl Iterator<Item = &Unit<'a>> {
        self.units.all.iter().filter(|unit| unit.id() == Id::Template && self.key(unit).is_some())
    }

    fn of_rank(&self, rank: usize) -> Option<&Unit<'a>> {
        self.units.all.iter().find(|unit| unit.depth() == 2 && unit.rank() == rank)
    }

    /// A template with its key: where it stands, its rank, and the first of its fields.
    fn found(&self, unit: &Unit<'a>) -> String {
        let number = self.key(unit).unwrap_or_default();
        format!("{} with the temporary key {number}, {}", head(unit), self.place(unit))
    }

    fn place(&self, unit: &Unit<'a>) -> String {
        let inside = |field: &&Unit| field.id() == Id::Field && unit.start() < field.start() && field.start() < unit.end();
        let fields = self.units.all.iter().filter(inside).take(FIELDS);
        let words: Vec<String> = fields.map(|field| cut(&told(field), Some(WIDTH))).collect();
        let behind = if words.is_empty() { String::new() } else { format!(": {}", words.join(", ")) };
        let deleted = if unit.action() == Action::Delete { ", which is to be deleted" } else { "" };
        format!("from byte {} to {}, rank {}{deleted}{behind}", unit.start(), unit.end() - 1, unit.rank())
    }

    fn text(&self, ranks: &[usize]) -> String {
        let ends = self.ends();
        let mut text = match ends.len() {
            0 => return format!("{}: nothing to resolve: no relation in it names a template by a temporary key.\n", self.file.name),
            1 => format!("{}: resolved. 1 entity key has a temporary key, and its template stands before it.\n", self.file.name),
            count => {
                format!(
                    "{}: resolved. {count} entity keys have temporary keys, and the template of each stands before it.\n",
                    self.file.name
                )
            }
        };
        for (end, rank) in ends.iter().zip(ranks) {
            let place = self.of_rank(*rank).map_or(format!("of rank {rank}"), |unit| self.place(unit));
            let (relation, start) = (capital(&head(end.relation)), end.relation.start());
            text.push_str(&format!("{relation}, from byte {start}, {}: {} is the template {place}.\n", end.side(), end.says()));
        }
        text.push_str("A rank is how many templates and relations stand before it in the group, as 'cdf show --ranks' shows them.\n");
        text
    }

    fn json(&self, ranks: &[usize]) -> String {
        let keys = self.ends().into_iter().zip(ranks).map(|(end, rank)| {
            let made = end.object().number("rank", *rank as u64);
            let template = self.of_rank(*rank);
            made.some(template, |made, unit| {
                made.number("template_start", unit.start() as u64).text("found_by", &self.units.found_by(unit))
            })
            .end()
        });
        let made = Object::new().text("file", &self.file.name).boolean("resolved", true);
        made.raw("keys", &json::list(keys)).end()
    }

    /// Beside 19 the earlier template, and the doubled one.
    fn doubled(&self, refusal: &Refusal) -> Option<(&Unit<'a>, &Unit<'a>)> {
        let later = self.units.at(refusal.offset.filter(|_| refusal.number == 19)?)?;
        let alike = |unit: &&Unit<'a>| unit.name() == later.name() && self.key(unit) == self.key(later);
        Some((self.templates().find(alike)?, later))
    }

    /// Beside 20 the entity key, and the template that it names if that stands behind it.
    fn alone(&self, refusal: &Refusal) -> Option<(Named<'_, 'a>, Option<&Unit<'a>>)> {
        let at = refusal.offset.filter(|_| refusal.number == 20)?;
        let end = self.ends().into_iter().find(|end| end.entity.start() == at)?;
        let later = self.templates().find(|unit| unit.name() == end.entity.name() && self.key(unit) == Some(end.number));
        Some((end, later))
    }

    /// The other end of the relation, by which a person may find it.
    fn other_end(&self, end: &Named<'_, 'a>) -> Option<String> {
        let is_end = |unit: &&Unit| unit.depth() == 3 && end.relation.start() < unit.start() && unit.end() <= end.relation.end();
        let other = self.units.all.iter().filter(is_end).find(|unit| unit.start() != end.entity.start())?;
        let side = if other.rank() == 0 { "source" } else { "target" };
        Some(format!("The {side} of that relation is the {}.", self.units.found_by(other)))
    }

    /// What is wrong, in a sentence or two, and what is to be done about it.
    fn says(&self, refusal: &Refusal) -> Vec<String> {
        if let Some((earlier, later)) = self.doubled(refusal) {
            let mut says = vec![format!("The earlier: {}.", self.found(earlier)), format!("The doubled: {}.", self.found(later))];
            let number = self.key(later).unwrap_or_default();
            says.push(match earlier.bytes() == later.bytes() {
                true => "Next: they are the same, byte for byte. Ask the sender to leave one of them out.".to_string(),
                false => format!("Next: ask the sender which of the two has the key {number}. The other needs a key of its own."),
            });
            return says;
        }
        if let Some((end, later)) = self.alone(refusal) {
            let (relation, start) = (head(end.relation), end.relation.start());
            let other = self.templates().find(|unit| unit.start() < end.entity.start() && self.key(unit) == Some(end.number));
            let (found, next) = match (later, other) {
                (Some(later), _) => (
                    format!("That template stands behind the relation: {}.", self.found(later)),
                    "Next: ask the sender to put each template before the relations that name it.",
                ),
                (None, Some(other)) => (
                    format!("There the key {} is that of another one: {}.", end.number, self.found(other)),
                    "Next: ask the sender for the missing template, or for the right name.",
                ),
                (None, None) => {
                    ("The group has no such template.".to_string(), "Next: ask the sender for the missing template, or for the right key.")
                }
            };
            let names = format!("The {} of the {relation}, from byte {start}, names {}.", end.side(), end.says());
            return [Some(names), Some(found), self.other_end(&end), Some(next.to_string())].into_iter().flatten().collect();
        }
        match refusal {
            Refusal { number: 18, .. } => vec![
                format!("It has {} templates with temporary keys.", self.templates().count()),
                "Next: ask the sender for several groups, each with the templates that its relations name.".to_string(),
            ],
            Refusal { offset: Some(_), .. } => vec!["Next: 'cdf explain' says what is wrong with it.".to_string()],
            _ => self.other_root(),
        }
    }

    fn other_root(&self) -> Vec<String> {
        let kind = self.units.all.first().map_or(String::new(), head);
        let groups: Vec<&Unit> = self.units.all.iter().filter(|unit| unit.id() == Id::ErGroup).collect();
        let mut says = vec![format!("It is {}, and only an E/R data group by itself is resolved.", with_article(&kind))];
        if let [first, ..] = groups[..] {
            let place = format!("from byte {} to {}", first.start(), first.end() - 1);
            says.push(match groups.len() {
                1 => format!("Next: it holds one such group, {place}. Resolve that as a file of its own."),
                count => format!("Next: it holds {count} such groups, the first {place}. Resolve each as a file of its own."),
            });
        }
        says
    }

    fn refused_text(&self, refusal: &Refusal) -> String {
        let at = refusal.offset.map_or(String::new(), |offset| format!(" at byte {offset}"));
        let says: String = self.says(refusal).iter().map(|line| format!("{line}\n")).collect();
        format!("{}: refused, number {}{at}: {}. Nothing is resolved.\n{says}", self.file.name, refusal.number, rule(refusal))
    }

    fn refused_json(&self, refusal: &Refusal) -> String {
        let listed = |unit: &Unit<'a>| object(unit).text("found_by", &self.units.found_by(unit)).end();
        let made = Object::new().text("file", &self.file.name).boolean("resolved", false);
        let made = made.number("number", refusal.number).some(refusal.offset, |made, offset| made.number("offset", offset as u64));
        let made = made.text("rule", rule(refusal)).text("says", &self.says(refusal).join(" "));
        made.some(self.doubled(refusal), |made, (earlier, later)| made.raw("unit", &listed(later)).raw("earlier", &listed(earlier)))
            .some(self.alone(refusal), |made, (end, later)| {
                made.raw("unit", &end.object().end()).some(later, |made, unit| made.raw("later", &listed(unit)))
            })
            .end()
    }
}

/// A field's name and value.
fn told(field: &Unit) -> String {
    format!("{} {}", field.name().unwrap_or_default(), quoted(field.value().unwrap_or_default()))
}

/// The rule in words. 7 without an offset speaks of the root.
fn rule(refusal: &Refusal) -> &'static str {
    match refusal {
        Refusal { number: 7, offset: None } => "its root is no E/R data group",
        _ => refusal.rule(),
    }
}
