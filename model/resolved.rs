//! Which kind of resolving it was, from the requests that build the group.

use crate::persons::{persons, told, Person, Told};
use cdf_model::builder::requests;
use cdf_model::check::check;
use cdf_model::resolve::Resolved;

/// All of them must have been met. The first eight are in the order of the check's numbers.
pub const RESOLVED: [&str; 68] = [
    "the check's 3",
    "the check's 4",
    "the check's 5",
    "the check's 6",
    "the check's 7",
    "the check's 8",
    "the check's 9",
    "the check's 10",
    "7: a file group",
    "7: an EDMM stream",
    "7: an EDMM stream with an E/R group in it that has such keys",
    "18: 257 templates",
    "18: 258 templates",
    "18: 256 templates, and one that doubles one of them",
    "18: and a doubled template",
    "18: and a key without a template",
    "18: and both of these",
    "18: and too short a list",
    "19: the template next to it has its name and key",
    "19: behind other templates of its name or its number",
    "19: three that are alike",
    "19: two that are doubled, by different templates",
    "19: alike but for the action",
    "19: and a key without a template before it",
    "19: and a key without a template behind it",
    "19: and too short a list",
    "19: among 256 templates",
    "20: a source",
    "20: a target",
    "20: of a relation",
    "20: of an ordered relation",
    "20: the first of several",
    "20: behind one that has its template",
    "20: no template at all",
    "20: its template comes later",
    "20: a template of its name with another number",
    "20: a template of another name with its number",
    "20: a template whose name begins like its name",
    "20: a template of its name with a template key of the same bytes",
    "20: behind an entity key of its name with another key",
    "20: and too short a list",
    "20: among 256 templates",
    "12: by one",
    "12: by more",
    "12: no list",
    "12: among 256 templates",
    "done: no such key, and no list",
    "done: no such key, and a list",
    "done: exact room",
    "done: room for one more",
    "done: much more room",
    "done: 255 templates",
    "done: 256 templates",
    "done: 256 templates, and others with template keys",
    "done: by the last of 256 templates",
    "done: by the first of 256 templates",
    "done: a rank above 255",
    "done: a rank that a relation before it raises",
    "done: a rank that a template with other keys raises",
    "done: the last template",
    "done: one template several times",
    "done: both ends of a relation",
    "done: an end of an ordered relation",
    "done: a template to be deleted",
    "done: among templates of its name, and of its number",
    "done: an entity key with a template key of its name and the same bytes",
    "done: a name of 32 letters",
    "done: more than a thousand keys",
];

type Kinds = Vec<&'static str>;

fn those(kinds: &[(bool, &'static str)]) -> Kinds {
    kinds.iter().filter(|kind| kind.0).map(|kind| kind.1).collect()
}

/// Which of `RESOLVED` it was.
pub fn kinds(stream: &[u8], room: u64, resolved: &Resolved) -> Kinds {
    if let Err(refusal) = check(stream) {
        return vec![RESOLVED[refusal.number as usize - 3]];
    }
    if stream[5] != 4 {
        let inner = || requests(stream).iter().any(|request| request.id == 11);
        return those(&[
            (stream[5] == 13, "7: a file group"),
            (stream[5] == 1, "7: an EDMM stream"),
            (stream[5] == 1 && inner(), "7: an EDMM stream with an E/R group in it that has such keys"),
        ]);
    }
    let persons = persons(stream);
    let told = told(&persons);
    let needed = (told.ranks.len() + told.alone.len()) as u64;
    let short = needed > room;
    match resolved.number {
        18 => {
            let (doubled, alone) = (!told.doubled.is_empty(), !told.alone.is_empty());
            those(&[
                (told.templates == 257, "18: 257 templates"),
                (told.templates == 258, "18: 258 templates"),
                (
                    told.templates == 257 && told.doubled.len() == 1,
                    "18: 256 templates, and one that doubles one of them",
                ),
                (doubled, "18: and a doubled template"),
                (alone, "18: and a key without a template"),
                (doubled && alone, "18: and both of these"),
                (short, "18: and too short a list"),
            ])
        }
        19 => of_doubled(&persons, &told, short),
        20 => of_alone(&persons, &told, short),
        12 => those(&[
            (needed == room + 1, "12: by one"),
            (needed > room + 1, "12: by more"),
            (room == 0, "12: no list"),
            (told.templates == 256, "12: among 256 templates"),
        ]),
        _ => done(&persons, &told, room),
    }
}

/// The persons with temporary keys.
fn temporary(persons: &[Person], id: u64) -> impl Iterator<Item = &Person> {
    persons.iter().filter(move |person| person.id == id && person.is_temporary())
}

fn of_doubled(persons: &[Person], told: &Told, short: bool) -> Kinds {
    let templates: Vec<&Person> = temporary(persons, 5).collect();
    let at = templates.iter().position(|template| template.start == told.doubled[0]).unwrap();
    let (before, doubled) = (&templates[..at], templates[at]);
    let first = before.iter().position(|template| template.is_alike(doubled)).unwrap();
    let near = |template: &&&Person| template.name == doubled.name || template.key == doubled.key;
    let alike = templates.iter().filter(|template| template.is_alike(doubled)).count();
    let others = templates.iter().filter(|template| told.doubled.contains(&template.start));
    those(&[
        (first + 1 == at, "19: the template next to it has its name and key"),
        (before.iter().filter(near).count() > 1, "19: behind other templates of its name or its number"),
        (alike > 2, "19: three that are alike"),
        (others.clone().any(|other| !other.is_alike(doubled)), "19: two that are doubled, by different templates"),
        (before[first].action != doubled.action, "19: alike but for the action"),
        (told.alone.iter().any(|alone| *alone < doubled.start), "19: and a key without a template before it"),
        (told.alone.iter().any(|alone| *alone > doubled.start), "19: and a key without a template behind it"),
        (short, "19: and too short a list"),
        (told.templates == 256, "19: among 256 templates"),
    ])
}

fn of_alone(persons: &[Person], told: &Told, short: bool) -> Kinds {
    let entities: Vec<&Person> = temporary(persons, 11).collect();
    let at = entities.iter().position(|entity| entity.start == told.alone[0]).unwrap();
    let alone = entities[at];
    let before = |is: &dyn Fn(&Person) -> bool| {
        persons.iter().any(|person| person.id == 5 && person.start < alone.start && is(person))
    };
    let (name, key) = (&alone.name, &alone.key);
    let begins_like =
        |person: &Person| person.name != *name && person.key == *key && person.name[1..].starts_with(&name[1..]);
    let later = temporary(persons, 5).any(|person| person.is_alike(alone));
    those(&[
        (!alone.target, "20: a source"),
        (alone.target, "20: a target"),
        (alone.around == 9, "20: of a relation"),
        (alone.around == 10, "20: of an ordered relation"),
        (told.alone.len() > 1, "20: the first of several"),
        (at > 0, "20: behind one that has its template"),
        (!persons.iter().any(|person| person.id == 5), "20: no template at all"),
        (later, "20: its template comes later"),
        (
            before(&|person| person.is_temporary() && person.name == *name),
            "20: a template of its name with another number",
        ),
        (
            before(&|person| person.name != *name && person.key == *key),
            "20: a template of another name with its number",
        ),
        (before(&begins_like), "20: a template whose name begins like its name"),
        (
            before(&|person| person.name == *name && person.key == (7, key.1.clone())),
            "20: a template of its name with a template key of the same bytes",
        ),
        (
            persons.iter().any(|person| person.id == 11 && person.start < alone.start && person.name == *name),
            "20: behind an entity key of its name with another key",
        ),
        (short, "20: and too short a list"),
        (told.templates == 256, "20: among 256 templates"),
    ])
}

fn done(persons: &[Person], told: &Told, room: u64) -> Kinds {
    let (ranks, needed) = (&told.ranks, told.ranks.len() as u64);
    let templates: Vec<&Person> = temporary(persons, 5).collect();
    let entities: Vec<&Person> = temporary(persons, 11).collect();
    let is_met =
        |is: &dyn Fn(&Person) -> bool| templates.iter().any(|template| ranks.contains(&template.rank) && is(template));
    let before =
        |template: &Person, id: u64| persons.iter().any(|person| person.id == id && person.start < template.start);
    let stored_before = |template: &Person| {
        persons.iter().any(|person| person.id == 5 && !person.is_temporary() && person.start < template.start)
    };
    let ends = |one: &Person, other: &Person| one.rank == other.rank && one.target != other.target;
    let of_name = |one: &Person| templates.iter().any(|other| other.name == one.name && other.key != one.key);
    let of_number = |one: &Person| templates.iter().any(|other| other.name != one.name && other.key == one.key);
    let stored = |one: &Person| {
        persons.iter().any(|other| other.id == 11 && other.name == one.name && other.key == (7, one.key.1.clone()))
    };
    let full = templates.len() == 256;
    let others = persons.iter().any(|person| person.id == 5 && !person.is_temporary());
    those(&[
        (needed == 0 && room == 0, "done: no such key, and no list"),
        (needed == 0 && room > 0, "done: no such key, and a list"),
        (needed > 0 && room == needed, "done: exact room"),
        (needed > 0 && room == needed + 1, "done: room for one more"),
        (needed > 0 && room > needed + 9, "done: much more room"),
        (templates.len() == 255, "done: 255 templates"),
        (full, "done: 256 templates"),
        (full && others, "done: 256 templates, and others with template keys"),
        (full && ranks.contains(&templates[255].rank), "done: by the last of 256 templates"),
        (full && ranks.contains(&templates[0].rank), "done: by the first of 256 templates"),
        (ranks.iter().any(|rank| *rank > 255), "done: a rank above 255"),
        (is_met(&|template| before(template, 11)), "done: a rank that a relation before it raises"),
        (is_met(&stored_before), "done: a rank that a template with other keys raises"),
        (templates.len() > 1 && ranks.contains(&templates[templates.len() - 1].rank), "done: the last template"),
        (ranks.windows(2).any(|pair| pair[0] == pair[1]), "done: one template several times"),
        (entities.windows(2).any(|pair| ends(pair[0], pair[1])), "done: both ends of a relation"),
        (entities.iter().any(|entity| entity.around == 10), "done: an end of an ordered relation"),
        (is_met(&|template| template.action == 4), "done: a template to be deleted"),
        (is_met(&|one| of_name(one) && of_number(one)), "done: among templates of its name, and of its number"),
        (
            entities.iter().any(|entity| stored(entity)),
            "done: an entity key with a template key of its name and the same bytes",
        ),
        (is_met(&|template| template.name.len() == 33), "done: a name of 32 letters"),
        (needed > 1_000, "done: more than a thousand keys"),
    ])
}
