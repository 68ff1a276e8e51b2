//! The templates and entity keys of an E/R group, from the requests that build it, and what the model owes of a resolving.

use cdf_model::builder::{requests, Request};
use cdf_model::check::check;
use cdf_model::resolve::{resolve, Resolved};
use cdf_model::rules::Refusal;
use std::collections::BTreeMap;

/// A template or an entity key, with its first key.
pub struct Person {
    pub id: u64,
    pub action: u64,
    pub name: Vec<u8>,
    pub key: (u64, Vec<u8>),
    pub start: u64,
    /// The rank of the template, or of the relation around the entity key, in the group.
    pub rank: u64,
    /// Of an entity key the id of the relation around it.
    pub around: u64,
    /// Of an entity key whether it is the target.
    pub target: bool,
}

impl Person {
    pub fn is_temporary(&self) -> bool {
        self.key.0 == 6
    }

    pub fn is_alike(&self, other: &Person) -> bool {
        self.name == other.name && self.key == other.key
    }
}

/// The templates and entity keys of an E/R group, in their order. Each unit begins behind the prefixes and own data of those
/// before it, and what stands directly in the group is a template or a relation.
pub fn persons(stream: &[u8]) -> Vec<Person> {
    let mut found: Vec<Person> = Vec::new();
    let (mut start, mut children, mut around, mut ends) = (0, 0, 4, 0);
    for Request { id, action, data } in requests(stream) {
        let size = 6 + data.len() as u64;
        match (id, found.last_mut()) {
            (5 | 9 | 10, _) => {
                (children, around, ends) = (children + 1, id, 0);
            }
            (11 | 12, _) => ends += 1,
            // Further keys are template keys, as the first one is.
            (6 | 7, Some(person)) if person.key.0 == 0 => person.key = (id, data.clone()),
            _ => {}
        }
        if matches!(id, 5 | 11) {
            let (rank, target) = (children - 1, ends == 2);
            found.push(Person { id, action, name: data, key: (0, vec![]), start, rank, around, target });
        }
        start += size;
    }
    found
}

/// What is told of an accepted E/R group, in one pass from its front.
pub struct Told {
    pub templates: usize,
    pub doubled: Vec<u64>,
    pub alone: Vec<u64>,
    pub ranks: Vec<u64>,
}

pub fn told(persons: &[Person]) -> Told {
    let mut seen = BTreeMap::new();
    let mut told = Told { templates: 0, doubled: vec![], alone: vec![], ranks: vec![] };
    for person in persons.iter().filter(|person| person.is_temporary()) {
        let what = (&person.name, &person.key.1);
        match (person.id, seen.get(&what)) {
            (5, before) => {
                told.templates += 1;
                told.doubled.extend(before.map(|_| person.start));
                seen.entry(what).or_insert(person.rank);
            }
            (_, Some(rank)) => told.ranks.push(*rank),
            _ => told.alone.push(person.start),
        }
    }
    told
}

/// What the answer does not keep of this: a refusal has no ranks; a check's number and offset are the check's; the others
/// are what one pass over the requests tells; and a template's action decides nothing.
pub fn broken(stream: &[u8], room: u64, resolved: &Resolved) -> Option<&'static str> {
    let Resolved { number, offset, ranks } = resolved;
    if *number != 0 && !ranks.is_empty() {
        return Some("a refused resolving has no ranks");
    }
    if let Err(refusal) = check(stream) {
        return (refusal != Refusal { number: *number, offset: *offset })
            .then_some("what is resolved of a refused stream");
    }
    if stream[5] != 4 {
        return ((*number, *offset) != (7, 0)).then_some("what is resolved of another root");
    }
    let persons = persons(stream);
    let told = told(&persons);
    // 19 and 20 over the whole group, so that the first of each is told, whatever comes before it.
    let owed = match (&told.doubled[..], &told.alone[..]) {
        _ if told.templates > 256 => (18, 0),
        ([first, ..], _) => (19, *first),
        (_, [first, ..]) => (20, *first),
        _ if told.ranks.len() as u64 > room => (12, 0),
        _ => (0, 0),
    };
    if (*number, *offset) != owed {
        return Some("the number of a resolving, and the requests");
    }
    if *number == 0 && *ranks != told.ranks {
        return Some("the ranks, and the requests");
    }
    let mut deleted = stream.to_vec();
    persons.iter().filter(|person| person.id == 5).for_each(|template| deleted[template.start as usize + 4] = 4);
    (resolve(&deleted, room) != *resolved).then_some("a template's action decides nothing")
}
