//! Keys too many (document 02, c): which of them a 7 refused, and what the model owes of templates and entity keys, told
//! from their keys alone.

use cdf_model::builder::{self, requests, Request};
use cdf_model::check::check;
use cdf_model::explain::{explain, Explanation};
use cdf_model::random::Random;
use cdf_model::reader::Place;
use cdf_model::rules::{complete, kind, opens, own_length, Had, Refusal, Unit, LIMIT, PREFIX};
use cdf_model::streams::{damage_data, request, Tree};

/// All of them must have been refused with 7 by each function that can.
pub const TOO_MANY: [&str; 8] = [
    "template: a second temporary key",
    "template: a template key after a temporary key",
    "template: a temporary key after a template key",
    "entity key: a second temporary key",
    "entity key: a template key after a temporary key",
    "entity key: a temporary key after a template key",
    "any of these, its action wrong too",
    "any of these, its own data wrong too",
];

/// Which of these it is if a unit of this id that has had this gets one more; nothing if it is none of them.
pub fn too_many(id: u64, had: Had, more: &Request) -> Vec<usize> {
    let key = match (had, more.id) {
        (Had::Temporary, 6) => 0,
        (Had::Temporary, 7) => 1,
        (Had::Keys, 6) => 2,
        _ => return vec![],
    };
    let rules = kind(more.id).unwrap();
    let mut which = vec![if id == 5 { key } else { 3 + key }];
    which.extend((!rules.actions.contains(&more.action)).then_some(6));
    which.extend(own_length(rules, &more.data).is_err().then_some(7));
    which
}

/// The unit at an offset, which keeps the rules before 7.
fn unit_at(stream: &[u8], at: u64) -> Request {
    let unit = &stream[at as usize..];
    let length = usize::from(unit[2]) * 256 + usize::from(unit[3]);
    Request { id: u64::from(unit[5]), action: u64::from(unit[4]), data: unit[PREFIX..length].to_vec() }
}

/// Which key too many it is that the check refuses with 7.
pub fn of_stream(stream: &[u8], told: &Explanation) -> Vec<usize> {
    let had = match told.had[..] {
        [6] => Had::Temporary,
        [7, ref more @ ..] if more.iter().all(|id| *id == 7) => Had::Keys,
        _ => return vec![],
    };
    told.open.last().map_or(vec![], |unit| too_many(unit.id, had, &unit_at(stream, told.at)))
}

/// Which key too many it is that a reader's NEXT refuses with 7 at this place.
pub fn of_reader(stream: &[u8], place: &Place) -> Vec<usize> {
    let mut left = place.open.clone();
    while left.pop_if(|unit| unit.end == place.position && complete(unit.id, unit.had)).is_some() {}
    left.last().map_or(vec![], |unit| too_many(unit.id, unit.had, &unit_at(stream, place.position)))
}

/// Which key too many it is that the builder's NEXT refuses with 7 at this place.
pub fn of_builder(place: &builder::Place, asked: &Request) -> Vec<usize> {
    place.open.last().map_or(vec![], |unit| too_many(unit.id, unit.had, asked))
}

/// Whether each template and entity key of a unit list has a single key, a temporary one, or keys of kind 7 alone. What
/// lies in such a unit lies directly in it.
pub fn of_one_kind(units: &[Unit]) -> bool {
    let one_kind = |outer: &Unit| {
        let inside = |unit: &&Unit| outer.start < unit.start && unit.end <= outer.end;
        let count = |id: u64| units.iter().filter(inside).filter(|unit| unit.id == id).count();
        matches!((count(6), count(7)), (1, 0) | (0, 1..))
    };
    units.iter().filter(|unit| matches!(unit.id, 5 | 11)).all(one_kind)
}

/// Puts one key more into a template or an entity key of an accepted stream with these units, in front of a key or behind
/// them all; once in a while its action or own data is wrong. What check, explanation or builder then does not keep, if
/// anything.
pub fn one_more(stream: &[u8], units: &[Unit], random: &mut Random) -> Option<&'static str> {
    let outer: Vec<Unit> = units.iter().filter(|unit| matches!(unit.id, 5 | 11)).copied().collect();
    if outer.is_empty() {
        return None;
    }
    let outer = random.pick(&outer);
    let is_key = |unit: &&Unit| matches!(unit.id, 6 | 7) && outer.start < unit.start && unit.end <= outer.end;
    let keys: Vec<Unit> = units.iter().filter(is_key).copied().collect();
    let rank = random.between(0, keys.len());
    let mut more = request(random.pick(&[6, 7]), random);
    match random.below(6) {
        0 => more.action = random.between(1, 255) as u64,
        1 => damage_data(&mut more.data, random),
        _ => {}
    }
    let at = keys.get(rank).map_or(keys[keys.len() - 1].end, |key| key.start);
    let bytes = Tree { unit: more.clone(), nested: vec![] }.bytes();
    let mut tried = [&stream[..at as usize], &bytes, &stream[at as usize..]].concat();
    if tried.len() as u64 > LIMIT {
        return None;
    }
    for around in units.iter().filter(|unit| opens(unit.id) && unit.start <= outer.start && outer.end <= unit.end) {
        let (start, length) = (around.start as usize, around.end - around.start + bytes.len() as u64);
        tried[start + 2..start + 4].copy_from_slice(&(length as u16).to_be_bytes());
    }

    // The ids and starts of the keys that there are now. The first one's kind decides: after a temporary key any other is too
    // many, after one of kind 7 each temporary key.
    let size = bytes.len() as u64;
    let mut now: Vec<(u64, u64)> = keys.iter().map(|key| (key.id, key.start)).collect();
    now.iter_mut().skip(rank).for_each(|(_, start)| *start += size);
    now.insert(rank, (more.id, at));
    let first_of = now[0].0;
    let found = (1..now.len()).find(|index| first_of == 6 || now[*index].0 == 6);
    let rules = kind(more.id).unwrap();
    let wrong = match own_length(rules, &more.data) {
        _ if !rules.actions.contains(&more.action) => Some(Refusal { number: 8, offset: at }),
        Err(before) => Some(Refusal { number: 9, offset: at + (PREFIX + before) as u64 }),
        Ok(_) => None,
    };
    let owed = match found {
        Some(index) if wrong.is_none() || index == rank => Err(Refusal { number: 7, offset: now[index].1 }),
        _ => wrong.map_or(Ok(units.len() as u64 + 1), Err),
    };
    if check(&tried) != owed {
        return Some("one key more in an accepted stream");
    }
    let Err(Refusal { number: 7, offset }) = owed else {
        return None;
    };
    let ids: &[u64] = match (outer.id, first_of) {
        (5, 6) => &[8],
        (5, _) => &[7, 8],
        (_, 6) => &[],
        _ => &[7],
    };
    let told = explain(&tried);
    match told.open.last().map(|unit| unit.start) == Some(outer.start) && told.ids == ids {
        false => Some("what is told of a key too many"),
        true => (asked_for(&tried, offset) != Err(7)).then_some("a key too many in the builder"),
    }
}

/// What the builder says of the unit that the check refuses with 7 at this offset, after all those before it.
fn asked_for(stream: &[u8], offset: u64) -> Result<builder::Place, u64> {
    let before = requests(stream);
    let mut buffer = vec![0xAA; stream.len() + 1];
    let mut place = builder::start(&mut buffer, before[0].id)?;
    for request in &before[1..] {
        place = builder::next(&mut buffer, &place, request).map_err(|_| 0_u64)?;
    }
    builder::next(&mut buffer, &place, &unit_at(stream, offset))
}
