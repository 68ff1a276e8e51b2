//! Which template each entity key means (document 02, i), from the bytes of a group and its unit list.

use crate::rules::{Refusal, Unit, PREFIX};
use crate::units::{list, rank};

/// The most templates with temporary keys.
const TEMPLATES: usize = 256;

/// Beside any number but 0 there are no ranks.
#[derive(Clone, Default, PartialEq, Debug)]
pub struct Resolved {
    pub number: u64,
    pub offset: u64,
    /// Of each entity key with a temporary key, in the order of the stream, the rank of its template.
    pub ranks: Vec<u64>,
}

/// Into a list of so many numbers.
pub fn resolve(stream: &[u8], room: u64) -> Resolved {
    let refused = |number, offset| Resolved { number, offset, ranks: Vec::new() };
    let listed = list(stream);
    if let Some(Refusal { number, offset }) = listed.fault {
        return refused(number, offset);
    }
    let units = listed.units;
    if units[0].id != 4 {
        return refused(7, 0);
    }
    let bytes = |start: u64, end: u64| &stream[start as usize..end as usize];
    let behind_prefix = |unit: &Unit| unit.start + PREFIX as u64;
    // A template or an entity key that has a temporary key has no other: it is the unit listed next.
    let with_temporary = |id: u64| -> Vec<usize> {
        (0..units.len()).filter(|index| units[*index].id == id && units[*index + 1].id == 6).collect()
    };
    let (templates, entities) = (with_temporary(5), with_temporary(11));
    let same = |one: usize, other: usize| {
        let name = |index: usize| bytes(behind_prefix(&units[index]), units[index].own);
        let key = |index: usize| bytes(behind_prefix(&units[index + 1]), units[index + 1].end);
        name(one) == name(other) && key(one) == key(other)
    };
    let earlier = |index: usize| templates.iter().copied().find(|other| *other < index && same(*other, index));

    if templates.len() > TEMPLATES {
        return refused(18, 0);
    }
    if let Some(doubled) = templates.iter().find(|index| earlier(**index).is_some()) {
        return refused(19, units[*doubled].start);
    }
    if let Some(alone) = entities.iter().find(|index| earlier(**index).is_none()) {
        return refused(20, units[*alone].start);
    }
    let found = entities.iter().filter_map(|index| earlier(*index));
    let ranks: Vec<u64> = found.map(|index| rank(&units[..index], &units[index]) as u64).collect();
    match ranks.len() as u64 > room {
        true => refused(12, 0),
        false => Resolved { number: 0, offset: 0, ranks },
    }
}
