//! What the codes are compared on: streams of four kinds and three sizes, those of a night, and damaged copies of them.

use crate::cases::Case;
use crate::compare::case;
use crate::random::Random;
use crate::rules::{opens, Unit};

/// A unit with its own data and the units nested in it, as bytes.
pub fn unit(id: u8, action: u8, own: &[u8], nested: &[u8]) -> Vec<u8> {
    let length = u16::try_from(6 + own.len() + nested.len()).expect("a stream has at most 65,535 bytes");
    let [high, low] = length.to_be_bytes();
    [&[0xCD, 0xF1, high, low, action, id], own, nested].concat()
}

const NAMES: [&str; 12] = [
    "SURNAME", "GIVEN", "SEX", "BORN_ON", "BORN_AT", "DIED_ON", "NOTE_1", "SOURCE2", "PERSON", "FAMILY", "EVENT",
    "TITLE",
];

fn name(random: &mut Random) -> Vec<u8> {
    let text = random.pick(&NAMES);
    [&[text.len() as u8], text.as_bytes()].concat()
}

/// A key of either kind. No unit of these streams has two.
fn key(random: &mut Random) -> Vec<u8> {
    if random.below(2) == 0 {
        unit(6, 0, &random.bytes(4), &[])
    } else {
        let length = random.between(4, 8);
        unit(7, 0, &random.bytes(length), &[])
    }
}

fn field(random: &mut Random) -> Vec<u8> {
    let action = random.pick(&[1, 2, 3, 4]);
    let length = random.between(2, 8);
    unit(8, action, &[name(random), random.bytes(length)].concat(), &[])
}

/// Units until a stream has about as many bytes as wanted.
fn many(random: &mut Random, size: usize, one: impl Fn(&mut Random) -> Vec<u8>) -> Vec<u8> {
    let mut units = Vec::new();
    while units.len() + 40 < size {
        units.extend(one(random));
    }
    units
}

/// One template with one key and small fields.
pub fn fields(random: &mut Random, size: usize) -> Vec<u8> {
    let nested = [key(random), many(random, size, field)].concat();
    unit(4, 0, &[], &unit(5, 1, b"\x06PERSON", &nested))
}

/// Templates with a key and three fields each.
pub fn templates(random: &mut Random, size: usize) -> Vec<u8> {
    let nested = many(random, size, |random| {
        let action = random.pick(&[1, 2, 3, 4]);
        let nested = [key(random), field(random), field(random), field(random)].concat();
        unit(5, action, &name(random), &nested)
    });
    unit(4, 0, &[], &nested)
}

/// Relations between two entity keys with one key each, in a group behind a call: nested five deep.
pub fn relations(random: &mut Random, size: usize) -> Vec<u8> {
    fn entity_key(random: &mut Random) -> Vec<u8> {
        unit(11, 0, &name(random), &key(random))
    }
    let nested = many(random, size, |random| {
        let action = random.pick(&[1, 2, 4]);
        let nested = [entity_key(random), entity_key(random)].concat();
        unit(9, action, &random.bytes(4), &nested)
    });
    let call = unit(2, 0, b"\x05MERGE", &[]);
    unit(1, 0, &[], &[call, unit(4, 0, &[], &nested)].concat())
}

/// A file of short lines.
pub fn lines(random: &mut Random, size: usize) -> Vec<u8> {
    let nested = many(random, size, |random| {
        let length = random.between(4, 23);
        unit(14, 0, &random.bytes(length), &[])
    });
    unit(13, 0, &[], &nested)
}

/// Streams of one kind and of about one size. They have some 60,000 bytes together, whatever the size: so the caches and
/// the branches that the processor learns are alike for all sizes.
pub struct Set {
    pub name: &'static str,
    pub size: usize,
    pub cases: Vec<Case>,
}

pub const SIZES: [usize; 3] = [1_000, 8_000, 60_000];

/// Size by size, the four kinds of each.
pub fn sets() -> Vec<Set> {
    let kinds: [(&str, fn(&mut Random, usize) -> Vec<u8>); 4] =
        [("fields", fields), ("templates", templates), ("relations", relations), ("lines", lines)];
    let mut sets = Vec::new();
    for size in SIZES {
        for (name, kind) in kinds {
            let random = &mut Random::new((size + sets.len()) as u64);
            let cases = (0..60_000_usize.div_ceil(size)).map(|_| case(kind(random, size))).collect();
            sets.push(Set { name, size, cases });
        }
    }
    sets
}

/// The streams of a night: so many different ones of small fields, of about 60,000 bytes each.
pub fn night() -> Vec<Vec<u8>> {
    const STREAMS: usize = 200;
    let random = &mut Random::new(2_026);
    (0..STREAMS).map(|_| fields(random, 60_000)).collect()
}

/// A copy of a stream with these units, damaged in one or two places so that every refusal is met.
pub fn damaged(stream: &[u8], units: &[Unit], random: &mut Random) -> Vec<u8> {
    let mut bytes = stream.to_vec();
    let keys: Vec<Unit> = units.iter().filter(|unit| matches!(unit.id, 6 | 7)).copied().collect();
    for _ in 0..random.between(1, 2) {
        let at = random.pick(units);
        match random.below(9) {
            0 => {
                let place = random.below(bytes.len());
                bytes[place] = random.below(256) as u8;
            }
            1 => bytes[at.start + random.below(6)] ^= 1 << random.below(8),
            2 => bytes[at.start + 4] = random.below(6) as u8,
            3 => bytes[at.start + 5] = random.below(16) as u8,
            4 => {
                let place = random.between(at.start + 6, at.end) - 1;
                bytes[place] = random.pick(b"\x00\x21@AZ[_09a");
            }
            // Too short or too long by a little: the next unit seems to stand inside this one or past its own start.
            5 => set_length(&mut bytes, at.start, (at.end - at.start + random.below(15)).saturating_sub(7)),
            // Ends with its own data: incomplete, or without its value.
            6 => set_length(&mut bytes, at.start, at.own - at.start),
            7 if !keys.is_empty() => return one_key_more(stream, units, &random.pick(&keys), random),
            // Cut short inside this unit, with the root's length mended or not.
            _ => {
                let length = random.between(at.start, at.end);
                let mut front = stream[..length].to_vec();
                if length >= 6 && random.below(4) > 0 {
                    set_length(&mut front, 0, length);
                }
                return front;
            }
        }
    }
    bytes
}

/// A copy without so many of its bytes, each at a random place.
pub fn lost(stream: &[u8], count: usize, random: &mut Random) -> Vec<u8> {
    let mut bytes = stream.to_vec();
    for _ in 0..count {
        bytes.remove(random.below(bytes.len()));
    }
    bytes
}

/// A copy with one more key, of either kind, behind this one.
fn one_key_more(stream: &[u8], units: &[Unit], key: &Unit, random: &mut Random) -> Vec<u8> {
    insert(stream, units, key, &unit(random.pick(&[6, 7]), 0, &random.bytes(4), &[]))
}

/// A copy with one more field behind this unit, of a name that no other unit has.
pub fn one_field_more(stream: &[u8], units: &[Unit], behind: &Unit, value: &[u8]) -> Vec<u8> {
    insert(stream, units, behind, &unit(8, 1, &[b"\x0BMAIDEN_NAME", value].concat(), &[]))
}

/// A copy with one more unit behind this one; the lengths of the units around it are mended.
fn insert(stream: &[u8], units: &[Unit], behind: &Unit, more: &[u8]) -> Vec<u8> {
    let mut bytes = [&stream[..behind.end], more, &stream[behind.end..]].concat();
    for around in units.iter().filter(|unit| opens(unit.id) && unit.start < behind.start && behind.end <= unit.end) {
        set_length(&mut bytes, around.start, around.end - around.start + more.len());
    }
    bytes
}

fn set_length(bytes: &mut [u8], start: usize, length: usize) {
    bytes[start + 2..start + 4].copy_from_slice(&(length as u16).to_be_bytes());
}
