//! Streams to be asked on: trees grown by the grammar, damaged or redirected, damaged bytes and random bytes.

use crate::builder::Request;
use crate::random::Random;
use crate::rules::{after, complete, kind, opens, Had, Part, Unit, MARK};
pub use crate::tree::Tree;
use crate::units::list;

fn name(random: &mut Random) -> Vec<u8> {
    let count = match random.below(20) {
        0 => 32,
        1 => 1,
        _ => random.between(1, 9),
    };
    let mut name = vec![count as u8, random.pick(b"ABMYZ")];
    name.extend((1..count).map(|_| random.pick(b"AZ09_KQ5")));
    name
}

fn value(random: &mut Random) -> Vec<u8> {
    let count = match random.below(200) {
        0 => 4096,
        1 => 4095,
        2..=40 => 0,
        _ => random.between(1, 12),
    };
    let mut value = random.bytes(count);
    if count >= 2 && random.one_in(8) {
        value[..2].copy_from_slice(&MARK);
    }
    value
}

/// Own data that keeps the rule.
pub fn own_data(id: u64, random: &mut Random) -> Vec<u8> {
    let parts = kind(id).map_or(&[][..], |kind| kind.own);
    let part = |part: &Part| match part {
        Part::Name => name(random),
        Part::Number => random.bytes(4),
        Part::Value => value(random),
    };
    parts.iter().flat_map(part).collect()
}

pub fn request(id: u64, random: &mut Random) -> Request {
    Request { id, action: random.pick(kind(id).unwrap().actions), data: own_data(id, random) }
}

/// A tree of the grammar with this root. Once it is larger than asked it only grows what it needs to be complete.
pub fn grow(id: u64, asked: usize, random: &mut Random) -> Tree {
    let mut tree = Tree { unit: request(id, random), nested: vec![] };
    let mut size = tree.unit.data.len() + 6;
    let mut had = Had::Nothing;
    while opens(id) {
        if complete(id, had) && (size >= asked || random.one_in(6)) {
            break;
        }
        let admitted = |nested: &u64| after(id, had, *nested).is_some();
        let choices: Vec<u64> = (1..=14).filter(admitted).collect();
        if choices.is_empty() {
            break;
        }
        let nested = random.pick(&choices);
        // What is left is shared out, so that a wide tree is met as well as a deep one.
        let share = asked.saturating_sub(size) / random.between(1, 4);
        let grown = grow(nested, share, random);
        size += grown.size();
        had = after(id, had, nested).unwrap();
        tree.nested.push(grown);
    }
    tree
}

/// A group that is filled up to so many bytes: exactly if it is a file with room for one more line, else nearly.
pub fn filled(id: u64, size: usize, random: &mut Random) -> Tree {
    let mut tree = grow(id, 0, random);
    let mut have = tree.size();
    while have < size {
        let mut more = grow(if id == 13 { 14 } else { 5 }, size - have, random);
        if id == 13 && size - have >= 6 {
            more.unit.data = random.bytes((size - have - 6).min(4096));
        }
        have += more.size();
        tree.nested.push(more);
    }
    tree
}

/// The front of a stream, then these bytes, to which the lengths of the units that are still open are fitted.
pub fn gone_on(front: &[u8], open: &[Unit], more: &[u8]) -> Vec<u8> {
    let mut bytes = [front, more].concat();
    let end = bytes.len();
    for unit in open {
        let start = unit.start as usize;
        bytes[start + 2..start + 4].copy_from_slice(&((end - start) as u16).to_be_bytes());
    }
    bytes
}

/// An accepted stream up to where a unit may have its first nested one or ends; then a unit of any id, or at most a few
/// bytes. Of the units that end there some may stay open.
pub fn redirected(stream: &[u8], random: &mut Random) -> Vec<u8> {
    let mut units = list(stream).units;
    let last = random.pick(&units);
    let at = match opens(last.id) && random.one_in(2) {
        true => last.own,
        false => last.end,
    };
    units.retain(|unit| opens(unit.id) && unit.start < at && at <= unit.end);
    let further = units.iter().filter(|unit| at < unit.end).count();
    units.truncate(random.between(further.max(1), units.len()));
    let more = match random.below(4) {
        0 => vec![0; random.below(6)],
        _ => grow(random.between(1, 14) as u64, 0, random).bytes(),
    };
    gone_on(&stream[..at as usize], &units, &more)
}

/// Gives a template or an entity key of a tree a key more, of any kind and at any place: kinds are mixed most of the time.
/// False if the tree has neither.
fn mix_keys(tree: &mut Tree, random: &mut Random) -> bool {
    let has_keys = |(index, unit): (usize, &Request)| matches!(unit.id, 5 | 11).then_some(index);
    let found: Vec<usize> = tree.requests().iter().enumerate().filter_map(has_keys).collect();
    if found.is_empty() {
        return false;
    }
    let unit = tree.unit_mut(random.pick(&found));
    let mut key = request(random.pick(&[6, 7]), random);
    match random.below(8) {
        0 => key.action = random.below(7) as u64,
        1 => damage_data(&mut key.data, random),
        _ => {}
    }
    let at = random.below(unit.nested.len() + 1);
    unit.nested.insert(at, Tree { unit: key, nested: vec![] });
    true
}

/// Damages units of a tree: their own fields, their order, or their keys.
pub fn damage_tree(tree: &mut Tree, random: &mut Random) {
    if random.one_in(6) && mix_keys(tree, random) {
        return;
    }
    let index = random.below(tree.count());
    let unit = tree.unit_mut(index);
    match random.below(9) {
        0 => unit.unit.id = random.below(17) as u64,
        1 => unit.unit.action = random.below(7) as u64,
        2 | 3 => damage_data(&mut unit.unit.data, random),
        4 => unit.unit.data = own_data(random.between(1, 14) as u64, random),
        _ if unit.nested.is_empty() => unit.nested.push(grow(random.between(2, 14) as u64, 0, random)),
        5 => drop(unit.nested.remove(random.below(unit.nested.len()))),
        6 => {
            let (one, other) = (random.below(unit.nested.len()), random.below(unit.nested.len()));
            unit.nested.swap(one, other);
        }
        7 => {
            let at = random.below(unit.nested.len());
            let again = unit.nested[at].clone();
            unit.nested.insert(at, again);
        }
        _ => {
            let at = random.below(unit.nested.len() + 1);
            unit.nested.insert(at, grow(random.between(2, 14) as u64, 0, random));
        }
    }
}

/// Own data that breaks its rule a little, most of the time.
pub fn damage_data(data: &mut Vec<u8>, random: &mut Random) {
    let at = random.below(data.len() + 1);
    match random.below(7) {
        0 if at < data.len() => data[at] = random.pick(b"\x00\x21/09:@AZ[^_`az\xFF"),
        1 if !data.is_empty() => data[0] = data[0].wrapping_add(random.pick(&[1, 255])),
        2 => data.insert(at, random.byte()),
        3 if at < data.len() => drop(data.remove(at)),
        4 => *data = [vec![33], vec![b'A'; 33]].concat(),
        5 => {
            // A value that is too long or nearly so, alone or behind a name, which may be broken too.
            let name = data.first().map_or(0, |count| 1 + usize::from(*count));
            data.resize(random.pick(&[0, name]) + random.pick(&[4096, 4097, 4098, 4099]), b'A');
            if random.one_in(4) {
                data[random.below(name + 1)] = random.pick(b"\x00\x21/:@[^`az\xFF");
            }
        }
        _ => data.clear(),
    }
}

/// Damages bytes, mostly where the structure is.
pub fn damage_bytes(bytes: &mut Vec<u8>, random: &mut Random) {
    let starts: Vec<usize> = (0..bytes.len().saturating_sub(5)).filter(|at| bytes[*at..*at + 2] == MARK).collect();
    if starts.is_empty() {
        return bytes.push(random.byte());
    }
    let at = random.pick(&starts);
    let length = u16::from_be_bytes([bytes[at + 2], bytes[at + 3]]);
    let mut put = |length: u16| bytes[at + 2..at + 4].copy_from_slice(&length.to_be_bytes());
    match random.below(9) {
        0 => bytes[at + random.below(6)] = random.byte(),
        1 => bytes[at + random.below(6)] ^= 1 << random.below(8),
        2 => put(length.wrapping_add(random.pick(&[1, 6, 10, 65_535, 65_530, 65_526]))),
        3 => put(random.pick(&[0, 5, 6, 7, 10, 14, 65_535])),
        4 => {
            let place = random.below(bytes.len());
            bytes[place] = random.byte();
        }
        5 => {
            let place = random.below(bytes.len() + 1);
            bytes.insert(place, random.byte());
        }
        6 => bytes.truncate(random.between(at, bytes.len())),
        7 => {
            let end = bytes.len().min(at + random.between(1, 20));
            bytes.drain(at..end);
        }
        _ => {
            let end = bytes.len().min(at + random.between(1, 20));
            let again = bytes[at..end].to_vec();
            bytes.splice(at..at, again);
        }
    }
    if random.one_in(2) {
        mend_root(bytes);
    }
}

/// Makes the root's length that of the bytes, so that a fault inside is met.
pub fn mend_root(bytes: &mut [u8]) {
    if let (Ok(length), true) = (u16::try_from(bytes.len()), bytes.len() >= 6) {
        bytes[2..4].copy_from_slice(&length.to_be_bytes());
    }
}

/// Random bytes among which prefixes are strewn.
pub fn noise(random: &mut Random) -> Vec<u8> {
    let mut bytes = Vec::new();
    for _ in 0..random.between(0, 12) {
        if random.one_in(4) {
            let count = random.between(0, 9);
            bytes.extend(random.bytes(count));
        } else {
            let (length, action, id) = (random.between(4, 40), random.below(5), random.below(16));
            bytes.extend([MARK[0], MARK[1], 0, length as u8, action as u8, id as u8]);
        }
    }
    if random.one_in(2) {
        mend_root(&mut bytes);
    }
    bytes
}
