//! Compares rescues: bytes that were E/R groups or nearly so, and room for what is left of them.

use crate::functions::Function;
use crate::readers::hex;
use crate::rescued::{broken, kinds};
use crate::tally::Tally;
use crate::{archive, safe};
use cdf_model::cases::unit;
use cdf_model::numbers;
use cdf_model::random::Random;
use cdf_model::rescue::rescue;
use cdf_model::rules::MARK;
use cdf_model::streams::{damage_bytes, damage_tree, grow, noise, request, Tree};

/// What a buffer holds before the call: no two bytes near each other are the same.
fn pattern(size: usize) -> Vec<u8> {
    (0..size).map(|at| (at * 7 + 3) as u8).collect()
}

/// The number, every entry of the answer, and every byte of the buffer and behind it.
pub fn compare_rescue(tally: &mut Tally, bytes: &[u8], room: u64) {
    let mut buffer = pattern(room as usize + 9);
    let said = archive::rescue(bytes, &mut buffer[..room as usize]);
    let rescued = rescue(bytes, room);
    let owed = (rescued.number, numbers::rescued(&rescued));
    let mut left = pattern(room as usize + 9);
    left[..rescued.group.len()].copy_from_slice(&rescued.group);
    let given = || format!("room {room}, {}", hex(bytes));
    if said != owed {
        let (one, other) = (format!("{said:?}"), format!("{owed:?}"));
        tally.differ("cdf_rescue", &given(), &one, &other);
    }
    if buffer != left {
        tally.differ("the buffer of cdf_rescue", &given(), &hex(&buffer), &hex(&left));
    }
    if let Some(what) = broken(bytes, room, &rescued) {
        tally.differ(what, &given(), "(not asked)", "does not agree with itself");
    }
    safe::compare_rescue(tally, bytes, room, &rescued);
    tally.met(Function::Rescue, rescued.number);
    tally.rescued(&kinds(bytes, room, &rescued));
    tally.count("rescues");
}

/// A template, a relation or an ordered relation.
fn nested(asked: usize, random: &mut Random) -> Tree {
    grow(random.pick(&[5, 5, 9, 10]), asked, random)
}

/// An E/R group of a few units. Some have a field with a unit as its value, which is seldom too long a one.
fn tree(random: &mut Random) -> Tree {
    let mut group = Tree { unit: request(4, random), nested: vec![] };
    for _ in 0..random.between(1, 6) {
        let mut unit = nested(random.pick(&[0, 0, 30, 60, 120]), random);
        if unit.unit.id == 5 && random.one_in(3) {
            let mut field = request(8, random);
            field.data = [b"\x01A", &nested(0, random).bytes()[..]].concat();
            unit.nested.push(Tree { unit: field, nested: vec![] });
        }
        group.nested.push(unit);
    }
    group
}

fn group(random: &mut Random) -> Vec<u8> {
    tree(random).bytes()
}

/// Bytes lost in the transport, a few at a time.
fn lose(bytes: &mut Vec<u8>, random: &mut Random) {
    for _ in 0..random.between(1, 3) {
        let at = random.below(bytes.len() + 1);
        let end = bytes.len().min(at + random.between(1, 8));
        bytes.drain(at..end);
    }
}

/// Bytes that nobody sent: any, or those that begin a unit.
fn garbage(random: &mut Random) -> Vec<u8> {
    match random.below(4) {
        0 => MARK[..random.between(1, 2)].to_vec(),
        1 => grow(random.between(2, 14) as u64, 0, random).bytes()[..6].to_vec(),
        _ => {
            let count = random.between(1, 9);
            random.bytes(count)
        }
    }
}

fn insert(bytes: &mut Vec<u8>, random: &mut Random) {
    for _ in 0..random.between(1, 3) {
        let at = random.below(bytes.len() + 1);
        let more = garbage(random);
        bytes.splice(at..at, more);
    }
}

/// A part comes twice.
fn repeat(bytes: &mut Vec<u8>, random: &mut Random) {
    let start = random.below(bytes.len());
    let end = bytes.len().min(start + random.pick(&[1, 2, 6, 20, 80]));
    let again = bytes[start..end].to_vec();
    bytes.splice(end..end, again);
}

/// Pieces of some groups, cut anywhere.
fn pieces(random: &mut Random) -> Vec<u8> {
    let mut bytes = Vec::new();
    for _ in 0..random.between(2, 4) {
        let group = group(random);
        let start = random.below(group.len());
        let end = random.between(start, group.len());
        bytes.extend(&group[start..end]);
    }
    bytes
}

/// Units with garbage between them: about as many runs as are told.
fn runs(random: &mut Random) -> Vec<u8> {
    let mut bytes = vec![0; 6];
    for _ in 0..random.between(62, 66) {
        bytes.extend(nested(0, random).bytes());
        bytes.extend(garbage(random));
    }
    if random.one_in(2) {
        let front = garbage(random);
        bytes.splice(6..6, front);
    }
    bytes
}

/// A template of this size, of fields that have units at the front of their values.
fn long(size: usize, random: &mut Random) -> Vec<u8> {
    let mut units = unit(6, &[b"\0\0\0\x01"]);
    while units.len() + 8 < size {
        let left = size - 8 - units.len();
        // What is left for the last field is at least an empty one.
        let value = match left {
            0..=4_104 => left - 8,
            4_105..=4_111 => 4_000,
            _ => 4_096,
        };
        let mut text = nested(0, random).bytes();
        text.resize(value, b'x');
        units.extend(unit(8, &[b"\x01A", &text]));
    }
    unit(5, &[b"\x01A", &units])
}

/// More bytes than a stream has, or nearly: kept are about as many as a group can hold.
fn longest(random: &mut Random) -> Vec<u8> {
    let size = 65_529 + random.pick(&[0, 0, 1, 1, 2, 6]);
    let mut bytes = vec![0; 6];
    if random.one_in(4) {
        // A unit that no group holds, or that fills one.
        bytes.extend(long(size, random));
        if random.one_in(2) {
            bytes.extend(garbage(random));
            bytes.extend(nested(0, random).bytes());
        }
        return bytes;
    }
    let (many, mut kept) = (random.one_in(3), 0);
    for _ in 0..if many { random.between(63, 66) } else { random.between(0, 5) } {
        let unit = nested(0, random).bytes();
        if kept + unit.len() + 4_200 < size {
            kept += unit.len();
            bytes.extend(unit);
            bytes.push(random.byte());
        }
    }
    bytes.extend(long(size - kept, random));
    if random.one_in(3) {
        damage_bytes(&mut bytes, random);
    }
    bytes
}

fn input(random: &mut Random) -> (&'static str, Vec<u8>) {
    if random.one_in(500) {
        return ("bytes to be rescued: near the limit or above it", longest(random));
    }
    if random.one_in(40) {
        return ("bytes to be rescued: with about 64 runs to be dropped", runs(random));
    }
    let mut bytes = group(random);
    let kind = match random.below(20) {
        0 | 1 => "bytes to be rescued: a group",
        2..=5 => {
            lose(&mut bytes, random);
            "bytes to be rescued: a group with bytes lost"
        }
        6 | 7 => {
            insert(&mut bytes, random);
            "bytes to be rescued: a group with bytes put in"
        }
        8 | 9 => {
            damage_bytes(&mut bytes, random);
            "bytes to be rescued: a group with bytes damaged"
        }
        10 | 11 => {
            let mut tree = tree(random);
            damage_tree(&mut tree, random);
            bytes = tree.bytes();
            "bytes to be rescued: a group with a unit damaged"
        }
        12 | 13 => {
            bytes = pieces(random);
            "bytes to be rescued: pieces of groups"
        }
        14 => {
            bytes = grow(random.pick(&[1, 1, 13]), 200, random).bytes();
            "bytes to be rescued: another root"
        }
        15 => {
            bytes.truncate(random.below(12));
            "bytes to be rescued: a few bytes"
        }
        16 => {
            bytes.truncate(random.between(6, bytes.len()));
            "bytes to be rescued: a group that is cut"
        }
        17 | 18 => {
            repeat(&mut bytes, random);
            "bytes to be rescued: a group with bytes repeated"
        }
        _ => {
            bytes = noise(random);
            "bytes to be rescued: random bytes and prefixes"
        }
    };
    if random.one_in(4) {
        let first: Vec<u8> = random.bytes(6);
        let count = bytes.len().min(random.between(1, 6));
        bytes[..count].copy_from_slice(&first[..count]);
    }
    (kind, bytes)
}

/// Some bytes, and rescues of them into rooms of several sizes.
pub fn compare(tally: &mut Tally, random: &mut Random) {
    let (kind, bytes) = input(random);
    tally.count(kind);
    let length = rescue(&bytes, u64::MAX).group.len() as u64;
    let n = bytes.len() as u64;
    // Where nothing is written any room is as good.
    let exact = if length == 0 { random.pick(&[0, 6, n, n + 9, 70_000]) } else { length };
    let other = match random.below(8) {
        0 | 1 => exact.saturating_sub(1),
        2 => 0,
        3 => random.below(12) as u64,
        4 => exact + 1,
        5 => random.below(exact as usize + 1) as u64,
        6 if random.one_in(8) => 70_000,
        _ => exact + random.below(60) as u64,
    };
    compare_rescue(tally, &bytes, exact);
    compare_rescue(tally, &bytes, other);
}
