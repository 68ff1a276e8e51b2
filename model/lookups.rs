//! Compares lookups: pairs of streams with few names and keys, and what is asked of them, mostly taken from them.

use crate::functions::Function;
use crate::keyed::{keyed, Keyed};
use crate::looked_up::{broken, kinds};
use crate::readers::hex;
use crate::tally::Tally;
use crate::{archive, safe};
use cdf_model::lookup::{lookup, Asked};
use cdf_model::numbers;
use cdf_model::random::Random;
use cdf_model::streams::{damage_bytes, damage_tree, grow, noise, redirected, request, Tree};

const NAMES: [&[u8]; 5] = [b"\x01A", b"\x01B", b"\x02AB", b"\x02AC", b"\x20ABCDEFGHIJKLMNOPQRSTUVWXYZ_01234"];
const NUMBERS: [&[u8]; 3] = [b"\0\0\0\x01", b"\0\0\0\x02", b"\0\0\x01\x01"];
const VALUES: [&[u8]; 4] = [b"", b"\0\0\0\x01", b"\0\0\0\x01\x01", b"\x01A"];

/// The number, and every entry of the answer.
pub fn compare_lookup(tally: &mut Tally, first: &[u8], second: &[u8], asked: &Asked) {
    let said = archive::lookup(first, second, asked);
    let found = lookup(first, second, asked);
    let owed = (found.number, numbers::found(&found));
    let Asked { template, key_id, key, field } = asked;
    let asked_for = || format!("template {}, key {key_id} {}, field {}", hex(template), hex(key), hex(field));
    let given = || format!("{}, first {}, second {}", asked_for(), hex(first), hex(second));
    if said != owed {
        let (one, other) = (format!("{said:?}"), format!("{owed:?}"));
        tally.differ("cdf_lookup", &given(), &one, &other);
    }
    if let Some(what) = broken(first, second, asked, &found) {
        tally.differ(what, &given(), "(not asked)", "does not agree with itself");
    }
    safe::compare_lookup(tally, first, second, asked);
    tally.met(Function::Lookup, found.number);
    tally.looked_up(&kinds(first, second, asked));
    tally.count("lookups");
}

/// Gives units of a tree a name or a key out of a few, each once in so many times. Some fields lose their value.
fn few(tree: &mut Tree, one_in: usize, random: &mut Random) {
    let data = &mut tree.unit.data;
    if random.one_in(one_in) {
        match tree.unit.id {
            5 | 11 => *data = random.pick(&NAMES).to_vec(),
            6 => *data = random.pick(&NUMBERS).to_vec(),
            7 => *data = random.pick(&VALUES).to_vec(),
            8 => {
                let value = &data[1 + usize::from(data[0])..];
                let value = if random.one_in(8) { &[] } else { value };
                *data = [random.pick(&NAMES), value].concat();
            }
            _ => {}
        }
    }
    tree.nested.iter_mut().for_each(|nested| few(nested, one_in, random));
}

/// An E/R group with so many units in it, and few names and keys: all of them, or one in so many.
fn group_of(count: usize, one_in: usize, random: &mut Random) -> Tree {
    let mut group = Tree { unit: request(4, random), nested: vec![] };
    for _ in 0..count {
        let id = random.pick(&[5, 5, 5, 5, 5, 9, 10]);
        let asked = random.pick(&[0, 30, 60, 90]);
        group.nested.push(grow(id, asked, random));
    }
    few(&mut group, one_in, random);
    group
}

fn group(random: &mut Random) -> Tree {
    match random.one_in(250) {
        true => group_of(50, 4, random),
        false => group_of(random.between(1, 6), 1, random),
    }
}

/// A group of up to 65,535 bytes, nearly all of them in the last fields of its templates.
fn large(random: &mut Random) -> Tree {
    let mut group = group_of(16, 4, random);
    for template in group.nested.iter_mut().filter(|nested| nested.unit.id == 5) {
        let mut field = request(8, random);
        field.data.resize(random.between(3_600, 4_000), b'V');
        template.nested.push(Tree { unit: field, nested: vec![] });
    }
    group
}

/// The same with a unit or two of it moved, left out or renamed.
fn alike(group: &Tree, random: &mut Random) -> Tree {
    let mut group = group.clone();
    let nested = &mut group.nested;
    let at = random.below(nested.len());
    match random.below(4) {
        0 => nested.rotate_left(at),
        1 if nested.len() > 1 => drop(nested.remove(at)),
        2 if nested[at].unit.id == 5 && nested[at].nested.len() > 1 => drop(nested[at].nested.pop()),
        _ => few(&mut group, 6, random),
    }
    group
}

/// What is no accepted E/R group, most of the time.
fn other(mut group: Tree, random: &mut Random) -> Vec<u8> {
    match random.below(8) {
        0 => {
            damage_tree(&mut group, random);
            group.bytes()
        }
        1 | 2 => {
            let mut bytes = group.bytes();
            damage_bytes(&mut bytes, random);
            bytes
        }
        3 => redirected(&group.bytes(), random),
        4 => noise(random),
        5 => {
            let mut bytes = group.bytes();
            bytes.truncate(random.below(12));
            bytes
        }
        6 => grow(random.pick(&[1, 13]), 60, random).bytes(),
        _ => {
            // The group in a stream, where its templates do not count.
            let mut stream = grow(1, 0, random);
            stream.nested.push(group);
            stream.bytes()
        }
    }
}

/// A name that is none, or another.
fn spoil(name: &mut Vec<u8>, random: &mut Random) {
    match random.below(6) {
        0 => drop(name.pop()),
        1 if !name.is_empty() => name[0] = name[0].wrapping_add(random.pick(&[1, 255, 32])),
        2 => name.push(random.pick(b"AB\0")),
        3 if !name.is_empty() => drop(name.remove(0)),
        4 if !name.is_empty() => {
            let at = random.below(name.len());
            name[at] ^= 1 << random.below(8);
        }
        _ => name.clear(),
    }
}

/// What is asked, mostly of a template of the streams.
fn asked(of: &[Keyed], random: &mut Random) -> Asked {
    let mut asked = Asked {
        template: random.pick(&NAMES).to_vec(),
        key_id: 6,
        key: random.pick(&NUMBERS).to_vec(),
        field: random.pick(&NAMES).to_vec(),
    };
    if !of.is_empty() {
        let (one, another) = (&of[random.below(of.len())], &of[random.below(of.len())]);
        asked.template = one.name.clone();
        let keys = if random.one_in(8) { &another.keys } else { &one.keys };
        let later = if random.one_in(6) { random.below(keys.len()) } else { 0 };
        (asked.key_id, asked.key) = keys[later].clone();
        let fields = if random.one_in(4) { &another.fields } else { &one.fields };
        if !fields.is_empty() {
            asked.field = fields[random.below(fields.len())].name.clone();
        }
    }
    match random.below(20) {
        0 => spoil(&mut asked.template, random),
        1 => spoil(&mut asked.field, random),
        2 => asked.key_id = random.pick(&[0, 5, 6, 7, 8, 11, 12, u64::MAX]),
        3 => asked.key_id += random.pick(&[1 << 32, 1 << 63, 256, 65_536]),
        4 => drop(asked.key.pop()),
        5 => asked.key.push(random.pick(&[0, 1])),
        6 if !asked.key.is_empty() => {
            let at = random.below(asked.key.len());
            asked.key[at] ^= 1 << random.below(8);
        }
        _ => {}
    }
    asked
}

/// A pair of streams, and some lookups in them.
pub fn compare(tally: &mut Tally, random: &mut Random) {
    let one = group(random);
    let first = one.bytes();
    let (kind, first, second) = match random.below(16) {
        _ if random.one_in(250) => ("pairs of streams: two groups, the first large", large(random).bytes(), first),
        _ if random.one_in(250) => ("pairs of streams: two groups, the second large", first, large(random).bytes()),
        0 | 1 => ("pairs of streams: the same group twice", first.clone(), first),
        2..=5 => ("pairs of streams: two groups alike", first, alike(&one, random).bytes()),
        6 | 7 => ("pairs of streams: the first is another stream, or damaged", other(one, random), first),
        8 | 9 => {
            let second = if random.one_in(2) { one } else { group(random) };
            ("pairs of streams: the second is another stream, or damaged", first, other(second, random))
        }
        10 => {
            ("pairs of streams: both are other streams, or damaged", other(one, random), other(group(random), random))
        }
        _ => ("pairs of streams: two groups", first, group(random).bytes()),
    };
    tally.count(kind);
    let mut of = keyed(&first);
    of.extend(keyed(&second));
    of.retain(|keyed| !keyed.keys.is_empty() && (keyed.id == 5 || random.one_in(6)));
    // A caller may lend one stream as both.
    let second = if first == second && random.one_in(2) { &first } else { &second };
    for _ in 0..4 {
        let asked = asked(&of, random);
        compare_lookup(tally, &first, second, &asked);
    }
}
