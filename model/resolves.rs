//! Compares resolvings: groups with few names and numbers, or with about 256 templates, and lists for the ranks.

use crate::functions::Function;
use crate::persons::broken;
use crate::readers::hex;
use crate::resolved::kinds;
use crate::tally::Tally;
use crate::{archive, safe};
use cdf_model::builder::Request;
use cdf_model::random::Random;
use cdf_model::resolve::resolve;
use cdf_model::streams::{damage_bytes, damage_tree, grow, noise, redirected, request, Tree};

const NAMES: [&[u8]; 5] = [b"\x01A", b"\x01B", b"\x02AB", b"\x02AC", b"\x20ABCDEFGHIJKLMNOPQRSTUVWXYZ_01234"];

/// What a list holds before the call: no two numbers near each other are the same, and none is a rank.
fn pattern(size: usize) -> Vec<u64> {
    (0..size as u64).map(|at| !(at * 7 + 3)).collect()
}

/// The number, the answer, and every number of the list and behind it.
pub fn compare_resolve(tally: &mut Tally, stream: &[u8], room: u64) {
    let size = room as usize;
    let mut list = pattern(size + 9);
    let said = archive::resolve(stream, &mut list[..size]);
    let resolved = resolve(stream, room);
    let owed = (resolved.number, [resolved.offset, resolved.ranks.len() as u64]);
    let mut left = pattern(size + 9);
    left[..resolved.ranks.len()].copy_from_slice(&resolved.ranks);
    let given = || format!("a list of {room}, {}", hex(stream));
    if said != owed {
        let (one, other) = (format!("{said:?}"), format!("{owed:?}"));
        tally.differ("cdf_resolve", &given(), &one, &other);
    }
    if list != left {
        tally.differ("the list of cdf_resolve", &given(), &format!("{list:?}"), &format!("{left:?}"));
    }
    if let Some(what) = broken(stream, room, &resolved) {
        tally.differ(what, &given(), "(not asked)", "does not agree with itself");
    }
    safe::compare_resolve(tally, stream);
    tally.met(Function::Resolve, resolved.number);
    tally.resolved(&kinds(stream, room, &resolved));
    tally.count("resolvings");
}

fn leaf(id: u64, data: &[u8]) -> Tree {
    Tree { unit: Request { id, action: 0, data: data.to_vec() }, nested: vec![] }
}

/// A name and the number of a temporary key.
type Named = (&'static [u8], u32);

/// What a group is made of: the names and numbers that its templates have, and how often they are not what they should be.
struct Group {
    tree: Tree,
    had: Vec<Named>,
    /// One in so many templates has the name and number of another, and one in so many entity keys those of none.
    doubled_one_in: usize,
    alone_one_in: usize,
    numbers: usize,
}

impl Group {
    fn new(wrong: (usize, usize), numbers: usize, random: &mut Random) -> Group {
        let tree = Tree { unit: request(4, random), nested: vec![] };
        Group { tree, had: vec![], doubled_one_in: wrong.0, alone_one_in: wrong.1, numbers }
    }

    fn any(&self, random: &mut Random) -> Named {
        (random.pick(&NAMES), random.below(self.numbers) as u32)
    }

    /// A name and a number that no template has yet, if that can be had.
    fn new_one(&self, random: &mut Random) -> Named {
        let found = (0..20).map(|_| self.any(random)).find(|one| !self.had.contains(one));
        found.unwrap_or((NAMES[0], self.had.len() as u32 + self.numbers as u32))
    }

    fn template(&mut self, random: &mut Random) {
        let named = match self.had.is_empty() || !random.one_in(self.doubled_one_in) {
            true => self.new_one(random),
            false => random.pick(&self.had),
        };
        self.had.push(named);
        self.named_template(named, random);
    }

    fn named_template(&mut self, named: Named, random: &mut Random) {
        let mut template = grow(5, random.pick(&[0, 0, 0, 30, 60]), random);
        template.unit.data = named.0.to_vec();
        template.nested.retain(|nested| nested.unit.id == 8);
        template.nested.insert(0, leaf(6, &named.1.to_be_bytes()));
        self.tree.nested.push(template);
    }

    /// A template with keys of the other kind, which may have the bytes of a number.
    fn stored(&mut self, random: &mut Random) {
        let mut template = grow(5, 30, random);
        template.unit.data = random.pick(&NAMES).to_vec();
        template.nested.retain(|nested| nested.unit.id == 8);
        for _ in 0..random.between(1, 2) {
            template.nested.insert(0, leaf(7, &(random.below(self.numbers) as u32).to_be_bytes()));
        }
        self.tree.nested.push(template);
    }

    /// An end of a relation.
    fn end(&mut self, random: &mut Random) -> Tree {
        if random.one_in(6) {
            return grow(12, 0, random);
        }
        let mut named = match self.had.is_empty() || random.one_in(self.alone_one_in) {
            true => self.any(random),
            false => random.pick(&self.had),
        };
        if !self.had.is_empty() && random.one_in(4) {
            named = self.had[self.had.len() - 1];
        }
        let id = if random.one_in(6) { 7 } else { 6 };
        let mut entity = leaf(11, named.0);
        entity.nested = vec![leaf(id, &named.1.to_be_bytes())];
        if id == 7 && random.one_in(2) {
            entity.nested.push(leaf(7, &named.1.to_be_bytes()));
        }
        entity
    }

    fn relation(&mut self, random: &mut Random) {
        let id = random.pick(&[9, 9, 10]);
        let mut relation = Tree { unit: request(id, random), nested: vec![] };
        relation.nested = vec![self.end(random), self.end(random)];
        self.tree.nested.push(relation);
    }
}

/// A group with few names and numbers; wrong in nothing, in one thing or in several.
fn small(random: &mut Random) -> Tree {
    let wrong = random.pick(&[(1 << 40, 1 << 40), (1 << 40, 1 << 40), (4, 1 << 40), (1 << 40, 4), (4, 4), (2, 2)]);
    let mut group = Group::new(wrong, random.pick(&[1, 2, 3, 9]), random);
    if !random.one_in(4) {
        group.template(random);
    }
    for _ in 0..random.between(1, 8) {
        match random.below(8) {
            0..=3 => group.template(random),
            4 => group.stored(random),
            _ => group.relation(random),
        }
    }
    if random.one_in(4) {
        // Templates stand behind the relations that name them.
        let at = random.below(group.tree.nested.len());
        group.tree.nested.rotate_left(at);
    }
    group.tree
}

/// A group with about 256 templates that have temporary keys, and some with others.
fn full(random: &mut Random) -> Tree {
    let mut group = Group::new((1 << 40, 1 << 40), 1 << 20, random);
    let templates = random.between(254, 258);
    let doubled = random.one_in(3);
    let others = random.pick(&[0, 0, 3, 40]);
    for at in 0..templates {
        let again = doubled && at > 200 && (at + 1 == templates || random.one_in(20));
        let named = if again { random.pick(&group.had) } else { group.new_one(random) };
        group.had.push(named);
        let mut template = leaf(5, named.0);
        template.unit.action = random.between(1, 4) as u64;
        template.nested.push(leaf(6, &named.1.to_be_bytes()));
        group.tree.nested.push(template);
        if random.below(templates) < others {
            group.stored(random);
        }
        if random.one_in(80) {
            group.relation(random);
        }
    }
    for _ in 0..random.between(0, 6) {
        group.relation(random);
    }
    if random.one_in(2) {
        // The last template, and the first.
        for named in [group.had[templates - 1], group.had[0]] {
            group.had = vec![named];
            group.relation(random);
        }
    }
    if random.one_in(4) {
        group.had = vec![(NAMES[0], u32::MAX)];
        group.relation(random);
    }
    group.tree
}

/// As many relations as a stream holds, or nearly, and a few templates.
fn many(random: &mut Random) -> Tree {
    let mut group = Group::new((1 << 40, 1 << 40), 1 << 20, random);
    for _ in 0..random.between(1, 5) {
        group.template(random);
    }
    while group.tree.size() < 60_000 {
        for _ in 0..40 {
            group.relation(random);
        }
    }
    group.tree
}

/// What is no accepted E/R group, most of the time.
fn other(mut group: Tree, random: &mut Random) -> Vec<u8> {
    match random.below(8) {
        0 => {
            damage_tree(&mut group, random);
            group.bytes()
        }
        1 | 2 => {
            let mut bytes = group.bytes();
            damage_bytes(&mut bytes, random);
            bytes
        }
        3 => redirected(&group.bytes(), random),
        4 => noise(random),
        5 => grow(random.pick(&[1, 13]), 60, random).bytes(),
        6 => {
            let mut bytes = group.bytes();
            bytes.truncate(random.below(12));
            bytes
        }
        _ => {
            // The group in a stream, where its keys are not asked.
            let mut stream = grow(1, 0, random);
            stream.nested.push(group);
            stream.bytes()
        }
    }
}

fn input(random: &mut Random) -> (&'static str, Vec<u8>) {
    match random.below(8) {
        _ if random.one_in(5_000) => ("streams to be resolved: a group with many keys", many(random).bytes()),
        _ if random.one_in(60) => ("streams to be resolved: a group with about 256 templates", full(random).bytes()),
        0 => ("streams to be resolved: another stream, or damaged", other(small(random), random)),
        _ => ("streams to be resolved: a group with few names and numbers", small(random).bytes()),
    }
}

/// A stream, and lists of several lengths for its ranks.
pub fn compare(tally: &mut Tally, random: &mut Random) {
    let (kind, stream) = input(random);
    tally.count(kind);
    let needed = resolve(&stream, u64::MAX).ranks.len() as u64;
    // Where nothing is written any list is as good.
    let exact = if needed == 0 { random.pick(&[0, 0, 1, 9]) } else { needed };
    let other = match random.below(6) {
        0 | 1 => exact.saturating_sub(1),
        2 => 0,
        3 => random.below(exact as usize + 1) as u64,
        4 => exact + 1,
        _ => exact + random.below(40) as u64,
    };
    compare_resolve(tally, &stream, exact);
    compare_resolve(tally, &stream, other);
}
