//! Compares the builder: runs from a start, and calls on hand-made places. After each call the number, the place and the
//! whole buffer are compared.

use crate::functions::Function;
use crate::readers::{compare_explain, hex};
use crate::tally::Tally;
use crate::{archive, consistency, keys, places};
use cdf_model::builder::{self, Place, Request};
use cdf_model::numbers::{builder_place, of_builder_place, BuilderNumbers};
use cdf_model::random::Random;
use cdf_model::rules::{after, kind, Part, LIMIT};
use cdf_model::streams::{damage_bytes, damage_data, damage_tree, filled, grow, noise, own_data, request};

/// The same buffer twice, with bytes behind what is lent that no call may write.
struct Buffers {
    archive: Vec<u8>,
    model: Vec<u8>,
    n: usize,
}

const BEYOND: usize = 16;

impl Buffers {
    fn new(n: usize, first: u8) -> Buffers {
        // Neighbouring bytes differ, so that bytes moved by mistake are seen.
        let fill = |at: usize| first.wrapping_add((at as u8).wrapping_mul(37));
        let archive: Vec<u8> = (0..n + BEYOND).map(fill).collect();
        let model = archive.clone();
        Buffers { archive, model, n }
    }

    /// Ends the run unless both sides did the same. A refusal leaves the place; of a start it is zeros.
    fn compare(
        &self,
        tally: &mut Tally,
        function: Function,
        (number, place): (u64, &BuilderNumbers),
        (owed, before): (&Result<Place, u64>, &BuilderNumbers),
        given: impl Fn() -> String,
    ) -> u64 {
        let same = match owed {
            Ok(owed) => number == 0 && builder_place(place) == *owed,
            Err(owed) if function == Function::BuildFirst => number == *owed && *place == [0; 10],
            Err(owed) => number == *owed && place == before,
        };
        if !same || self.archive != self.model {
            let mut pairs = self.archive.iter().zip(&self.model);
            let first = pairs.position(|(one, other)| one != other);
            let given = format!("buffer of {}, place {before:?}, {}", self.n, given());
            let one = format!("{number}, place {place:?}");
            let other = format!(
                "{owed:?}, numbers {:?}; the buffers differ first at {first:?}",
                owed.as_ref().map(of_builder_place)
            );
            tally.differ("a builder call", &given, &one, &other);
        }
        tally.met(function, number);
        number
    }

    fn first(&mut self, tally: &mut Tally, root: u64, place: &mut BuilderNumbers) -> u64 {
        let before = *place;
        let number = archive::build_first(&mut self.archive[..self.n], root, place);
        let owed = builder::start(&mut self.model[..self.n], root);
        let given = || format!("start with root {root}");
        self.compare(tally, Function::BuildFirst, (number, place), (&owed, &before), given)
    }

    fn next(&mut self, tally: &mut Tally, place: &mut BuilderNumbers, request: &Request) -> u64 {
        let before = *place;
        let Request { id, action, data } = request;
        let number = archive::build_next(&mut self.archive[..self.n], place, *id, *action, data);
        let owed = builder::next(&mut self.model[..self.n], &builder_place(&before), request);
        let given = || format!("NEXT with id {id}, action {action}, data {}", hex(data));
        if owed == Err(7) {
            tally.too_many(Function::BuildNext, &keys::of_builder(&builder_place(&before), request));
        }
        self.compare(tally, Function::BuildNext, (number, place), (&owed, &before), given)
    }

    fn add_stream(&mut self, tally: &mut Tally, place: &mut BuilderNumbers, group: &[u8]) -> u64 {
        let before = *place;
        let number = archive::build_add_stream(&mut self.archive[..self.n], place, group);
        let owed = builder::add_stream(&mut self.model[..self.n], &builder_place(&before), group);
        let given = || format!("ADD_STREAM with {}", hex(group));
        self.compare(tally, Function::AddStream, (number, place), (&owed, &before), given)
    }

    fn finish(&mut self, tally: &mut Tally, place: &mut BuilderNumbers) -> u64 {
        let before = *place;
        let (number, length) = archive::build_finish(&mut self.archive[..self.n], place);
        let model_place = builder_place(&before);
        let owed = builder::finish(&self.model[..self.n], &model_place);
        if length != owed.unwrap_or(0) || *place != before {
            let given = format!("finish, buffer of {}, place {before:?}", self.n);
            let one = format!("{number} with {length}, place {place:?}");
            tally.differ("a builder call", &given, &one, &format!("{owed:?}"));
        }
        let owed = owed.map(|_| model_place);
        let given = || "finish".to_string();
        self.compare(tally, Function::Finish, (number, place), (&owed, &before), given)
    }
}

/// A request that is right at this place most of the time, else nearly so.
pub fn propose(place: &Place, random: &mut Random) -> Request {
    let joins = |id: &u64| place.open.iter().any(|unit| after(unit.id, unit.had, *id).is_some());
    let admitted: Vec<u64> = (1..=14).filter(joins).collect();
    let takes_keys = place.open.last().is_some_and(|unit| matches!(unit.id, 5 | 11));
    let id = match admitted.is_empty() || random.one_in(6) {
        _ if takes_keys && random.one_in(8) => random.pick(&[6, 7]),
        true => random.between(1, 14) as u64,
        false => random.pick(&admitted),
    };
    let mut asked = request(id, random);
    match random.below(24) {
        0 => asked.action = random.below(7) as u64,
        1 => asked.action = random.pick(&[asked.action + 256, u64::MAX, 1 << 32]),
        2 | 3 => damage_data(&mut asked.data, random),
        4 => asked.id = random.pick(&[0, 15, 16, 255, 256, id + 256, id + (1 << 32), u64::MAX]),
        5 => asked.data = own_data(random.between(1, 14) as u64, random),
        _ => {}
    }
    asked
}

/// Bytes for ADD_STREAM: groups that are accepted, of a size that just has room or not, damaged, and other streams.
fn group(place: &Place, n: usize, random: &mut Random) -> Vec<u8> {
    let id = random.pick(&[4, 13]);
    let room = (n.min(LIMIT as usize)).saturating_sub(place.written as usize);
    let mut tree = match random.below(12) {
        0 => grow(1, 40, random),
        1 | 2 if room < 2_000 || random.one_in(10) => filled(13, room + random.below(3), random),
        _ => grow(id, random.pick(&[0, 0, 40, 120]), random),
    };
    match random.below(12) {
        0 => damage_tree(&mut tree, random),
        1 => return noise(random),
        2 => {
            let mut bytes = tree.bytes();
            damage_bytes(&mut bytes, random);
            return bytes;
        }
        _ => {}
    }
    tree.bytes()
}

/// How many bytes the buffer of a run has.
fn buffer_size(random: &mut Random) -> usize {
    match random.below(400) {
        0..=15 => random.between(65_530, 65_545),
        16 => 70_000,
        17..=40 => random.between(0, 12),
        41..=200 => random.between(6, 80),
        _ => random.between(40, 600),
    }
}

pub fn compare(tally: &mut Tally, random: &mut Random) {
    let n = buffer_size(random);
    let mut buffers = Buffers::new(n, random.byte());
    let mut place = [0; 10].map(|_: u64| random.any());
    let odd = random.pick(&[0, 2, 5, 14, 15, 257, u64::MAX]);
    let root = random.pick(&[1, 1, 1, 1, 4, 4, 13, odd]);
    let mut asked = vec![Request { id: root, action: 0, data: vec![] }];
    let started = buffers.first(tally, root, &mut place) == 0;
    let calls = random.between(1, if n > 60_000 { 60 } else { 20 });
    for _ in 0..calls {
        let before = builder_place(&place);
        match random.below(20) {
            0 | 1 => drop(buffers.finish(tally, &mut place)),
            2..=4 => {
                let group = group(&before, n, random);
                if n < 1_000 {
                    consistency::added(tally, &buffers.model[..n], &before, &group);
                    compare_explain(tally, &group);
                    tally.count("explanations of groups to be added");
                }
                if buffers.add_stream(tally, &mut place, &group) == 0 {
                    asked.extend(builder::requests(&group));
                }
            }
            _ => {
                let mut proposed = propose(&before, random);
                let has_value = kind(proposed.id).is_some_and(|kind| kind.own.contains(&Part::Value));
                if n > 60_000 && has_value {
                    proposed.data.resize(4_096, b'A');
                }
                if buffers.next(tally, &mut place, &proposed) == 0 {
                    asked.push(proposed);
                }
            }
        }
        if started && n < 1_000 {
            let place = builder_place(&place);
            consistency::built(tally, &buffers.model[..n], &place, &asked);
            if place != before {
                compare_explain(tally, &buffers.archive[..place.written as usize]);
                tally.count("explanations of buffers as they are built");
            }
        }
    }
    tally.count("builder runs");
    for _ in 0..if n > 60_000 { 40 } else { 4 } {
        compare_hand_made(tally, &mut buffers, &place, random);
    }
}

fn compare_hand_made(tally: &mut Tally, buffers: &mut Buffers, real: &BuilderNumbers, random: &mut Random) {
    let n = buffers.n;
    let (kind, made) = places::builder(real, n as u64, random);
    let model = builder_place(&made);
    tally.count(kind);
    tally.builder_place(&model, n as u64);
    let mut place = made;
    buffers.finish(tally, &mut place);
    let proposed = propose(&model, random);
    if buffers.next(tally, &mut place, &proposed) == 0 && random.one_in(2) {
        let proposed = propose(&builder_place(&place), random);
        buffers.next(tally, &mut place, &proposed);
    }
    let mut place = made;
    let group = group(&model, n, random);
    buffers.add_stream(tally, &mut place, &group);
}

/// Fifteen lines of 4,096 bytes and one of 3,993 fill a file group to the last byte; one byte more gets 13.
pub fn largest(tally: &mut Tally) {
    let line = |size: usize| Request { id: 14, action: 0, data: vec![b'x'; size] };
    let mut buffers = Buffers::new(LIMIT as usize, 0);
    let mut place = [0; 10];
    buffers.first(tally, 13, &mut place);
    for _ in 0..15 {
        buffers.next(tally, &mut place, &line(4_096));
    }
    assert_eq!(buffers.next(tally, &mut place, &line(3_994)), 13);
    assert_eq!(buffers.next(tally, &mut place, &line(3_993)), 0);
    assert_eq!(buffers.finish(tally, &mut place), 0);
    assert_eq!(place[0], LIMIT);
    tally.count("the largest file group");
}
