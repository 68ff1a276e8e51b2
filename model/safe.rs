//! Compares the Rust crate, rust/cdf, with the model: so what it declares of the archive is right, and what it makes of the answers.

use crate::readers::hex;
use crate::tally::Tally;
use cdf::{Action, Builder, Id, Key, Reader, Root, TableReader, Which};
use cdf_model::builder::{self, Request};
use cdf_model::check::{check, listing};
use cdf_model::explain::explain;
use cdf_model::lookup::{lookup, Asked};
use cdf_model::numbers::state_number;
use cdf_model::random::Random;
use cdf_model::reader::{self, Call, Place};
use cdf_model::rescue::Rescued;
use cdf_model::resolve::{resolve, Resolved};
use cdf_model::rules::{Handed, Unit};
use cdf_model::streams::{damage_data, grow, request};
use cdf_model::table;

fn same<T: PartialEq + std::fmt::Debug>(tally: &mut Tally, what: &str, given: &dyn Fn() -> String, one: T, other: T) {
    if one != other {
        tally.differ(what, &given(), &format!("{one:?}"), &format!("{other:?}"));
    }
}

/// Number and offset; 0 where there is none.
fn numbers(refusal: &cdf::Refusal) -> (u64, u64) {
    (refusal.number, refusal.offset.unwrap_or(0) as u64)
}

fn of_unit(unit: &cdf::Unit) -> Handed {
    let [start, own, end, depth, rank] =
        [unit.start(), unit.own_end(), unit.end(), unit.depth(), unit.rank()].map(|at| at as u64);
    let unit = Unit { id: unit.id().number(), action: unit.action().number(), start, own, end };
    Handed { unit, depth, rank }
}

pub fn compare(tally: &mut Tally, stream: &[u8]) {
    // Random numbers of its own, so that what is compared elsewhere stays what it was.
    let random = &mut Random::new(!tally.seed ^ tally.round.wrapping_mul(0x9E37_79B9_7F4A_7C15));
    let given = || hex(stream);
    let said = cdf::check(stream).map_or_else(|refusal| numbers(&refusal), |units| (0, units as u64));
    same(
        tally,
        "cdf::check",
        &given,
        said,
        check(stream).map_or_else(|refusal| (refusal.number, refusal.offset), |units| (0, units)),
    );
    let told = explain(stream);
    let units: Vec<(u64, u64)> = told.open.iter().map(|unit| (unit.id, unit.start)).collect();
    let owed = (told.number != 0).then_some(((told.number, told.offset), units, told.ids));
    let said = cdf::explain(stream).map(|why| {
        let open = why.open.iter().map(|unit| (unit.id.number(), unit.start as u64)).collect();
        (numbers(&why.refusal), open, why.admitted.iter().map(|id| id.number()).collect())
    });
    same(tally, "cdf::explain", &given, said, owed);
    if random.one_in(8) {
        same(tally, "cdf::listing", &given, cdf::listing(stream), listing(stream));
    }
    read(tally, stream, random);
    build(tally, random);
    // Behind the others, which have the random numbers that they had.
    read_by_table(tally, stream, random);
    tally.count("streams through the Rust crate");
}

/// The rescue of the same bytes into the same room.
pub fn compare_rescue(tally: &mut Tally, bytes: &[u8], room: u64, owed: &Rescued) {
    let mut out = vec![0; room as usize];
    let given = || format!("room {room}, {}", hex(bytes));
    let said = match cdf::rescue(bytes, &mut out) {
        Ok(cdf::Rescued { group, dropped }) => {
            let runs = dropped.iter().map(|run| (run.start as u64, run.end as u64)).collect();
            Rescued { number: 0, group: group.to_vec(), runs }
        }
        Err(refusal) => Rescued { number: refusal.number, ..Rescued::default() },
    };
    same(tally, "cdf::rescue", &given, &said, owed);
}

/// The ranks of the same stream: the crate's list is always long enough.
pub fn compare_resolve(tally: &mut Tally, stream: &[u8]) {
    let said = match cdf::resolve(stream) {
        Ok(ranks) => Resolved { number: 0, offset: 0, ranks: ranks.iter().map(|rank| *rank as u64).collect() },
        Err(refusal) => {
            let (number, offset) = numbers(&refusal);
            Resolved { number, offset, ranks: vec![] }
        }
    };
    same(tally, "cdf::resolve", &|| hex(stream), said, resolve(stream, u64::MAX));
}

/// A run of the iterator, with calls in between.
fn read(tally: &mut Tally, stream: &[u8], random: &mut Random) {
    let (mut reader, mut place) = (Reader::new(stream), Place::default());
    let mut first = true;
    // Calls between the units, often or now and then: the reader may then have read far ahead.
    let (calls, of) = random.pick(&[(60, 8), (60, 8), (160, 50)]);
    for _ in 0..calls {
        let given = || format!("{}, place {place:?}", hex(stream));
        let call = match random.below(of) {
            0 => Call::Skip,
            1 => Call::GetStream,
            2 => Call::Previous,
            _ if first => Call::First,
            _ => Call::Next,
        };
        let owed = reader::call(call, stream, &place);
        let refused = (owed.number, owed.offset);
        match call {
            Call::Skip => {
                let said = reader.skip_unit().map_or_else(|refusal| numbers(&refusal), |()| (0, 0));
                same(tally, "skip_unit", &given, said, refused);
            }
            Call::GetStream => {
                let said = reader.take_group();
                let bytes = &stream[owed.part.0 as usize..][..owed.part.1 as usize];
                same(
                    tally,
                    "take_group",
                    &given,
                    said.map_err(|refusal| numbers(&refusal)),
                    if owed.number == 0 { Ok(bytes) } else { Err(refused) },
                );
            }
            Call::Previous => {
                let said = reader.previous().map(|unit| of_unit(&unit)).map_err(|refusal| numbers(&refusal));
                same(tally, "previous", &given, said, if owed.number == 0 { Ok(owed.handed) } else { Err(refused) });
            }
            _ => {
                first = false;
                let said =
                    reader.next().map(|unit| unit.map(|unit| of_unit(&unit)).map_err(|refusal| numbers(&refusal)));
                let due = match owed.number {
                    0 => Some(Ok(owed.handed)),
                    1 => None,
                    _ => Some(Err(refused)),
                };
                same(tally, "the iterator", &given, said, due);
                if owed.number != 0 {
                    return;
                }
            }
        }
        place = owed.place;
    }
}

/// A run of the iterator of the table reader, with skips in between, and the states after each call.
fn read_by_table(tally: &mut Tally, stream: &[u8], random: &mut Random) {
    let (mut reader, mut place) = (TableReader::new(stream), Place::default());
    for index in 0..60 {
        let given = || format!("{}, place {place:?}", hex(stream));
        let call = match random.below(6) {
            0 if index > 0 => Call::Skip,
            _ if index > 0 => Call::Next,
            _ => Call::First,
        };
        let owed = table::call(call, stream, &place).reply;
        let due = match owed.number {
            0 if call == Call::Skip => Some(Ok(Handed::default())),
            0 => Some(Ok(owed.handed)),
            1 => None,
            _ => Some(Err((owed.number, owed.offset))),
        };
        let said = match call {
            Call::Skip => Some(reader.skip_unit().map(|()| Handed::default())),
            _ => reader.next().map(|unit| unit.map(|unit| of_unit(&unit))),
        };
        let said = said.map(|said| said.map_err(|refusal| numbers(&refusal)));
        same(tally, "the table reader's iterator", &given, said, due);
        let states: Vec<u64> = reader.states().iter().map(|state| state.number()).collect();
        let open = owed.place.open.iter().map(|unit| state_number(unit.id, unit.had)).collect();
        same(tally, "the table reader's states", &given, states, open);
        if owed.number != 0 && call != Call::Skip {
            return;
        }
        place = owed.place;
    }
}

/// A run of the builder: the units of a tree, and others among them.
fn build(tally: &mut Tally, random: &mut Random) {
    let root = random.pick(&[Root::Stream, Root::ErGroup, Root::FileGroup]);
    let id = match root {
        Root::Stream => 1,
        Root::ErGroup => 4,
        Root::FileGroup => 13,
    };
    let requests = grow(id, 60, random).requests();
    let mut room = vec![0; random.pick(&[5, 6, 60, 2_000, 2_000, 9_000])];
    let mut model = room.clone();
    let given = || format!("root {id}, {requests:?}");
    let (made, owed) = (Builder::new(&mut room, root), builder::start(&mut model, id));
    let said = made.as_ref().map_or_else(|refusal| refusal.number, |_| 0);
    same(tally, "Builder::new", &given, said, owed.as_ref().map_or_else(|number| *number, |_| 0));
    let (Ok(mut made), Ok(mut place)) = (made, owed) else {
        return;
    };
    for asked in requests.into_iter().skip(1) {
        let Request { id, action, mut data } =
            if random.one_in(6) { request(random.between(1, 14) as u64, random) } else { asked };
        if random.one_in(12) {
            damage_data(&mut data, random);
        }
        let action = if random.one_in(12) { random.below(5) as u64 } else { action };
        let asked = Request { id, action, data };
        let given = || format!("place {place:?}, {asked:?}");
        let id = Id::from_number(id).expect("1 to 14");
        let action = Action::from_number(action).expect("0 to 4");
        let said = made.add(id, action, &asked.data).map_or_else(|refusal| refusal.number, |_| 0);
        let owed = builder::next(&mut model, &place, &asked);
        same(tally, "Builder::add", &given, said, owed.as_ref().map_or_else(|number| *number, |_| 0));
        place = owed.unwrap_or(place);
        if random.one_in(20) {
            let group = grow(random.pick(&[4, 13]), 20, random).bytes();
            let group = &group[..group.len() - random.below(2)];
            let said = made.add_stream(group).map_or_else(|refusal| refusal.number, |_| 0);
            let owed = builder::add_stream(&mut model, &place, group);
            same(
                tally,
                "Builder::add_stream",
                &|| hex(group),
                said,
                owed.as_ref().map_or_else(|number| *number, |_| 0),
            );
            place = owed.unwrap_or(place);
        }
    }
    let said = made.finish().map(<[u8]>::to_vec).map_err(|refusal| refusal.number);
    let owed = builder::finish(&model, &place).map(|length| model[..length as usize].to_vec());
    same(tally, "Builder::finish", &|| format!("place {place:?}"), said, owed);
    tally.count("builder runs through the Rust crate");
}

/// The text of a name with its count byte, if it is one.
fn text(name: &[u8]) -> Option<&str> {
    let (count, text) = name.split_first()?;
    (usize::from(*count) == text.len()).then_some(std::str::from_utf8(text).ok()?)
}

/// A lookup, where it can be said in the crate's types.
pub fn compare_lookup(tally: &mut Tally, first: &[u8], second: &[u8], asked: &Asked) {
    let key = match (asked.key_id, <[u8; 4]>::try_from(&asked.key[..])) {
        (6, Ok(number)) => Key::Temporary(u32::from_be_bytes(number)),
        (7, _) => Key::Template(&asked.key),
        _ => return,
    };
    let (Some(template), Some(field)) = (text(&asked.template), text(&asked.field)) else {
        return;
    };
    let owed = lookup(first, second, asked);
    let said = cdf::lookup(first, second, template, key, field);
    let given = || format!("{asked:?}, first {}, second {}", hex(first), hex(second));
    let said = match &said {
        Ok(found) => {
            (0, 0, if found.which == Which::First { 1 } else { 2 }, (found.start as u64, found.value.len() as u64))
        }
        Err(refusal) => (refusal.number, refusal.offset.unwrap_or(0) as u64, 0, (0, 0)),
    };
    same(tally, "cdf::lookup", &given, said, (owed.number, owed.offset, owed.which, owed.part));
    tally.count("lookups through the Rust crate");
}
