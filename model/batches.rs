//! Compares many units in a call: on places that a run met and on hand-made ones, into lists of any length, with numbers behind them that
//! must stay; and a whole stream, batch after batch.

use crate::archive;
use crate::functions::Function;
use crate::readers::{compare_call, hex};
use crate::tally::Tally;
use cdf_model::batch::{Batch, UNIT};
use cdf_model::numbers::{self, reader_place, ReaderNumbers};
use cdf_model::random::Random;
use cdf_model::reader::{self, Call, Place};
use cdf_model::rules::{Had, Handed};
use cdf_model::units::{handed, list};

/// What must have been met.
pub const BATCHED: [&str; 34] = [
    "11, with room",
    "11, with room for none",
    "2, with room",
    "2, with room for none",
    "room for none where NEXT hands out a unit",
    "room for none where NEXT gives 1",
    "room for none where NEXT gives 3 to 10",
    "a list of 1 to 6 numbers",
    "no unit, with room for two or more: 1",
    "no unit, with room for two or more: 3 to 10",
    "the room is used up, and NEXT hands out another",
    "the room is used up, and NEXT gives 1",
    "the room is used up, and NEXT gives 3 to 10",
    "the room is used up, and the list is no multiple of seven",
    "room is left: 1 follows",
    "room is left: 3 follows",
    "room is left: 4 follows",
    "room is left: 5 follows",
    "room is left: 6 follows",
    "room is left: 7 follows",
    "room is left: 8 follows",
    "room is left: 9 follows",
    "room is left: 10 follows",
    "two units or more: at a hand-made place",
    "two units or more: at a hand-made place whose free slots hold numbers",
    "two units or more: behind one that was skipped or taken",
    "two units or more: a first one whose rank is over 0 and that closes a unit",
    "two units or more: from depth 2 to depth 5",
    "two units or more: one three less deep than the one before it",
    "two units or more: the last may be skipped",
    "one unit",
    "room for 7, used up",
    "room for 32, used up",
    "more than 100 units",
];

/// Which of `BATCHED` this is. What follows is what NEXT says at the new place.
fn kinds(given: &ReaderNumbers, made: bool, length: usize, batch: &Batch, follows: u64) -> Vec<&'static str> {
    let (units, room) = (&batch.units, length / UNIT);
    let before = reader_place(given);
    let mut kinds = Vec::new();
    let mut is = |holds: bool, kind: usize| {
        if holds {
            kinds.push(BATCHED[kind]);
        }
    };
    let fault = (3..=10).contains(&follows);
    is(batch.number == 11, usize::from(room == 0));
    is(batch.number == 2, 2 + usize::from(room == 0));
    let none = batch.number == 0 && room == 0;
    is(none && follows == 0, 4);
    is(none && follows == 1, 5);
    is(none && fault, 6);
    is((1..7).contains(&length), 7);
    is(room > 1 && batch.number == 1, 8);
    is(room > 1 && (3..=10).contains(&batch.number), 9);
    let used_up = room > 0 && units.len() == room;
    is(used_up && follows == 0, 10);
    is(used_up && follows == 1, 11);
    is(used_up && fault, 12);
    is(used_up && !length.is_multiple_of(UNIT), 13);
    if !units.is_empty() && !used_up {
        is(follows == 1, 14);
        is(fault, 12 + follows as usize);
    }
    if let [first, .., last] = &units[..] {
        let pairs = || units.windows(2).map(|pair| (pair[0].depth, pair[1].depth));
        let free = (given[1].min(4) as usize..4).any(|slot| given[20 + slot] != 0);
        let skipped = before.open.last().is_some_and(|open| open.had == Had::Skipped);
        let closes = before.open.last().is_some_and(|open| open.end == before.position);
        is(made, 23);
        is(made && free, 24);
        is(skipped, 25);
        is(closes && first.rank > 0, 26);
        is(first.depth == 2 && units.iter().any(|unit| unit.depth == 5), 27);
        is(pairs().any(|(one, next)| one == next + 3), 28);
        is(batch.place.fresh && last.unit == batch.place.last, 29);
    }
    is(units.len() == 1, 30);
    is(used_up && room == 7, 31);
    is(used_up && room == 32, 32);
    is(units.len() > 100, 33);
    kinds
}

/// Numbers behind what is lent, which no call may write.
const BEYOND: usize = 9;
const STAYS: u64 = 7_777_777;

/// A list for none, few or many units, often with numbers that are not enough for another.
fn list_length(n: usize, random: &mut Random) -> usize {
    let room = match random.below(10) {
        0 => 0,
        1 => 1,
        2 | 3 => 2,
        4 => 7,
        5 => 32,
        6 => n / 6 + 2,
        _ => random.between(1, 12),
    };
    UNIT * room + if random.one_in(2) { 0 } else { random.below(UNIT) }
}

/// One call on both sides, on a place that was met or made. The place is then the archive's, which is compared.
pub fn compare_one(tally: &mut Tally, stream: &[u8], place: &mut ReaderNumbers, length: usize, made: bool) -> Batch {
    let before = *place;
    let mut said_list = vec![STAYS; length + BEYOND];
    let mut owed_list = said_list.clone();
    let (number, answer) = archive::units(stream, place, &mut said_list[..length]);
    let (batch, owed) = numbers::batch(stream, &reader_place(&before), &mut owed_list[..length]);
    // Beside a 0 a place is compared by what its count reaches.
    let place_is_owed = match batch.number {
        0 => {
            reader_place(place) == batch.place && (batch.units.is_empty() || place[19] == u64::from(batch.place.fresh))
        }
        _ => *place == before,
    };
    if (number, answer) != (batch.number, owed) || said_list != owed_list || !place_is_owed {
        let given = format!("a list of {length}, place {before:?}, stream {}", hex(stream));
        let one = format!("{number} {answer:?}, place {place:?}, list {said_list:?}");
        let other = format!("{owed:?} {batch:?}, list {owed_list:?}");
        tally.differ("cdf_units", &given, &one, &other);
    }
    tally.met(Function::Units, number);
    let follows = reader::call(Call::Next, stream, &batch.place).number;
    tally.batched(&kinds(&before, made, length, &batch, follows));
    tally.add("units handed out in batches", batch.units.len() as u64);
    batch
}

/// A batch at a place, and what the next calls tell.
pub fn compare(tally: &mut Tally, stream: &[u8], place: &ReaderNumbers, made: bool, random: &mut Random) {
    let mut place = *place;
    let batch = compare_one(tally, stream, &mut place, list_length(stream.len(), random), made);
    tally.count(match (made, batch.number) {
        (false, _) => "batches at places of a run",
        (true, 2) => "batches at hand-made places: those that do not fit",
        (true, 11) => "batches at hand-made places: empty ones",
        (true, _) => "batches at hand-made places: those that fit",
    });
    if batch.number == 0 && random.one_in(2) {
        compare_one(tally, stream, &mut place, list_length(stream.len(), random), false);
        let call = random.pick(&[Call::Next, Call::Skip, Call::GetStream, Call::Previous]);
        compare_call(tally, call, stream, &mut place);
    }
}

/// A whole stream from a start, batch after batch: what is handed out is the unit list, and what ends it is the list's fault.
pub fn compare_whole(tally: &mut Tally, stream: &[u8], random: &mut Random) {
    let mut place = [0; 25];
    if compare_call(tally, Call::First, stream, &mut place) != 0 {
        return;
    }
    let root = reader::call(Call::First, stream, &Place::default()).handed;
    let mut units: Vec<Handed> = vec![root];
    let ended = loop {
        let length = UNIT + list_length(stream.len(), random);
        let batch = compare_one(tally, stream, &mut place, length, false);
        if batch.number != 0 {
            break (batch.number, batch.offset);
        }
        units.extend(batch.units);
    };
    let owed = list(stream);
    let fault = owed.fault.map_or((1, 0), |fault| (fault.number, fault.offset));
    if units != handed(&owed.units) || ended != fault {
        let (one, other) = (format!("{ended:?} {units:?}"), format!("{fault:?} {:?}", owed.units));
        tally.differ("the model: batches and the unit list", &hex(stream), &one, &other);
    }
    tally.count("streams read whole in batches");
}
