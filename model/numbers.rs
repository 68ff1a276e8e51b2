//! Places, answers, explanations, lookups, rescues and logs as the numbers that cross the C boundary.

use crate::batch::{units, Batch, UNIT};
use crate::builder;
use crate::check::listing;
use crate::explain::Explanation;
use crate::lookup::Found;
use crate::reader::{call, Call, Open, Place, Reply};
use crate::rescue::Rescued;
use crate::rules::{Had, Handed, Unit};
use crate::table;

pub type ReaderNumbers = [u64; 25];
pub type AnswerNumbers = [u64; 10];
/// How many numbers an entry of the log has.
pub const ENTRY: usize = 11;
pub type BuilderNumbers = [u64; 10];
pub type ExplanationNumbers = [u64; 25];
pub type FoundNumbers = [u64; 4];
pub type RescueNumbers = [u64; 130];
/// Offset, and how many ranks are in the list.
pub type ResolveNumbers = [u64; 2];
pub type BatchNumbers = [u64; 2];

/// The states, from 1 on: an id, and what such a unit has had.
const STATES: [(u64, Had); 30] = [
    (1, Had::Nothing),
    (1, Had::Call),
    (1, Had::Group),
    (1, Had::Skipped),
    (4, Had::Nothing),
    (4, Had::Units),
    (4, Had::Skipped),
    (13, Had::Nothing),
    (13, Had::Units),
    (13, Had::Skipped),
    (2, Had::Nothing),
    (2, Had::Units),
    (2, Had::Skipped),
    (5, Had::Nothing),
    (5, Had::Temporary),
    (5, Had::Keys),
    (5, Had::Fields),
    (5, Had::Skipped),
    (9, Had::Nothing),
    (9, Had::One),
    (9, Had::Two),
    (9, Had::Skipped),
    (10, Had::Nothing),
    (10, Had::One),
    (10, Had::Two),
    (10, Had::Skipped),
    (11, Had::Nothing),
    (11, Had::Temporary),
    (11, Had::Keys),
    (11, Had::Skipped),
];

/// Id 0 where the number is no state.
pub fn state(number: u64) -> (u64, Had) {
    match number {
        1..=30 => STATES[number as usize - 1],
        _ => (0, Had::Nothing),
    }
}

/// 0 where there is no such state.
pub fn state_number(id: u64, had: Had) -> u64 {
    let found = STATES.iter().position(|state| *state == (id, had));
    found.map_or(0, |index| index as u64 + 1)
}

/// Which slot each of so many open units is in, from the root inwards: the innermost is in the first. More than six are
/// not told apart from six, and there are four slots.
fn slots(count: u64) -> impl Iterator<Item = usize> {
    let count = count.min(6) as usize;
    (1..=count).map(move |level| if level == count { 0 } else { level })
}

pub fn reader_place(numbers: &ReaderNumbers) -> Place {
    let unit = |slot: usize| {
        let at = 2 + 3 * slot;
        let [state_number, start, end, rank] = match slot {
            0..=3 => [numbers[at], numbers[at + 1], numbers[at + 2], numbers[20 + slot]],
            _ => [0; 4],
        };
        let (id, had) = state(state_number);
        Open { id, had, start, end, rank }
    };
    Place {
        position: numbers[0],
        open: slots(numbers[1]).map(unit).collect(),
        last: Unit { id: numbers[14], action: numbers[15], start: numbers[16], own: numbers[17], end: numbers[18] },
        fresh: numbers[19] != 0,
        last_rank: numbers[24],
    }
}

/// The numbers of a place with at most four open units; zeros in the slots that they leave.
pub fn of_reader_place(place: &Place) -> ReaderNumbers {
    let mut numbers = [0; 25];
    numbers[0] = place.position;
    numbers[1] = place.open.len() as u64;
    for (slot, unit) in slots(numbers[1]).zip(&place.open) {
        numbers[20 + slot] = unit.rank;
        let unit = [state_number(unit.id, unit.had), unit.start, unit.end];
        numbers[2 + 3 * slot..5 + 3 * slot].copy_from_slice(&unit);
    }
    numbers[14..19].copy_from_slice(&of_unit(place.last));
    numbers[19] = u64::from(place.fresh);
    numbers[24] = place.last_rank;
    numbers
}

pub fn builder_place(numbers: &BuilderNumbers) -> builder::Place {
    let unit = |slot: usize| {
        let at = 2 + 2 * slot;
        let [state_number, start] = match slot {
            0..=3 => [numbers[at], numbers[at + 1]],
            _ => [0; 2],
        };
        let (id, had) = state(state_number);
        builder::Open { id, had, start }
    };
    builder::Place { written: numbers[0], open: slots(numbers[1]).map(unit).collect() }
}

pub fn of_builder_place(place: &builder::Place) -> BuilderNumbers {
    let mut numbers = [0; 10];
    numbers[0] = place.written;
    numbers[1] = place.open.len() as u64;
    for (slot, unit) in slots(numbers[1]).zip(&place.open) {
        let unit = [state_number(unit.id, unit.had), unit.start];
        numbers[2 + 2 * slot..4 + 2 * slot].copy_from_slice(&unit);
    }
    numbers
}

fn of_unit(unit: Unit) -> [u64; 5] {
    [unit.id, unit.action, unit.start, unit.own, unit.end]
}

/// Offset, unit and part; the unit's depth and rank.
pub fn answer(reply: &Reply) -> AnswerNumbers {
    let Handed { unit, depth, rank } = reply.handed;
    let [id, action, start, own, end] = of_unit(unit);
    let (part, length) = reply.part;
    [reply.offset, id, action, start, own, end, part, length, depth, rank]
}

/// A unit in a list of units.
fn listed_unit(handed: &Handed) -> [u64; UNIT] {
    let [id, action, start, own, end] = of_unit(handed.unit);
    [id, action, start, own, end, handed.depth, handed.rank]
}

/// Writes the units from a place on to the front of a list, as many as it has room for. Gives the offset and how many beside what it was.
pub fn batch(stream: &[u8], place: &Place, list: &mut [u64]) -> (Batch, BatchNumbers) {
    let batch = units(stream, place, list.len() / UNIT);
    for (unit, entry) in batch.units.iter().zip(list.chunks_exact_mut(UNIT)) {
        entry.copy_from_slice(&listed_unit(unit));
    }
    let answer = [batch.offset, batch.units.len() as u64];
    (batch, answer)
}

/// Offset; how many units are open, and id and start of four; how many ids, and fourteen. Entries that are not used are 0.
pub fn explanation(told: &Explanation) -> ExplanationNumbers {
    let mut numbers = [0; 25];
    numbers[0] = told.offset;
    numbers[1] = told.open.len() as u64;
    for (unit, entry) in told.open.iter().zip(numbers[2..10].chunks_exact_mut(2)) {
        entry.copy_from_slice(&[unit.id, unit.start]);
    }
    numbers[10] = told.ids.len() as u64;
    numbers[11..11 + told.ids.len()].copy_from_slice(&told.ids);
    numbers
}

/// Offset; which stream; the part's start and length.
pub fn found(found: &Found) -> FoundNumbers {
    [found.offset, found.which, found.part.0, found.part.1]
}

/// The group's length; how many runs, and first byte and byte after the last of 64. Entries that are not used are 0.
pub fn rescued(rescued: &Rescued) -> RescueNumbers {
    let mut numbers = [0; 130];
    numbers[0] = rescued.group.len() as u64;
    numbers[1] = rescued.runs.len() as u64;
    for (run, entry) in rescued.runs.iter().zip(numbers[2..].chunks_exact_mut(2)) {
        entry.copy_from_slice(&[run.0, run.1]);
    }
    numbers
}

/// The calls that a list of codes may name, from code 1 on.
pub const CODES: [Call; 5] = [Call::First, Call::Next, Call::Skip, Call::GetStream, Call::Previous];

/// Runs a list of calls and writes the log: number, offset, part and unit of each, with its depth and rank. Gives the number, and how many
/// entries it wrote.
pub fn replay(stream: &[u8], codes: &[u8], log: &mut [u64]) -> (u64, u64) {
    replay_by(&CODES, call, stream, codes, log)
}

/// The same of the table reader, which has only the first three of the calls.
pub fn table_replay(stream: &[u8], codes: &[u8], log: &mut [u64]) -> (u64, u64) {
    replay_by(&CODES[..3], |call, stream, place| table::call(call, stream, place).reply, stream, codes, log)
}

fn replay_by(
    known: &[Call],
    call: impl Fn(Call, &[u8], &Place) -> Reply,
    stream: &[u8],
    codes: &[u8],
    log: &mut [u64],
) -> (u64, u64) {
    if log.len() / ENTRY < codes.len() {
        return (12, 0);
    }
    let mut place = Place::default();
    let mut entries = 0;
    for (code, entry) in codes.iter().zip(log.chunks_exact_mut(ENTRY)) {
        let index = usize::from(*code).checked_sub(1);
        let Some(code) = index.and_then(|index| known.get(index)) else {
            break;
        };
        let reply = call(*code, stream, &place);
        let Handed { unit, depth, rank } = reply.handed;
        let head = [reply.number, reply.offset, reply.part.0, reply.part.1];
        entry[..4].copy_from_slice(&head);
        entry[4..9].copy_from_slice(&of_unit(unit));
        entry[9..].copy_from_slice(&[depth, rank]);
        place = reply.place;
        entries += 1;
    }
    (0, entries)
}

/// Writes the listing if there is room. Gives the number, and the text's length.
pub fn listed(stream: &[u8], room: &mut [u8]) -> (u64, u64) {
    let text = listing(stream);
    match room.get_mut(..text.len()) {
        None => (12, 0),
        Some(front) => {
            front.copy_from_slice(text.as_bytes());
            (0, text.len() as u64)
        }
    }
}
