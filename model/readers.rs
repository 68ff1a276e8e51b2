//! Compares check, explanation, listing and reader: every call with the model's answer and place, whole runs, and hand-made
//! places.

use crate::functions::Function;
use crate::tally::Tally;
use crate::{archive, batches, consistency, keys, places, pointed, ranked};
use cdf_model::check::{check, listing};
use cdf_model::explain::explain;
use cdf_model::numbers::{self, reader_place, ReaderNumbers, CODES, ENTRY};
use cdf_model::random::Random;
use cdf_model::reader::{self, Call};
use cdf_model::rules::Refusal;
use cdf_model::streams::Tree;

pub fn hex(bytes: &[u8]) -> String {
    bytes.iter().map(|byte| format!("{byte:02X}")).collect()
}

pub fn compare_check(tally: &mut Tally, stream: &[u8]) {
    let said = archive::check(stream);
    let owed = match check(stream) {
        Ok(units) => (0, units),
        Err(refusal) => (refusal.number, refusal.offset),
    };
    if said != owed {
        let (one, other) = (format!("{said:?}"), format!("{owed:?}"));
        tally.differ("cdf_check", &hex(stream), &one, &other);
    }
    tally.met(Function::Check, owed.0);
    if owed.0 == 7 {
        tally.too_many(Function::Check, &keys::of_stream(stream, &explain(stream)));
    }
}

/// The number, and every entry of the answer, also those that are not used.
pub fn compare_explain(tally: &mut Tally, stream: &[u8]) {
    let said = archive::explain(stream);
    let told = explain(stream);
    let owed = (told.number, numbers::explanation(&told));
    if said != owed {
        let (one, other) = (format!("{said:?}"), format!("{owed:?}"));
        tally.differ("cdf_explain", &hex(stream), &one, &other);
    }
    tally.met(Function::Explain, told.number);
    tally.explained(&told);
    match told.number {
        7 => tally.too_many(Function::Explain, &keys::of_stream(stream, &told)),
        9 => tally.pointed(pointed::which(stream, &told)),
        _ => {}
    }
}

/// One call on both sides. The place is then the archive's, which is compared.
pub fn compare_call(tally: &mut Tally, call: Call, stream: &[u8], place: &mut ReaderNumbers) -> u64 {
    let before = *place;
    let (number, answer) = archive::reader(call, stream, place);
    let given = reader_place(&before);
    let reply = reader::call(call, stream, &given);
    let (owed_number, owed_answer, owed_place) = (reply.number, numbers::answer(&reply), &reply.place);
    let place_is_owed = match (call, owed_number) {
        (Call::AbnormalEnd, _) => *place == [0; 25],
        (Call::Previous, _) => *place == before,
        (_, 0) => reader_place(place) == *owed_place && place[19] == u64::from(owed_place.fresh),
        (Call::First, _) => *place == [0; 25],
        _ => *place == before,
    };
    if (number, answer) != (owed_number, owed_answer) || !place_is_owed {
        let given = format!("place {before:?}, stream {}", hex(stream));
        let one = format!("{number} {answer:?}, place {place:?}");
        let other = format!("{owed_number} {owed_answer:?}, place {owed_place:?}");
        tally.differ(&format!("{call:?} of the reader"), &given, &one, &other);
    }
    tally.met(Function::from(call), number);
    match (call, number) {
        (Call::Next, 7) => tally.too_many(Function::Next, &keys::of_reader(stream, &given)),
        (Call::Next, 0) => tally.ranked(&ranked::of_next(&given, &reply)),
        (Call::Previous, 0) => tally.ranked(&ranked::of_previous(&given)),
        _ => {}
    }
    number
}

/// The codes of a list of calls. It may begin without a start.
fn call_list(units: usize, random: &mut Random) -> Vec<u8> {
    let length = random.between(1, units.min(60) + 6);
    let mut codes: Vec<u8> = (0..length)
        .map(|_| match random.below(100) {
            0..=2 => 1,
            3..=62 => 2,
            63..=76 => 3,
            77..=88 => 4,
            _ => 5,
        })
        .collect();
    match random.below(10) {
        0 => {}
        1 | 2 => {
            codes = vec![2; units + 3];
            codes[0] = 1;
        }
        _ => codes[0] = 1,
    }
    codes
}

/// Runs the list call by call, and gives the places that were met.
fn compare_list(tally: &mut Tally, stream: &[u8], codes: &[u8], random: &mut Random) -> Vec<ReaderNumbers> {
    let mut place = [0; 25];
    if random.one_in(2) {
        // Every place without an open unit is empty, and a start is given no place.
        place = [0; 25].map(|_: u64| random.any());
        place[1] = 0;
    }
    let mut met = vec![place];
    for (index, code) in codes.iter().enumerate() {
        compare_call(tally, CODES[usize::from(*code) - 1], stream, &mut place);
        if index == 4 && place[1] == 0 {
            break; // Nothing was started, and 11 has been met often enough.
        }
        if met.len() < 12 || random.one_in(4) {
            met.push(place);
        }
    }
    if random.one_in(8) {
        compare_call(tally, Call::AbnormalEnd, stream, &mut place);
    }
    tally.count("lists of calls");
    met
}

/// Room behind what is lent, which no call may write.
pub const BEYOND: usize = 12;

fn compare_replay(tally: &mut Tally, stream: &[u8], codes: &[u8], random: &mut Random) {
    let mut codes = codes.to_vec();
    if random.one_in(8) {
        let at = random.below(codes.len() + 1);
        codes.insert(at, random.pick(&[0, 6, 7, 255, 128 + 2]));
    }
    let room = match random.below(12) {
        0 => ENTRY * codes.len() - 1,
        1 => random.below(ENTRY * codes.len() + 1),
        2 => ENTRY * codes.len() + random.below(30),
        _ => ENTRY * codes.len(),
    };
    let mut log = vec![7_777_777; room + BEYOND];
    let mut owed_log = log.clone();
    let said = archive::replay(stream, &codes, &mut log[..room]);
    let owed = numbers::replay(stream, &codes, &mut owed_log[..room]);
    if said != owed || log != owed_log {
        let given = format!("room {room}, codes {codes:?}, stream {}", hex(stream));
        let (one, other) = (format!("{said:?} {log:?}"), format!("{owed:?} {owed_log:?}"));
        tally.differ("cdf_replay", &given, &one, &other);
    }
    tally.met(Function::Replay, owed.0);
    tally.add("calls in replays", owed.1);
}

fn compare_listing(tally: &mut Tally, stream: &[u8], random: &mut Random) {
    let length = listing(stream).len();
    let room = match random.below(6) {
        0 => length - 1,
        1 => random.below(length),
        2 => length + random.below(20),
        _ => length,
    };
    let mut text = vec![b'#'; room + BEYOND];
    let mut owed_text = text.clone();
    let said = archive::listing(stream, &mut text[..room]);
    let owed = numbers::listed(stream, &mut owed_text[..room]);
    if said != owed || text != owed_text {
        let shown = |text: &[u8]| String::from_utf8_lossy(text).into_owned();
        let given = format!("room {room}, stream {}", hex(stream));
        let one = format!("{said:?} {}", shown(&text));
        let other = format!("{owed:?} {}", shown(&owed_text));
        tally.differ("cdf_listing", &given, &one, &other);
    }
    tally.met(Function::Listing, owed.0);
}

fn compare_hand_made(tally: &mut Tally, stream: &[u8], met: &[ReaderNumbers], random: &mut Random, own: &mut Random) {
    let n = stream.len() as u64;
    let (kind, made) = places::reader(met, n, random);
    tally.count(kind);
    tally.reader_place(&reader_place(&made), n);
    tally.ranked(&ranked::of_place(&made, n));
    batches::compare(tally, stream, &made, true, own);
    tally.count("NEXTs at hand-made places");
    for call in [Call::Next, Call::Skip, Call::GetStream, Call::Previous] {
        let mut place = made;
        let number = compare_call(tally, call, stream, &mut place);
        if number == 0 && random.one_in(2) {
            // What follows from such a place is compared as well.
            compare_call(tally, random.pick(&CODES), stream, &mut place);
            compare_call(tally, Call::Next, stream, &mut place);
        }
    }
    if random.one_in(16) {
        compare_call(tally, Call::AbnormalEnd, stream, &mut made.clone());
    }
}

/// Streams up to this size, and those that get 9, are asked everything each time; the unit list of the model takes the square
/// of it.
const SMALL: usize = 1_500;

pub fn compare(tally: &mut Tally, stream: &[u8], tree: Option<&Tree>, random: &mut Random) {
    compare_check(tally, stream);
    compare_explain(tally, stream);
    let accepted = check(stream);
    let units = accepted.map_or(stream.len() / 12, |units| units as usize);
    let named = matches!(accepted, Err(Refusal { number: 9, .. }));
    let asked = stream.len() <= SMALL || named || random.one_in(20);
    if asked {
        consistency::stream(tally, stream, tree, random);
    }
    if asked && random.one_in(4) {
        compare_listing(tally, stream, random);
    }
    let mut met = Vec::new();
    for _ in 0..if accepted.is_ok() { 3 } else { 1 } {
        let codes = call_list(units, random);
        if asked && accepted.is_ok() && codes[0] == 1 {
            consistency::plain(tally, stream, &codes);
        }
        consistency::tabled(tally, stream, &codes);
        met.extend(compare_list(tally, stream, &codes, random));
        if random.one_in(4) {
            compare_replay(tally, stream, &codes, random);
        }
    }
    let own = &mut of_its_own(tally);
    for _ in 0..6 {
        compare_hand_made(tally, stream, &met, random, own);
    }
    for _ in 0..3 {
        batches::compare(tally, stream, &own.pick(&met), false, own);
    }
    if asked {
        batches::compare_whole(tally, stream, own);
    }
}

/// Random numbers for the batches, so that what else is compared in a round does not depend on them.
fn of_its_own(tally: &Tally) -> Random {
    Random::new(tally.seed.rotate_left(32) ^ tally.round.wrapping_mul(0xA24B_AED4_963E_E407))
}

/// Hand-made places alone, many of them, and lists of calls as replays.
pub fn compare_places(tally: &mut Tally, stream: &[u8], random: &mut Random) {
    let units = check(stream).map_or(stream.len() / 12, |units| units as usize);
    let own = &mut of_its_own(tally);
    let mut met = Vec::new();
    for _ in 0..2 {
        let codes = call_list(units, random);
        met.extend(compare_list(tally, stream, &codes, random));
        compare_replay(tally, stream, &codes, random);
    }
    for _ in 0..24 {
        compare_hand_made(tally, stream, &met, random, own);
    }
    for _ in 0..4 {
        batches::compare(tally, stream, &own.pick(&met), false, own);
    }
}
