//! Compares lists of requests: at places of a run and hand-made ones, right and nearly right, of 0 to 600 requests, with bounds inside the
//! text, outside and crossed, and with buffers that are exact, too short or larger. Number, rank, place and every byte are compared.

use crate::build_listed::{broken, kinds, Call};
use crate::builders::propose;
use crate::functions::Function;
use crate::readers::hex;
use crate::tally::Tally;
use crate::{archive, places, safe_lists};
use cdf_model::build_list::{build, Listed};
use cdf_model::build_list_samples::build_lists;
use cdf_model::builder::{self, Place, Request};
use cdf_model::numbers::{builder_place, of_builder_place, BuilderNumbers};
use cdf_model::random::Random;
use cdf_model::rules::LIMIT;

const BEYOND: usize = 16;

/// One list on both sides. `made` says that the place is hand-made.
pub fn compare_list(tally: &mut Tally, given: &Call, made: bool) {
    let Call { before, place, list, text } = *given;
    let n = before.len();
    // Bytes behind what is lent, which no call may write; neighbours differ.
    let beyond: Vec<u8> = (0..BEYOND as u8).map(|at| at.wrapping_mul(37)).collect();
    let mut said = [before, &beyond].concat();
    let mut due = said.clone();
    let answer = archive::build_batch(&mut said[..n], place, list, text);
    let owed = build(&mut due[..n], &builder_place(place), list, text);
    let same = match &owed {
        Ok(left) => (answer.number, answer.rank) == (0, 0) && builder_place(&answer.place) == *left,
        Err(refused) => (answer.number, answer.rank) == (refused.number, refused.rank) && answer.place == *place,
    };
    let text_of = || format!("buffer of {n}, place {place:?}, {} requests {list:?}, text {}", list.len(), hex(text));
    if !same || said != due {
        let first = said.iter().zip(&due).position(|(one, other)| one != other);
        let other = format!(
            "{owed:?}, numbers {:?}; the buffers differ first at {first:?}",
            owed.as_ref().map(of_builder_place)
        );
        tally.differ("cdf_build_batch", &text_of(), &format!("{answer:?}"), &other);
    }
    if let Some(what) = broken(given, &owed, &due[..n]) {
        tally.differ(what, &text_of(), "(not asked)", "does not agree with itself");
    }
    tally.met(Function::BuildBatch, answer.number);
    tally.build_listed(&kinds(given, made, &owed));
    tally.count("lists of requests");
    tally.add("requests in lists", list.len() as u64);
}

/// The lists that are worked out by hand.
pub fn compare_samples(tally: &mut Tally) {
    for sample in build_lists() {
        let mut buffer = vec![0xEE; sample.size];
        buffer[..sample.front.len()].copy_from_slice(&sample.front);
        let before = buffer.clone();
        let said = build(&mut buffer, &builder_place(&sample.place), &sample.list, sample.text);
        let said = said.map(|left| of_builder_place(&left)).map_err(|refused| (refused.number, refused.rank));
        let mut due = before.clone();
        if let Ok((_, front)) = &sample.owed {
            due[..front.len()].copy_from_slice(front);
        }
        assert_eq!(said, sample.owed.map(|owed| owed.0), "{}", sample.label);
        assert!(buffer == due, "the bytes of: {}", sample.label);
        let given = Call { before: &before, place: &sample.place, list: &sample.list, text: sample.text };
        compare_list(tally, &given, false);
        tally.count("lists that are worked out by hand");
    }
}

/// Requests that are right one after the other from this place on, as many as can be had, each with the place that it is asked at; and the
/// place behind them. Those of a long list are small.
fn right(place: &Place, count: usize, random: &mut Random) -> (Vec<(Request, Place)>, Place) {
    // Nothing but the innermost prefix is written, so that there is room.
    let mut at = Place { written: place.open.last().map_or(0, |unit| unit.start.saturating_add(6)), ..place.clone() };
    let (mut room, mut found, mut tries) = (vec![0; LIMIT as usize], Vec::new(), 20 + 4 * count);
    while found.len() < count && tries > 0 {
        tries -= 1;
        let asked = propose(&at, random);
        if count > 20 && asked.data.len() > 60 {
            continue;
        }
        if let Ok(left) = builder::next(&mut room, &at, &asked) {
            found.push((asked, std::mem::replace(&mut at, left)));
        }
    }
    (found, at)
}

/// A request that is refused at this place, most of the time.
fn wrong(at: &Place, random: &mut Random) -> Request {
    let mut room = vec![0; LIMIT as usize];
    let mut asked = propose(at, random);
    for _ in 0..12 {
        if builder::next(&mut room, at, &asked).is_err() {
            break;
        }
        asked = propose(at, random);
    }
    asked
}

/// How many requests a list has.
fn count(random: &mut Random) -> usize {
    match random.below(80) {
        0 => random.pick(&[511, 511, 512, 512, 512, 513, 513, 514, 600]),
        1..=4 => 0,
        5..=14 => 1,
        _ => random.between(2, 12),
    }
}

/// The first, the last or any of so many.
fn some_rank(count: usize, random: &mut Random) -> usize {
    let any = random.below(count);
    random.pick(&[0, count - 1, any, any])
}

/// The list, and a text that has the own data of all: one behind the other or from the last to the first, with other bytes between them, and
/// such as stand there already once or in part.
fn laid(asked: &[Request], random: &mut Random) -> (Vec<Listed>, Vec<u8>) {
    let odd = random.pick(&[0, 0, 3]);
    let mut text = random.bytes(odd);
    let (shared, backwards) = (random.one_in(3), random.one_in(4));
    let mut list = Vec::new();
    let from_the_last = asked.iter().rev();
    let ordered: Vec<&Request> = if backwards { from_the_last.collect() } else { asked.iter().collect() };
    for Request { id, action, data } in ordered {
        let (mut begin, mut length) = (text.len(), data.len());
        let found =
            if shared && text.len() < 3_000 { text.windows(length.max(1)).position(|part| part == data) } else { None };
        match found {
            // A value may be any bytes.
            _ if shared && matches!(id, 7 | 14) && !text.is_empty() && random.one_in(2) => {
                begin = random.below(text.len());
                length = random.below(12).min(text.len() - begin);
            }
            _ if data.is_empty() => begin = random.below(text.len() + 1),
            Some(at) => begin = at,
            None => {
                if odd > 0 && random.one_in(4) {
                    text.push(random.byte());
                    begin += 1;
                }
                text.extend(data);
            }
        }
        list.push(Listed { id: *id, action: *action, begin: begin as u64, end: (begin + length) as u64 });
    }
    if odd > 0 && random.one_in(2) {
        text.push(random.byte());
    }
    if backwards {
        list.reverse();
    }
    // No bytes, at the end of all.
    let last = text.len() as u64;
    let empty = list.iter_mut().filter(|listed| listed.begin == listed.end);
    empty.filter(|_| random.one_in(3)).for_each(|listed| (listed.begin, listed.end) = (last, last));
    (list, text)
}

/// Bounds that lie outside a text of so many bytes or cross, most of the time.
fn spoil_bounds(listed: &mut Listed, length: u64, random: &mut Random) {
    let Listed { begin, end, .. } = *listed;
    let more = random.below(6) as u64;
    (listed.begin, listed.end) = match random.below(14) {
        0 => (begin, begin.saturating_sub(1)),
        1 | 2 => (end + 1, end),
        3 => (begin, length + 1),
        4 => (length, length + 1),
        5 => (length + 1, length + 1),
        6 => (length + 1, length),
        7 => (length + 1 + more, length + 2 + 2 * more),
        8 => (begin, random.pick(&[u64::MAX, u64::MAX - 1, 1 << 63])),
        9 => (u64::MAX, u64::MAX),
        10 => (begin + (1 << 32), end + (1 << 32)),
        11 => (begin, end + (1 << 32)),
        12 => (begin | 1 << 63, end),
        _ => (end, begin),
    };
}

/// A place of a run, or one near it or of no run, and how many bytes its buffer has if nothing more is asked of it.
fn some_place(random: &mut Random) -> (bool, BuilderNumbers, usize) {
    let root = random.pick(&[1, 1, 1, 4, 4, 13]);
    let started = builder::start(&mut [0; 6], root).expect("a root");
    let (_, at) = right(&started, random.below(9), random);
    let mut real = of_builder_place(&at);
    if random.one_in(3) {
        // What the count does not reach is free.
        real[2 + 2 * at.open.len()..].fill_with(|| random.any());
    }
    let n = if random.one_in(12) { LIMIT as usize + random.below(8) } else { random.between(20, 300) };
    match random.one_in(3) {
        true => (true, places::builder(&real, n as u64, random).1, n),
        false => (false, real, n.max(real[0] as usize)),
    }
}

/// The buffer's length, by what the list needs of it, and the bytes that are written before it where it is to meet the limit.
fn sizes(place: &mut BuilderNumbers, n: usize, needed: usize, made: &mut bool, random: &mut Random) -> usize {
    if place[0] > LIMIT || random.one_in(4) {
        return n;
    }
    let short = random.below(needed + 1);
    if needed > 0 && needed < LIMIT as usize && random.one_in(12) {
        // The same place, further on: it fits as the nearer one does.
        let past = random.pick(&[0, 1, 1, 2, short]);
        place[0] = (LIMIT as usize + past - needed).min(LIMIT as usize) as u64;
        *made = true;
        return random.pick(&[
            LIMIT as usize,
            LIMIT as usize,
            LIMIT as usize + 1,
            LIMIT as usize + 9,
            place[0] as usize,
        ]);
    }
    let exact = place[0] as usize + needed;
    match random.below(8) {
        0..=2 => exact,
        3 => exact + random.below(40),
        4 => exact - short,
        5 => exact - needed.min(1),
        6 => n,
        _ => exact + 1,
    }
}

/// A list at this place and its text, right or not.
pub fn some_list(at: &Place, random: &mut Random) -> (Vec<Listed>, Vec<u8>) {
    let count = count(random);
    let (mut asked, behind) = right(at, count, random);
    while asked.len() < count {
        // Nothing is right there, or no longer: what was asked before again, or another.
        let again = asked.first().filter(|_| random.one_in(2)).map(|(request, _)| request.clone());
        asked.push((again.unwrap_or_else(|| propose(&behind, random)), behind.clone()));
    }
    let spoiled = if count > 0 && random.one_in(2) { Some(some_rank(count, random)) } else { None };
    if let Some(rank) = spoiled {
        asked[rank].0 = wrong(&asked[rank].1, random);
    }
    let requests: Vec<Request> = asked.into_iter().map(|(request, _)| request).collect();
    let (mut list, text) = laid(&requests, random);
    if count > 0 && random.one_in(3) {
        let rank = match spoiled {
            Some(rank) if !random.one_in(3) => rank,
            _ => some_rank(count, random),
        };
        spoil_bounds(&mut list[rank], text.len() as u64, random);
    }
    (list, text)
}

/// Two lists, at a place each; and at times some through the Rust crate.
pub fn compare(tally: &mut Tally) {
    // Random numbers of its own, so that what is compared elsewhere stays what it was.
    let random = &mut Random::new(tally.seed.rotate_left(17) ^ tally.round.wrapping_mul(0xA076_1D64_78BD_642F));
    for _ in 0..2 {
        let (mut made, mut place, n) = some_place(random);
        let (list, text) = some_list(&builder_place(&place), random);
        let inside = list.iter().filter_map(|listed| listed.data(&text));
        let needed = inside.map(|data| 6 + data.len()).sum::<usize>().min(70_000);
        let n = sizes(&mut place, n, needed, &mut made, random);
        let first = random.byte();
        let before: Vec<u8> = (0..n).map(|at| first.wrapping_add((at as u8).wrapping_mul(37))).collect();
        compare_list(tally, &Call { before: &before, place: &place, list: &list, text: &text }, made);
        tally.count(if made { "lists at hand-made places" } else { "lists at places of a run" });
    }
    if random.one_in(4) {
        safe_lists::compare(tally, random);
    }
}
