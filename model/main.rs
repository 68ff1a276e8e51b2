//! Compares an archive of the library, and the Rust crate over it, with the model on random streams, calls, places, requests, lists of
//! requests, lookups, rescues and resolvings.
//!   diff SECONDS SEED   for so long
//!   diff long SEED      until the figures of `LONG` are reached, with a progress line
//!   diff places SEED    hand-made places, batches and replays alone, until the figures of `PLACES` are reached

mod archive;
mod batches;
mod build_listed;
mod build_lists;
mod builders;
mod consistency;
mod functions;
mod keyed;
mod keys;
mod looked_up;
mod lookups;
mod met;
mod persons;
mod places;
mod pointed;
mod ranked;
mod readers;
mod rescued;
mod rescues;
mod resolved;
mod resolves;
mod safe;
mod safe_lists;
mod tables;
mod tally;

use cdf_model::batch_samples::batches;
use cdf_model::cases::cases;
use cdf_model::check::check;
use cdf_model::explain::explain;
use cdf_model::lookup::lookup;
use cdf_model::lookup_samples::lookups;
use cdf_model::numbers::{self, reader_place};
use cdf_model::random::Random;
use cdf_model::ranked_samples::{at_places, levels};
use cdf_model::reader::{self, Call};
use cdf_model::rescue::rescue;
use cdf_model::rescue_samples::rescues;
use cdf_model::resolve::resolve;
use cdf_model::resolve_samples::resolves;
use cdf_model::rules::Refusal;
use cdf_model::samples::{samples, KEYS, POINTED, TOLD};
use cdf_model::streams::{damage_bytes, damage_tree, filled, grow, mend_root, noise, redirected, Tree};
use cdf_model::units::{handed, list};
use std::time::{Duration, Instant};
use tally::Tally;

/// The least numbers of reader calls, hand-made places of reader and builder, and builder calls in a long run.
const LONG: [u64; 4] = [40_000_000, 5_000_000, 4_000_000, 10_000_000];

/// The least numbers of NEXTs and of batches at hand-made places together, and of calls in replays, in a run of places alone.
const PLACES: [u64; 2] = [10_000_000, 10_000_000];

/// The kind of a stream, its bytes, and its tree if it has no damage.
fn stream(random: &mut Random) -> (&'static str, Vec<u8>, Option<Tree>) {
    if random.one_in(400) {
        return large(random);
    }
    let asked = match random.below(40) {
        0 => 3_000,
        1..=4 => 400,
        _ => random.pick(&[0, 12, 30, 60, 120]),
    };
    let mut tree = grow(random.pick(&[1, 1, 4, 13]), asked, random);
    match random.below(22) {
        0..=5 => ("streams: grown", tree.bytes(), Some(tree)),
        6..=10 => {
            for _ in 0..random.between(1, 2) {
                damage_tree(&mut tree, random);
            }
            ("streams: damaged trees", tree.bytes(), None)
        }
        11..=16 => {
            let mut bytes = tree.bytes();
            for _ in 0..random.between(1, 2) {
                damage_bytes(&mut bytes, random);
            }
            ("streams: damaged bytes", bytes, None)
        }
        17 => {
            let count = random.between(0, 60);
            let mut bytes = random.bytes(count);
            if random.one_in(2) {
                mend_root(&mut bytes);
            }
            ("streams: random bytes", bytes, None)
        }
        18 | 19 => ("streams: random bytes and prefixes", noise(random), None),
        _ => ("streams: grown and redirected", redirected(&tree.bytes(), random), None),
    }
}

/// A stream near or above the limit.
fn large(random: &mut Random) -> (&'static str, Vec<u8>, Option<Tree>) {
    let size = 65_535 + random.below(12) - 8;
    let mut tree = filled(random.pick(&[4, 13]), size, random);
    if random.one_in(3) {
        let mut stream = grow(1, 0, random);
        stream.nested.push(tree);
        tree = stream;
    }
    let mut bytes = tree.bytes();
    match random.below(6) {
        0 | 1 => damage_bytes(&mut bytes, random),
        2 => bytes.resize(size + random.below(9_000), 0),
        _ => {}
    }
    ("streams: near the limit or above it", bytes, None)
}

fn round(tally: &mut Tally, places_alone: bool) {
    // Each round has random numbers of its own, so that it does not depend on those before it.
    let random = &mut Random::new(tally.seed ^ tally.round.wrapping_mul(0xD134_2543_DE82_EF95));
    let (kind, stream, tree) = stream(random);
    tally.count(kind);
    if places_alone {
        readers::compare_places(tally, &stream, random);
        tally.round += 1;
        return;
    }
    readers::compare(tally, &stream, tree.as_ref(), random);
    builders::compare(tally, random);
    lookups::compare(tally, random);
    rescues::compare(tally, random);
    resolves::compare(tally, random);
    safe::compare(tally, &stream);
    tables::compare(tally, &stream);
    build_lists::compare(tally);
    tally.round += 1;
}

fn fixed(tally: &mut Tally) {
    for (label, bytes, owed) in samples() {
        assert_eq!(check(&bytes), owed, "{label}");
    }
    let cases = cases();
    let labelled = |label| &cases.iter().find(|case| case.0 == label).expect(label).1;
    for (label, offset) in POINTED {
        assert_eq!(check(labelled(label)), Err(Refusal { number: 9, offset }), "{label}");
    }
    for (label, number, value) in KEYS {
        let owed = if number == 0 { Ok(value) } else { Err(Refusal { number, offset: value }) };
        assert_eq!(check(labelled(label)), owed, "{label}");
    }
    for (label, open, ids) in TOLD {
        let told = explain(labelled(label));
        let units: Vec<(u64, u64)> = told.open.iter().map(|unit| (unit.id, unit.start)).collect();
        assert_eq!((&units[..], &told.ids[..]), (open, ids), "{label}");
    }
    for (label, [first, second], asked, owed) in lookups() {
        assert_eq!(lookup(&first, &second, &asked), owed, "{label}");
        lookups::compare_lookup(tally, &first, &second, &asked);
    }
    for (label, bytes, room, owed) in rescues() {
        assert_eq!(rescue(&bytes, room), owed, "{label}");
        // A room that no buffer has is as good as one for all bytes.
        rescues::compare_rescue(tally, &bytes, room.min(100_000));
    }
    for (label, stream, room, owed) in resolves() {
        assert_eq!(resolve(&stream, room), owed, "{label}");
        resolves::compare_resolve(tally, &stream, room);
    }
    for (label, bytes, owed) in levels() {
        let told: Vec<(u64, u64)> = handed(&list(&bytes).units).iter().map(|one| (one.depth, one.rank)).collect();
        assert_eq!(told, owed, "{label}");
    }
    for at in at_places() {
        for (call, owed) in [(Call::Previous, at.previous), (Call::Next, at.next)] {
            let said = reader::call(call, &at.stream, &reader_place(&at.place));
            assert_eq!((said.number, said.handed.depth, said.handed.rank), owed, "{call:?}: {}", at.label);
            readers::compare_call(tally, call, &at.stream, &mut at.place.clone());
        }
        tables::compare_call(tally, Call::Next, &at.stream, &mut at.place.clone());
    }
    for sample in batches() {
        let mut list = vec![u64::MAX; sample.length];
        let (batch, answer) = numbers::batch(&sample.stream, &reader_place(&sample.place), &mut list);
        let units = list.chunks_exact(7).take(sample.units.len());
        assert_eq!((batch.number, answer), (sample.number, sample.answer), "{}", sample.label);
        assert!(units.eq(sample.units.iter().map(|unit| &unit[..])), "{}: {list:?}", sample.label);
        let left = (batch.place.position, batch.place.open.len() as u64);
        assert_eq!(left, sample.left, "{}", sample.label);
        batches::compare_one(tally, &sample.stream, &mut sample.place.clone(), sample.length, true);
    }
    for (_, bytes) in &cases {
        readers::compare_check(tally, bytes);
        readers::compare_explain(tally, bytes);
        safe::compare(tally, bytes);
        tally.count("streams: the stored cases of the check");
    }
    build_lists::compare_samples(tally);
    builders::largest(tally);
}

fn reached(tally: &Tally) -> [u64; 4] {
    [
        tally.reader_calls(),
        tally.counted("hand-made reader places"),
        tally.counted("hand-made builder places"),
        tally.builder_calls(),
    ]
}

/// What a run of places alone has reached: NEXTs and batches at hand-made places, and calls in replays.
fn reached_places(tally: &Tally) -> [u64; 2] {
    let at_places = tally.counted("NEXTs at hand-made places") + tally.counted("batches at hand-made places");
    [at_places, tally.counted("calls in replays")]
}

/// When a run is done.
#[derive(PartialEq)]
enum Until {
    Seconds(u64),
    Rounds(u64),
    Long,
    Places,
}

fn main() {
    let words: Vec<String> = std::env::args().skip(1).collect();
    let words: Vec<&str> = words.iter().map(String::as_str).collect();
    let usage = "usage: diff SECONDS SEED | rounds ROUNDS SEED | long SEED | places SEED";
    let parsed = |word: &str| word.parse::<u64>().expect(usage);
    let (until, seed) = match words[..] {
        ["long", seed] => (Until::Long, seed),
        ["places", seed] => (Until::Places, seed),
        ["rounds", rounds, seed] => (Until::Rounds(parsed(rounds)), seed),
        [seconds, seed] => (Until::Seconds(parsed(seconds)), seed),
        _ => panic!("{usage}"),
    };
    let mut tally = Tally::new(parsed(seed));
    let begun = Instant::now();
    let mut told = begun;
    let places_alone = until == Until::Places;
    fixed(&mut tally);
    loop {
        round(&mut tally, places_alone);
        let at_times = tally.round.is_multiple_of(64);
        let done = match until {
            Until::Rounds(rounds) => tally.round >= rounds,
            _ if !at_times => false,
            Until::Seconds(seconds) => begun.elapsed() >= Duration::from_secs(seconds),
            Until::Long => reached(&tally).iter().zip(&LONG).all(|(have, least)| have >= least),
            Until::Places => reached_places(&tally).iter().zip(&PLACES).all(|(have, least)| have >= least),
        };
        let tells = matches!(until, Until::Long) && at_times;
        if tells && (done || told.elapsed() >= Duration::from_secs(2)) {
            let [calls, places, builder_places, builder_calls] = reached(&tally);
            eprint!(
                "\r{} s: {calls} reader calls, {places} + {builder_places} places, {builder_calls} builder calls",
                begun.elapsed().as_secs()
            );
            told = Instant::now();
        }
        if done {
            break;
        }
    }
    if matches!(until, Until::Long) {
        eprintln!();
    }
    let good = tally.report(places_alone);
    println!("seed {}, {} rounds, {} s", tally.seed, tally.round, begun.elapsed().as_secs());
    println!("{}", if good { "no difference" } else { "FAILED" });
    std::process::exit(i32::from(!good));
}
