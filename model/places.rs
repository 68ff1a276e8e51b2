//! Hand-made places: real ones with fields altered, made ones that fit or nearly fit, and any numbers at all.

use crate::ranked;
use cdf_model::builder;
use cdf_model::numbers::{of_builder_place, of_reader_place, BuilderNumbers, ReaderNumbers};
use cdf_model::random::Random;
use cdf_model::reader::{Open, Place};
use cdf_model::rules::{admits_kind, opens, possible, Had, Unit, LIMIT};

/// A number near the one that stood there or near another of the place, or any.
fn near(old: u64, others: &[u64], random: &mut Random) -> u64 {
    let from = if random.one_in(3) { random.pick(others) } else { old };
    match random.below(12) {
        0 | 1 => from.wrapping_add(1),
        2 | 3 => from.wrapping_sub(1),
        4 => from.wrapping_add(6),
        5 => from.wrapping_sub(6),
        6 => from.wrapping_add(5),
        7 => from.wrapping_sub(5),
        8 => random.pick(others),
        9 => random.below(40) as u64,
        10 => u64::MAX - random.below(12) as u64,
        _ => random.any(),
    }
}

/// Another state: a neighbour, one of the same or of another kind, or no state.
fn other_state(old: u64, random: &mut Random) -> u64 {
    match random.below(8) {
        0 => old.wrapping_add(1),
        1 => old.wrapping_sub(1),
        2 => old.wrapping_add(2),
        3 => u64::MAX - random.below(3) as u64,
        4 => old.wrapping_add(256),
        _ => random.below(33) as u64,
    }
}

fn other_count(old: u64, random: &mut Random) -> u64 {
    match random.below(10) {
        0..=6 => random.below(7) as u64,
        7 => old.wrapping_add(256),
        8 => u64::MAX,
        _ => random.any(),
    }
}

fn alter_reader(numbers: &mut ReaderNumbers, n: u64, random: &mut Random) {
    let mut others = numbers.to_vec();
    others.push(n);
    let reached = random.below(numbers[1].clamp(1, 4) as usize);
    let slot = 2 + 3 * reached;
    let field = match random.below(16) {
        0 | 1 => 0,
        2 => 1,
        3 | 4 => slot,
        5 => slot + 1,
        6 => slot + 2,
        7 => 19,
        8 => 14,
        9 | 10 => 20 + reached,
        11 | 12 => 24,
        _ => random.between(15, 18),
    };
    numbers[field] = match field {
        1 => other_count(numbers[1], random),
        2 | 5 | 8 | 11 => other_state(numbers[field], random),
        14 => random.pick(&[0, 1, 2, 4, 5, 9, 13, 14, 15, 256 + 4, u64::MAX]),
        19 => random.pick(&[0, 0, 1, 1, 2, 256, u64::MAX]),
        20..=24 => ranked::other(numbers[field], numbers[0], random),
        _ => near(numbers[field], &others, random),
    };
}

/// A chain of ids of which each admits the next, outermost first; all admit others.
fn chain(random: &mut Random) -> Vec<u64> {
    let mut chain = vec![random.pick(&[1, 1, 4, 4, 13])];
    loop {
        let outer = chain[chain.len() - 1];
        let inner: Vec<u64> = (1..=14).filter(|id| admits_kind(outer, *id) && opens(*id)).collect();
        if inner.is_empty() || random.one_in(4) {
            return chain;
        }
        chain.push(random.pick(&inner));
    }
}

/// A place that fits, unless there are too few bytes.
fn made_reader(n: u64, random: &mut Random) -> ReaderNumbers {
    let (mut start, mut end) = (0, n);
    let mut open = Vec::new();
    for id in chain(random) {
        if !open.is_empty() {
            start += 6 + random.pick(&[0, 0, 1, 7]);
            end -= random.below(8) as u64 % (end - start).max(1);
        }
        let had = random.pick(possible(id));
        open.push(Open { id, had, start, end, rank: 0 });
        if end < start + 12 {
            break;
        }
    }
    let low = start + 6;
    let within = low + random.any() % (end.saturating_sub(low) + 1);
    let position = random.pick(&[low, end, within, within]);
    let fresh = random.one_in(2);
    let innermost = open.last_mut().unwrap();
    let innermost_start = innermost.start;
    let last = if fresh {
        innermost.had = Had::Nothing;
        let (id, action) = (innermost.id, random.below(6) as u64);
        Unit { id, action, start, own: position, end }
    } else {
        let start = if random.one_in(3) { innermost_start } else { random.any() % n.max(1) };
        let own = start + random.pick(&[6, 6, 9, 12]);
        let end = random.pick(&[own, own + 3, n]);
        let (id, action) = (random.below(16) as u64, random.below(6) as u64);
        Unit { id, action, start, own, end }
    };
    let mut numbers = of_reader_place(&Place { position, open, last, last_rank: 0, fresh });
    ranked::put(&mut numbers, random);
    numbers
}

/// A number of a place that is given no thought.
fn anything(random: &mut Random) -> u64 {
    match random.below(4) {
        0 => random.below(7) as u64,
        1 => random.below(40) as u64,
        2 => u64::MAX - random.below(8) as u64,
        _ => random.any(),
    }
}

/// A hand-made place and its sort, near these that a run on n bytes met.
pub fn reader(real: &[ReaderNumbers], n: u64, random: &mut Random) -> (&'static str, ReaderNumbers) {
    let sort = random.below(10);
    if sort == 0 {
        let mut numbers = [0; 25].map(|_: u64| anything(random));
        if random.one_in(2) {
            numbers[1] = random.below(6) as u64;
        }
        return ("hand-made reader places: any numbers", numbers);
    }
    let (kind, mut numbers) = match sort {
        1..=4 => ("hand-made reader places: made", made_reader(n, random)),
        _ => ("hand-made reader places: real, altered", random.pick(real)),
    };
    let times = random.pick(&[0, 1, 1, 1, 1, 2, 3]);
    (0..times).for_each(|_| alter_reader(&mut numbers, n, random));
    if random.one_in(3) {
        ranked::fill_free(&mut numbers, random);
    }
    (kind, numbers)
}

fn alter_builder(numbers: &mut BuilderNumbers, b: u64, random: &mut Random) {
    let mut others = numbers.to_vec();
    others.extend([b, LIMIT]);
    let slot = 2 + 2 * random.below(numbers[1].clamp(1, 4) as usize);
    let field = match random.below(8) {
        0..=2 => 0,
        3 => 1,
        4 | 5 => slot,
        _ => slot + 1,
    };
    numbers[field] = match field {
        1 => other_count(numbers[1], random),
        2 | 4 | 6 | 8 => other_state(numbers[field], random),
        _ => near(numbers[field], &others, random),
    };
}

/// A builder's place that fits, unless the buffer is too small.
fn made_builder(b: u64, random: &mut Random) -> BuilderNumbers {
    let top = b.min(LIMIT);
    let mut start = 0;
    let mut open = Vec::new();
    for id in chain(random) {
        if !open.is_empty() {
            start += 6 + random.any() % (top / 8 + 1);
        }
        let had = random.pick(possible(id));
        // A builder never skips; once in a while it is said that it did.
        let had = match had == Had::Skipped && !random.one_in(8) {
            true => Had::Nothing,
            false => had,
        };
        open.push(builder::Open { id, had, start });
    }
    let low = start + 6;
    let within = low + random.any() % (top.saturating_sub(low) + 1);
    let close = top.saturating_sub(random.below(60) as u64);
    let written = random.pick(&[low, within, close, close]);
    of_builder_place(&builder::Place { written, open })
}

/// A hand-made place of the builder and its sort, near one that a run on b bytes met.
pub fn builder(real: &BuilderNumbers, b: u64, random: &mut Random) -> (&'static str, BuilderNumbers) {
    let sort = random.below(10);
    if sort == 0 {
        let mut numbers = [0; 10].map(|_: u64| anything(random));
        if random.one_in(2) {
            numbers[1] = random.below(6) as u64;
        }
        return ("hand-made builder places: any numbers", numbers);
    }
    let (kind, mut numbers) = match sort {
        1..=5 => ("hand-made builder places: made", made_builder(b, random)),
        _ => ("hand-made builder places: real, altered", *real),
    };
    let times = random.pick(&[0, 0, 1, 1, 1, 2]);
    (0..times).for_each(|_| alter_builder(&mut numbers, b, random));
    (kind, numbers)
}
