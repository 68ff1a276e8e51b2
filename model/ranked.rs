//! Ranks in hand-made places (document 02, g): how they are put there, and which kinds of places and of answers were met.

use cdf_model::numbers::{reader_place, ReaderNumbers};
use cdf_model::random::Random;
use cdf_model::reader::{Place, Reply};
use cdf_model::rules::Had;

/// What must have been met: of hand-made places, of PREVIOUS on any place, of NEXT on any place.
pub const RANKED: [&str; 27] = [
    "fits: the innermost unit's rank is a sixth of the position",
    "fits: another open unit's rank is a sixth of the position",
    "fits: the last unit's rank is a sixth of the position",
    "fits: the root's rank is over 0",
    "fits: the last unit is the innermost, with another rank, and may be skipped",
    "fits: the last unit is the innermost, with another rank, and may not be skipped",
    "fits: the last unit starts where the innermost does, and has another id",
    "fits: a slot past the count has too large a rank",
    "does not fit: the innermost unit's rank alone, by one",
    "does not fit: another open unit's rank alone, by one",
    "does not fit: the last unit's rank alone, by one",
    "does not fit: a rank alone of which six times is over 2^64",
    "PREVIOUS: the last unit is the innermost",
    "PREVIOUS: the last unit is not the innermost",
    "PREVIOUS: a unit that was skipped or taken",
    "PREVIOUS: a rank that is a sixth of the position",
    "NEXT: 0, the first in a unit that has had nothing",
    "NEXT: 0, in a unit that has had others",
    "NEXT: one above the last unit's",
    "NEXT: one above that of the one unit closed",
    "NEXT: one above that of the outer one of two units closed",
    "NEXT: one above that of the outermost of three units closed",
    "NEXT: that is neither one above the last unit's nor above the inner closed one's",
    "NEXT: the outermost unit closed was skipped or taken",
    "NEXT: depth 2",
    "NEXT: depth 3",
    "NEXT: depth 4 or 5",
];

/// The five ranks of a place: each may be any that fits, and is often the largest.
pub fn put(numbers: &mut ReaderNumbers, random: &mut Random) {
    let sixth = numbers[0] / 6;
    for rank in &mut numbers[20..] {
        *rank = match random.below(6) {
            0 | 1 => sixth,
            2 => sixth.min(1),
            3 => random.any() % (sixth + 1),
            _ => 0,
        };
    }
}

/// A rank near the largest that fits, one that is much too large, or any.
pub fn other(old: u64, position: u64, random: &mut Random) -> u64 {
    let sixth = position / 6;
    match random.below(10) {
        0..=2 => sixth,
        3..=5 => sixth.wrapping_add(1),
        6 => old.wrapping_add(1),
        7 => random.pick(&[position, position / 5, u64::MAX, u64::MAX / 6]),
        // Six times this is a small number in 64 bits.
        8 => u64::MAX / 6 + 1 + random.below(3) as u64,
        _ => random.any(),
    }
}

/// Any numbers in the slots that the count does not reach.
pub fn fill_free(numbers: &mut ReaderNumbers, random: &mut Random) {
    for slot in (numbers[1].clamp(1, 4) as usize)..4 {
        let at = 2 + 3 * slot;
        numbers[at..at + 3].fill_with(|| random.any());
        numbers[20 + slot] = random.any();
    }
}

/// Those of these that hold.
fn holding(kinds: &[(bool, &'static str)]) -> Vec<&'static str> {
    kinds.iter().filter(|(holds, _)| *holds).map(|(_, kind)| *kind).collect()
}

/// Which of `RANKED` a hand-made place for n bytes is.
pub fn of_place(numbers: &ReaderNumbers, n: u64) -> Vec<&'static str> {
    let place = &reader_place(numbers);
    let missed = place.missed(n);
    let Some((innermost, outer)) = place.open.split_last() else {
        return vec![];
    };
    let is_sixth = |rank: u64| rank.checked_mul(6) == Some(place.position);
    let by_one = |rank: u64| !place.bears(rank) && place.bears(rank - 1);
    let outer_ranks = || outer.iter().map(|unit| unit.rank).filter(|rank| !place.bears(*rank));
    if missed == 0 {
        let is_innermost = place.last.start == innermost.start;
        let two_ranks = is_innermost && place.last_rank != innermost.rank;
        let free = numbers[1] as usize..4;
        return holding(&[
            (is_sixth(innermost.rank), RANKED[0]),
            (outer.iter().any(|unit| is_sixth(unit.rank)), RANKED[1]),
            (is_sixth(place.last_rank), RANKED[2]),
            (place.open[0].rank > 0, RANKED[3]),
            (two_ranks && place.fresh, RANKED[4]),
            (two_ranks && !place.fresh, RANKED[5]),
            (is_innermost && place.last.id != innermost.id, RANKED[6]),
            (free.into_iter().any(|slot| !place.bears(numbers[20 + slot])), RANKED[7]),
        ]);
    }
    let alone = [18, 19, 20].map(|clause| missed == 1 << clause);
    let ranks = [vec![innermost.rank], outer_ranks().collect(), vec![place.last_rank]];
    let one =
        |clause: usize, holds: &dyn Fn(u64) -> bool| alone[clause] && ranks[clause].iter().all(|rank| holds(*rank));
    let wraps = |rank: u64| rank.wrapping_mul(6) <= place.position;
    holding(&[
        (one(0, &by_one), RANKED[8]),
        (one(1, &by_one), RANKED[9]),
        (one(2, &by_one), RANKED[10]),
        ((0..3).any(|clause| one(clause, &wraps)), RANKED[11]),
    ])
}

/// Which of them a PREVIOUS is that answered 0 at a place.
pub fn of_previous(place: &Place) -> Vec<&'static str> {
    let is_innermost = place.open.last().is_some_and(|innermost| innermost.start == place.last.start);
    let skipped = place.open.last().is_some_and(|innermost| innermost.had == Had::Skipped);
    holding(&[
        (is_innermost, RANKED[12]),
        (!is_innermost, RANKED[13]),
        (is_innermost && skipped, RANKED[14]),
        (place.last_rank.checked_mul(6) == Some(place.position), RANKED[15]),
    ])
}

/// Which of them a NEXT is that answered 0 at a place.
pub fn of_next(place: &Place, reply: &Reply) -> Vec<&'static str> {
    let closed: Vec<_> = place.open.iter().filter(|unit| unit.end == place.position).collect();
    let first = closed.is_empty() && place.open.last().is_some_and(|unit| unit.start == place.last.start);
    let fresh = place.open.last().is_some_and(|unit| unit.had == Had::Nothing);
    let (rank, depth) = (reply.handed.rank, reply.handed.depth);
    let other = closed.len() > 1 && rank != place.last_rank + 1 && rank != closed[closed.len() - 1].rank + 1;
    holding(&[
        (first && fresh, RANKED[16]),
        (first && !fresh, RANKED[17]),
        (!first && closed.is_empty(), RANKED[18]),
        (closed.len() == 1, RANKED[19]),
        (closed.len() == 2, RANKED[20]),
        (closed.len() == 3, RANKED[21]),
        (other, RANKED[22]),
        (closed.first().is_some_and(|unit| unit.had == Had::Skipped), RANKED[23]),
        (depth == 2, RANKED[24]),
        (depth == 3, RANKED[25]),
        (depth > 3, RANKED[26]),
    ])
}
