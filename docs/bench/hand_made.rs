//! Places that no call made: real ones with numbers altered, made ones that fit or nearly fit, and any numbers.

use crate::archive::Place;
use crate::random::Random;

/// A number near one of the place, or any.
fn near(old: u64, place: &Place, n: u64, random: &mut Random) -> u64 {
    let from = match random.below(4) {
        0 => random.pick(place),
        1 => n,
        _ => old,
    };
    match random.below(9) {
        0 | 1 => from.wrapping_add(1),
        2 | 3 => from.wrapping_sub(1),
        4 => from.wrapping_add(6),
        5 => from.wrapping_sub(6),
        6 => from,
        7 => u64::MAX - random.below(8) as u64,
        _ => random.any(),
    }
}

/// A rank: mostly the largest that the position bears, or one more, or one of which six times wraps.
fn rank(position: u64, random: &mut Random) -> u64 {
    match random.below(6) {
        0 | 1 => position / 6,
        2 | 3 => (position / 6).wrapping_add(1),
        4 => u64::MAX / 6 + 1,
        _ => random.any(),
    }
}

fn alter(place: &mut Place, n: u64, random: &mut Random) {
    let slot = random.below(place[1].clamp(1, 4) as usize);
    let at = match random.below(12) {
        0 => 0,
        1 => 1,
        2 | 3 => 2 + 3 * slot,
        4 => 3 + 3 * slot,
        5 => 4 + 3 * slot,
        6 => 19,
        7 => 20 + slot,
        8 => 24,
        9 => 14,
        _ => random.between(16, 18),
    };
    place[at] = match at {
        1 => random.pick(&[0, 1, 2, 3, 4, 5, 6, 257, u64::MAX]),
        2 | 5 | 8 | 11 => match random.below(6) {
            0 => 0,
            1 => place[at].wrapping_add(256),
            2 => place[at].wrapping_add(1),
            _ => random.below(32) as u64,
        },
        14 => random.pick(&[0, 1, 2, 4, 5, 9, 13, 14, 260, u64::MAX]),
        19 => random.pick(&[0, 1, 2, 256, u64::MAX]),
        20..=24 => rank(place[0], random),
        _ => near(place[at], place, n, random),
    };
}

/// Open units from the root inwards, as the first states of their kinds with the number of states.
const CHAINS: [&[(u64, u64)]; 16] = [
    &[(1, 4)],
    &[(5, 3)],
    &[(8, 3)],
    &[(1, 4), (11, 3)],
    &[(1, 4), (5, 3)],
    &[(1, 4), (8, 3)],
    &[(5, 3), (14, 5)],
    &[(5, 3), (19, 4)],
    &[(5, 3), (23, 4)],
    &[(1, 4), (5, 3), (14, 5)],
    &[(1, 4), (5, 3), (19, 4)],
    &[(1, 4), (5, 3), (23, 4)],
    &[(5, 3), (19, 4), (27, 4)],
    &[(5, 3), (23, 4), (27, 4)],
    &[(1, 4), (5, 3), (19, 4), (27, 4)],
    &[(1, 4), (5, 3), (23, 4), (27, 4)],
];
const IDS: [(u64, u64); 8] = [(1, 1), (5, 4), (8, 13), (11, 2), (14, 5), (19, 9), (23, 10), (27, 11)];

/// A place that fits where there are bytes enough, and mostly has the position of a real one.
fn made(real: &[Place], n: u64, random: &mut Random) -> Place {
    let chain = random.pick(&CHAINS);
    let mut place = [0; 25].map(|_: u64| random.any());
    place[1] = chain.len() as u64;
    let (mut start, mut end) = (0, n);
    for (level, (first, states)) in chain.iter().enumerate() {
        if level > 0 {
            start += 6 + random.pick(&[0, 0, 1, 7]);
            end = if random.below(2) == 0 { end } else { end.saturating_sub(random.below(9) as u64).max(start) };
        }
        let slot = if level + 1 == chain.len() { 0 } else { level + 1 };
        let state = first + random.below(*states as usize) as u64;
        place[2 + 3 * slot..5 + 3 * slot].copy_from_slice(&[state, start, end]);
    }
    let low = start + 6;
    let inside = (0..8).map(|_| random.pick(real)[0]).find(|at| (low..=end).contains(at));
    let any = low + random.any() % (end.saturating_sub(low) + 1);
    let position = match random.below(4) {
        0 => end,
        1 => any,
        _ => inside.unwrap_or(low),
    };
    place[0] = position;
    place[19] = random.below(2) as u64;
    let first = chain[chain.len() - 1].0;
    let id = IDS.iter().find(|(state, _)| *state == first).map_or(0, |(_, id)| *id);
    let last = if place[19] == 1 {
        place[2] = first;
        [id, random.below(5) as u64, start, position, end]
    } else {
        let from = if random.below(3) == 0 { start } else { random.any() % n.max(1) };
        let end = random.pick(&[from + 6, n]);
        [random.below(16) as u64, random.below(6) as u64, from, from + 6, end]
    };
    place[14..19].copy_from_slice(&last);
    for at in 20..20 + chain.len() {
        place[at] = random.pick(&[0, 1.min(position / 6), position / 6]);
    }
    place[24] = random.pick(&[0, position / 6]);
    place
}

/// A number that is given no thought.
fn anything(random: &mut Random) -> u64 {
    let most = random.pick(&[7, 40, usize::MAX]);
    random.below(most) as u64
}

/// A place near those that a run on n bytes met.
pub fn place(real: &[Place], n: u64, random: &mut Random) -> Place {
    let mut place = match random.below(9) {
        0 => [0; 25].map(|_: u64| anything(random)),
        1..=4 => made(real, n, random),
        _ => random.pick(real),
    };
    let times = random.pick(&[0, 1, 1, 1, 2]);
    for _ in 0..times {
        alter(&mut place, n, random);
    }
    place
}
