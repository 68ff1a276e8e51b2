//! Many units in a call, worked out by hand.

use crate::cases::{unit, A, N};
use crate::numbers::{BatchNumbers, ReaderNumbers};
use crate::ranked_samples::at_places;
use crate::samples::{K1, K2};

pub struct BatchSample {
    pub label: &'static str,
    pub stream: Vec<u8>,
    pub place: ReaderNumbers,
    /// How many numbers the list has.
    pub length: usize,
    pub number: u64,
    pub answer: BatchNumbers,
    pub units: &'static [[u64; 7]],
    /// Position and count of the place afterwards.
    pub left: (u64, u64),
}

/// The place after a start on K2: position, count; state, start and end of the root; the root; the flag.
fn k2_started() -> ReaderNumbers {
    let mut place = [0; 25];
    (place[0], place[1], place[19]) = (6, 1, 1);
    place[2..5].copy_from_slice(&[5, 0, 46]);
    place[14..19].copy_from_slice(&[4, 0, 0, 6, 46]);
    place
}

const PERSON: [u64; 7] = [5, 1, 6, 19, 46, 2, 0];
const KEY: [u64; 7] = [6, 0, 19, 29, 29, 3, 0];
const FIELD: [u64; 7] = [8, 1, 29, 43, 46, 3, 1];

pub fn batches() -> Vec<BatchSample> {
    let started = k2_started();
    let one = |label, stream: &[u8], place, length, number, answer, units, left| {
        let stream = stream.to_vec();
        BatchSample { label, stream, place, length, number, answer, units, left }
    };
    // K2 with another byte as the action of its field: 8 at 29.
    let mut refused = K2.to_vec();
    refused[33] = 0;
    let mut at_fault = started;
    (at_fault[0], at_fault[1]) = (29, 2);
    at_fault[2..8].copy_from_slice(&[15, 6, 46, 6, 0, 46]);
    at_fault[14..20].copy_from_slice(&[6, 0, 19, 29, 29, 0]);
    let mut at_end = at_fault;
    (at_end[0], at_end[2]) = (46, 17);
    at_end[14..20].copy_from_slice(&[8, 1, 29, 43, 46, 0]);
    at_end[24] = 1;
    let mut unfit = started;
    unfit[4] = 45;
    let mut empty = unfit;
    empty[1] = 0;
    // An EDMM stream of 66 bytes: a call at 6, a group at 14, a relation at 20, an entity key at 30 with its key at 38, a relation key at 48,
    // and a call at 58.
    let deep = unit(
        1,
        &[
            &unit(2, &[A]),
            &unit(4, &[&unit(9, &[N, &unit(11, &[A, &unit(6, &[N])]), &unit(12, &[N])])]),
            &unit(2, &[A]),
        ],
    );
    let mut deep_started = started;
    deep_started[2..5].copy_from_slice(&[1, 0, 66]);
    deep_started[14..19].copy_from_slice(&[1, 0, 0, 6, 66]);
    // A place that no run leaves: two ranks for one unit, which closes.
    let two_ranks = at_places().into_iter().find(|at| at.label == "one unit with two ranks, the flag on");
    let two_ranks = two_ranks.expect("it is a sample");
    vec![
        one("K2, room for all and more", K2, started, 40, 0, [0, 3], &[PERSON, KEY, FIELD], (46, 2)),
        one("K2, room for two, and six numbers more", K2, started, 20, 0, [0, 2], &[PERSON, KEY], (29, 2)),
        one("K2, room for one", K2, started, 7, 0, [0, 1], &[PERSON], (19, 2)),
        one("K2, six numbers are room for none", K2, started, 6, 0, [0, 0], &[], (6, 1)),
        one("K2, behind its last unit", K2, at_end, 70, 1, [0, 0], &[], (46, 2)),
        one("K2, behind its last unit, room for none", K2, at_end, 0, 0, [0, 0], &[], (46, 2)),
        one("K10, the fault behind two units is not told", &refused, started, 70, 0, [0, 2], &[PERSON, KEY], (29, 2)),
        one("K10, but by the following call", &refused, at_fault, 70, 8, [29, 0], &[], (29, 2)),
        one("K10, room for none at the fault", &refused, at_fault, 3, 0, [0, 0], &[], (29, 2)),
        one("K2, a place that does not fit", K2, unfit, 70, 2, [0, 0], &[], (6, 1)),
        one("K2, it does not fit, and there is no room", K2, unfit, 0, 2, [0, 0], &[], (6, 1)),
        one("K2, an empty place, and no room", K2, empty, 0, 11, [0, 0], &[], (6, 0)),
        one("K1, an empty place", K1, [0; 25], 7, 11, [0, 0], &[], (0, 0)),
        one(
            "five deep, and out again",
            &deep,
            deep_started,
            63,
            0,
            [0, 7],
            &[
                [2, 0, 6, 14, 14, 2, 0],
                [4, 0, 14, 20, 58, 2, 1],
                [9, 1, 20, 30, 58, 3, 0],
                [11, 0, 30, 38, 48, 4, 0],
                [6, 0, 38, 48, 48, 5, 0],
                [12, 0, 48, 58, 58, 4, 1],
                [2, 0, 58, 66, 66, 2, 2],
            ],
            (66, 2),
        ),
        one(
            "one unit with two ranks",
            &two_ranks.stream,
            two_ranks.place,
            21,
            0,
            [0, 2],
            &[[2, 0, 14, 22, 22, 2, 2], [2, 0, 22, 30, 30, 2, 3]],
            (30, 2),
        ),
    ]
}
