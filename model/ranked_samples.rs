//! Depths and ranks that are worked out by hand: of the units of some streams, and of PREVIOUS and NEXT at hand-made places.

use crate::cases::{unit, A, N};
use crate::numbers::ReaderNumbers;
use crate::samples::{K1, K12, K2};

/// A label, a stream, and depth and rank of each of its units.
pub type Levels = (&'static str, Vec<u8>, &'static [(u64, u64)]);

pub fn levels() -> Vec<Levels> {
    let key = unit(6, &[N]);
    let person = |fields: usize| unit(5, &[A, &key, &unit(8, &[A]).repeat(fields)]);
    let relation = unit(9, &[N, &unit(11, &[A, &key]), &unit(12, &[N])]);
    let call = |parameters: usize| unit(2, &[A, &unit(3, &[A]).repeat(parameters)]);
    vec![
        ("K1", K1.to_vec(), &[(1, 0), (2, 0)]),
        ("K2", K2.to_vec(), &[(1, 0), (2, 0), (3, 0), (3, 1)]),
        ("K12", K12.to_vec(), &[(1, 0), (2, 0)]),
        ("lines", unit(13, &[&unit(14, &[b"x"]).repeat(3)]), &[(1, 0), (2, 0), (2, 1), (2, 2)]),
        // Of a refused stream the units before the fault: the second person has no key.
        ("refused", unit(4, &[&person(1), &unit(5, &[A])]), &[(1, 0), (2, 0), (3, 0), (3, 1), (2, 1)]),
        (
            "calls and a group",
            unit(1, &[&call(2), &unit(4, &[&person(0), &relation, &person(2)]), &call(0), &call(1)]),
            &[
                (1, 0),
                (2, 0),
                (3, 0),
                (3, 1),
                (2, 1),
                (3, 0),
                (4, 0),
                (3, 1),
                (4, 0),
                (5, 0),
                (4, 1),
                (3, 2),
                (4, 0),
                (4, 1),
                (4, 2),
                (2, 2),
                (2, 3),
                (3, 0),
            ],
        ),
    ]
}

/// What PREVIOUS and NEXT answer at a place: the number, and beside 0 depth and rank.
type Owed = (u64, u64, u64);

pub struct AtPlace {
    pub label: &'static str,
    pub stream: Vec<u8>,
    pub place: ReaderNumbers,
    pub previous: Owed,
    pub next: Owed,
}

const FREE: [u64; 3] = [77, 88, 99];

/// The numbers of a place: position; of the open units, the innermost first and then from the root inwards, state, start, end and rank;
/// the last unit and its rank; the flag. What the count does not reach is no zero.
fn numbers(position: u64, open: &[[u64; 4]], last: [u64; 5], last_rank: u64, flag: u64) -> ReaderNumbers {
    let mut made = [u64::MAX; 25];
    (made[0], made[1], made[19], made[24]) = (position, open.len() as u64, flag, last_rank);
    for slot in 0..4 {
        let [state, start, end, rank] = *open.get(slot).unwrap_or(&[FREE[0], FREE[1], FREE[2], u64::MAX]);
        made[2 + 3 * slot..5 + 3 * slot].copy_from_slice(&[state, start, end]);
        made[20 + slot] = rank;
    }
    made[14..19].copy_from_slice(&last);
    made
}

pub fn at_places() -> Vec<AtPlace> {
    const UNFIT: Owed = (2, 0, 0);
    let parameter = unit(3, &[A]);
    // A stream of 30 bytes: a call at 6, its parameters at 14 and 22.
    let parameters = unit(1, &[&unit(2, &[A, &parameter, &parameter])]);
    // Calls without parameters at 6, 14 and 22.
    let calls = unit(1, &[&unit(2, &[A]).repeat(3)]);
    let root = [13, 0, 0, 6, 16];
    let k1 = |rank, last: [u64; 5], last_rank, flag| numbers(6, &[[8, 0, 16, rank]], last, last_rank, flag);
    // In the stream of two parameters, before the first of them; the last unit starts where the call does.
    let call = |outer, inner, last_rank| {
        numbers(14, &[[12, 6, 30, inner], [2, 0, 30, outer]], [17, 9, 6, 12, 20], last_rank, 0)
    };
    // Right behind the first of three calls, which is open.
    let behind = |inner, last: [u64; 5], last_rank, flag| {
        numbers(14, &[[11, 6, 14, inner], [2, 0, 30, 2]], last, last_rank, flag)
    };
    let (first, parameter) = ([2, 0, 6, 14, 14], [3, 0, 14, 22, 22]);
    let one =
        |label, stream: &[u8], place, previous, next| AtPlace { label, stream: stream.to_vec(), place, previous, next };
    vec![
        one("K1 after a start", K1, k1(0, root, 0, 1), (0, 1, 0), (0, 2, 0)),
        one("K1, the flag off: 0 by start", K1, k1(0, root, 0, 0), (0, 1, 0), (0, 2, 0)),
        one("K1 after a start and a SKIP", K1, numbers(16, &[[10, 0, 16, 0]], root, 0, 0), (0, 1, 0), (1, 0, 0)),
        one("K1, the last unit's rank a sixth", K1, k1(0, root, 1, 1), (0, 1, 1), (0, 2, 0)),
        one("K1, the last unit's rank over a sixth", K1, k1(0, root, 2, 1), UNFIT, UNFIT),
        one("K1, the root's rank a sixth", K1, k1(1, root, 0, 1), (0, 1, 0), (0, 2, 0)),
        one("K1, the root's rank over a sixth", K1, k1(2, root, 0, 1), UNFIT, UNFIT),
        one("K1, six times the rank is 2 in 64 bits", K1, k1(0, root, u64::MAX / 6 + 1, 1), UNFIT, UNFIT),
        one("K1, the last unit elsewhere", K1, k1(0, [14, 0, 9, 15, 16], 0, 0), (0, 2, 0), (0, 2, 1)),
        one("two parameters, all at the edge", &parameters, call(2, 1, 2), (0, 2, 2), (0, 3, 0)),
        one("two parameters, the last over it", &parameters, call(2, 1, 3), UNFIT, UNFIT),
        one("two parameters, the innermost over it", &parameters, call(2, 3, 2), UNFIT, UNFIT),
        one("two parameters, the root over it", &parameters, call(3, 1, 2), UNFIT, UNFIT),
        one("one unit with two ranks, the flag on", &calls, behind(1, first, 2, 1), (0, 2, 2), (0, 2, 2)),
        one("one unit with two ranks, the flag off", &calls, behind(0, first, 2, 0), (0, 2, 2), (0, 2, 1)),
        one("the last unit behind what closes", &calls, behind(1, parameter, 0, 0), (0, 3, 0), (0, 2, 2)),
    ]
}
