//! Which kind of rescue it was, and what the model owes of its answer.

use cdf_model::cases::unit;
use cdf_model::check::check;
use cdf_model::rescue::{read, rescue, Rescued};
use cdf_model::rules::{Refusal, LIMIT, MARK};
use cdf_model::units::list;

/// All of them must have been met.
pub const RESCUED: [&str; 50] = [
    "3: no bytes",
    "3: some bytes",
    "16: six bytes",
    "16: more than six bytes",
    "16: an accepted stream of another root",
    "17: 65 runs",
    "17: more than 65 runs",
    "17: and the kept units pass 65,535 bytes",
    "17: and no room",
    "13: by one byte",
    "13: a unit that no group holds",
    "13: room for all bytes",
    "13: and no room",
    "12: a byte too little",
    "12: room for the group's prefix, or less",
    "12: no room at all",
    "12: and 64 runs",
    "done: an accepted group, unchanged",
    "done: no runs, but another front",
    "done: a group of 65,535 bytes",
    "done: of more than 65,535 bytes",
    "done: exact room",
    "done: a byte more room",
    "done: much more room",
    "done: an accepted stream of another root",
    "done: one run",
    "done: 63 runs",
    "done: 64 runs",
    "done: a run at the front",
    "done: a run between units",
    "done: a run at the end",
    "done: a run of one byte",
    "done: a run of more than 255 bytes",
    "done: a run of an odd number of bytes, and one of an even number",
    "kept: a template",
    "kept: a relation",
    "kept: an ordered relation",
    "kept: a unit inside a broken one",
    "kept: a unit of which a broken one takes a part",
    "kept: a unit right behind a broken one",
    "kept: a unit behind the first byte of a mark",
    "dropped, at a mark: fewer than six bytes are left",
    "dropped, at a mark: a unit that is cut at the end",
    "dropped, at a mark: a length under six",
    "dropped, at a mark: the group with it alone gets 6",
    "dropped, at a mark: the group with it alone gets 7",
    "dropped, at a mark: the group with it alone gets 8",
    "dropped, at a mark: the group with it alone gets 9",
    "dropped, at a mark: the group with it alone gets 10",
    "dropped, at a mark: the group with it alone is refused inside it",
];

/// By the reader: start and end of the units that are kept.
fn units(bytes: &[u8]) -> Vec<(usize, usize)> {
    let mut units = Vec::new();
    let mut at = 6;
    while at < bytes.len() {
        let end = read(bytes, at);
        units.extend(end.map(|end| (at, end)));
        at = end.unwrap_or(at + 1);
    }
    units
}

/// For each byte from 6 on whether it is one of these units'.
fn kept(bytes: &[u8], units: &[(usize, usize)]) -> Vec<bool> {
    let mut kept = vec![false; bytes.len().saturating_sub(6)];
    units.iter().for_each(|unit| kept[unit.0 - 6..unit.1 - 6].fill(true));
    kept
}

/// How many runs of dropped bytes.
fn count(kept: &[bool]) -> usize {
    kept.split(|kept| *kept).filter(|run| !run.is_empty()).count()
}

/// What the answer does not keep of this: the number and the bytes are those of what the reader reads whole; runs rise and are
/// apart; kept and dropped bytes are all from 6 on; the group is accepted, and its rescue is the group; an accepted E/R group
/// is its own rescue; nothing depends on the first six bytes.
pub fn broken(bytes: &[u8], room: u64, rescued: &Rescued) -> Option<&'static str> {
    let Rescued { number, group, runs } = rescued;
    let kept = kept(bytes, &units(bytes));
    let length = 6 + kept.iter().filter(|kept| **kept).count() as u64;
    let owed = match bytes.len() {
        ..=5 => 3,
        _ if length == 6 => 16,
        _ if count(&kept) > 64 => 17,
        _ if length > LIMIT => 13,
        _ if length > room => 12,
        _ => 0,
    };
    if *number != owed {
        return Some("the number of a rescue, and what is read whole");
    }
    let whole = check(bytes).is_ok() && bytes[5] == 4 && room >= bytes.len() as u64;
    if whole && (group, runs.len()) != (&bytes.to_vec(), 0) {
        return Some("an accepted group is its own rescue");
    }
    let front = |byte| [&[byte; 6], bytes.get(6..).unwrap_or_default()].concat();
    if bytes.len() >= 6 && (rescue(&front(0xCD), room) != *rescued || rescue(&front(0), room) != *rescued) {
        return Some("nothing depends on the first six bytes");
    }
    if *number != 0 {
        return (!group.is_empty() || !runs.is_empty()).then_some("a refused rescue has no group and no runs");
    }
    let among = |run: &(u64, u64)| 6 <= run.0 && run.0 < run.1 && run.1 <= bytes.len() as u64;
    if !runs.iter().all(among) || runs.windows(2).any(|pair| pair[0].1 >= pair[1].0) {
        return Some("runs rise, and are apart");
    }
    let is_dropped = |at: &u64| runs.iter().any(|run| run.0 <= *at && *at < run.1);
    if (6..bytes.len() as u64).zip(&kept).any(|(at, kept)| is_dropped(&at) == *kept) {
        return Some("kept and dropped bytes are all from 6 on");
    }
    let of_kept = bytes[6..].iter().zip(&kept).filter(|(_, kept)| **kept).map(|(byte, _)| byte);
    if check(group).is_err() || group[5] != 4 || !group[6..].iter().eq(of_kept) {
        return Some("a rescue is an accepted group of the kept bytes");
    }
    let again = rescue(group, room);
    (again.group != *group || !again.runs.is_empty()).then_some("a rescued group is its own rescue")
}

type Kinds = Vec<&'static str>;

fn those(kinds: &[(bool, &'static str)]) -> Kinds {
    kinds.iter().filter(|kind| kind.0).map(|kind| kind.1).collect()
}

/// Which of `RESCUED` it was.
pub fn kinds(bytes: &[u8], room: u64, rescued: &Rescued) -> Kinds {
    let units = units(bytes);
    let kept = kept(bytes, &units);
    let (n, length, runs) = (bytes.len(), 6 + kept.iter().filter(|kept| **kept).count() as u64, count(&kept));
    let other_root = check(bytes).is_ok() && bytes[5] != 4;
    match rescued.number {
        3 => those(&[(n == 0, "3: no bytes"), (n > 0, "3: some bytes")]),
        16 => those(&[
            (n == 6, "16: six bytes"),
            (n > 6, "16: more than six bytes"),
            (other_root, "16: an accepted stream of another root"),
        ]),
        17 => those(&[
            (runs == 65, "17: 65 runs"),
            (runs > 65, "17: more than 65 runs"),
            (length > LIMIT, "17: and the kept units pass 65,535 bytes"),
            (length > room, "17: and no room"),
        ]),
        13 => those(&[
            (length == LIMIT + 1, "13: by one byte"),
            (units.iter().any(|unit| unit.1 - unit.0 > 65_529), "13: a unit that no group holds"),
            (room >= length, "13: room for all bytes"),
            (room < length, "13: and no room"),
        ]),
        12 => those(&[
            (room + 1 == length, "12: a byte too little"),
            (room <= 6, "12: room for the group's prefix, or less"),
            (room == 0, "12: no room at all"),
            (runs == 64, "12: and 64 runs"),
        ]),
        _ => {
            let done = those(&[
                (rescued.group == bytes, "done: an accepted group, unchanged"),
                (runs == 0 && rescued.group != bytes, "done: no runs, but another front"),
                (length == LIMIT, "done: a group of 65,535 bytes"),
                (n as u64 > LIMIT, "done: of more than 65,535 bytes"),
                (room == length, "done: exact room"),
                (room == length + 1, "done: a byte more room"),
                (room > LIMIT, "done: much more room"),
                (other_root, "done: an accepted stream of another root"),
            ]);
            [done, of_runs(n as u64, &rescued.runs), of_units(bytes, &units), at_marks(bytes, &units, &kept)].concat()
        }
    }
}

fn of_runs(n: u64, runs: &[(u64, u64)]) -> Kinds {
    let any = |is: &dyn Fn(u64, u64) -> bool| runs.iter().any(|run| is(run.0, run.1));
    let even_and_odd = any(&|first, after| (after - first) % 2 == 0) && any(&|first, after| (after - first) % 2 == 1);
    those(&[
        (runs.len() == 1, "done: one run"),
        (runs.len() == 63, "done: 63 runs"),
        (runs.len() == 64, "done: 64 runs"),
        (any(&|first, _| first == 6), "done: a run at the front"),
        (any(&|first, after| first > 6 && after < n), "done: a run between units"),
        (any(&|_, after| after == n), "done: a run at the end"),
        (any(&|first, after| after == first + 1), "done: a run of one byte"),
        (any(&|first, after| after - first > 255), "done: a run of more than 255 bytes"),
        (even_and_odd, "done: a run of an odd number of bytes, and one of an even number"),
    ])
}

fn of_units(bytes: &[u8], units: &[(usize, usize)]) -> Kinds {
    let is = |id: u8| units.iter().any(|unit| bytes[unit.0 + 5] == id);
    those(&[(is(5), "kept: a template"), (is(9), "kept: a relation"), (is(10), "kept: an ordered relation")])
}

/// What is dropped where a mark stands, and what is kept there.
fn at_marks(bytes: &[u8], units: &[(usize, usize)], kept: &[bool]) -> Kinds {
    let mut kinds = Vec::new();
    let dropped = |at: usize| at >= 6 && at < bytes.len() && !kept[at - 6];
    for at in (6..bytes.len()).filter(|at| dropped(*at) && bytes[*at..].starts_with(&MARK)) {
        let rest = &bytes[at..];
        if rest.len() < 6 {
            kinds.push("dropped, at a mark: fewer than six bytes are left");
            continue;
        }
        let length = usize::from(rest[2]) * 256 + usize::from(rest[3]);
        if length < 6 || length > rest.len() {
            kinds.extend(those(&[
                (length < 6, "dropped, at a mark: a length under six"),
                (length > rest.len(), "dropped, at a mark: a unit that is cut at the end"),
            ]));
            continue;
        }
        // A unit of a kind that is kept seems to stand here, and takes these bytes.
        let (of_kind, end) = (matches!(rest[5], 5 | 9 | 10), at + length);
        let some =
            |is: &dyn Fn(usize, usize) -> bool| of_kind && units.iter().any(|unit| at < unit.0 && is(unit.0, unit.1));
        kinds.extend(those(&[
            (some(&|_, unit_end| unit_end <= end), "kept: a unit inside a broken one"),
            (some(&|start, unit_end| start < end && end < unit_end), "kept: a unit of which a broken one takes a part"),
            (some(&|start, _| start == end), "kept: a unit right behind a broken one"),
        ]));
        // Its own fault comes before any unit in it is listed, or is that it is incomplete. No group holds the longest.
        let listed = list(&unit(4, &[&rest[..length]]));
        kinds.extend(match (listed.units.len(), listed.fault) {
            (1, Some(Refusal { number: 6, .. })) => Some("dropped, at a mark: the group with it alone gets 6"),
            (1, Some(Refusal { number: 7, .. })) => Some("dropped, at a mark: the group with it alone gets 7"),
            (1, Some(Refusal { number: 8, .. })) => Some("dropped, at a mark: the group with it alone gets 8"),
            (1, Some(Refusal { number: 9, .. })) => Some("dropped, at a mark: the group with it alone gets 9"),
            (2.., Some(Refusal { number: 10, offset: 6 })) => {
                Some("dropped, at a mark: the group with it alone gets 10")
            }
            (2.., Some(_)) => Some("dropped, at a mark: the group with it alone is refused inside it"),
            _ => None,
        });
    }
    let first_of_mark = |at: usize| bytes[at] == MARK[0] && dropped(at) && bytes[at + 1..].starts_with(&MARK);
    if (6..bytes.len()).any(|at| first_of_mark(at) && !dropped(at + 1)) {
        kinds.push("kept: a unit behind the first byte of a mark");
    }
    kinds.sort();
    kinds.dedup();
    kinds
}
