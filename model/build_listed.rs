//! Which kind of list of requests it was, and what the model owes of it.

use cdf_model::build_list::{build, Listed, RefusedList, MOST};
use cdf_model::builder::{next, Place};
use cdf_model::numbers::{builder_place, BuilderNumbers};
use cdf_model::rules::{kind, LIMIT};

/// What is given: the buffer before the call, the place, the list and its text.
#[derive(Clone, Copy)]
pub struct Call<'a> {
    pub before: &'a [u8],
    pub place: &'a BuilderNumbers,
    pub list: &'a [Listed],
    pub text: &'a [u8],
}

type Owed = Result<Place, RefusedList>;

/// All of them must have been met.
pub const BUILD_LISTED: [&str; 67] = [
    "2: no request",
    "2: some requests",
    "2: more than 512 requests",
    "21: 513 requests",
    "21: more than 513 requests",
    "21: 512 that would be built, and one more",
    "21: and the first would be refused",
    "21: and the last has bad bounds",
    "done: no request",
    "done: no request, at a hand-made place",
    "done: no request, and a full buffer",
    "done: one request",
    "done: 2 to 510 requests",
    "done: 511 requests",
    "done: 512 requests",
    "done: at a hand-made place",
    "done: the buffer is used up",
    "done: 65,535 bytes",
    "done: requests, and no text",
    "done: no bytes, at the text's end",
    "done: the text's last bytes",
    "done: one part of the text twice",
    "done: parts of the text that overlap",
    "done: a part of the text before that of the request before it",
    "done: a unit is closed that was open before",
    "done: four units are open",
    "6: the first request",
    "6: behind others that are right",
    "6: the last request",
    "7: the first request",
    "7: behind others that are right",
    "7: the last request",
    "10: the first request",
    "10: behind others that are right",
    "10: the last request",
    "8: the first request",
    "8: behind others that are right",
    "8: the last request",
    "9: the first request",
    "9: behind others that are right",
    "9: the last request",
    "13: the first request",
    "13: behind others that are right",
    "13: the last request",
    "12: the first request",
    "12: behind others that are right",
    "12: the last request",
    "6: and bad bounds",
    "7: and bad bounds",
    "10: and bad bounds",
    "8: and bad bounds",
    "9: the bounds cross inside the text",
    "9: the end is one past the text",
    "9: the end is far past the text",
    "9: both bounds are past the text",
    "9: no bytes, one past the text",
    "9: the beginning alone is past the text",
    "9: bad bounds of a unit without own data",
    "9: bad bounds, and the limit would be passed",
    "9: bad bounds, and there would be no room",
    "9: own data",
    "9: own data, and there is no room",
    "12: by one byte",
    "13: by one byte",
    "13: and there is no room",
    "refused: rank 256 or above",
    "refused: rank 511",
];

type Kinds = Vec<&'static str>;

fn those(kinds: &[(bool, &'static str)]) -> Kinds {
    kinds.iter().filter(|kind| kind.0).map(|kind| kind.1).collect()
}

fn built(given: &Call, list: &[Listed]) -> (Owed, Vec<u8>) {
    let mut buffer = given.before.to_vec();
    let owed = build(&mut buffer, &builder_place(given.place), list, given.text);
    (owed, buffer)
}

/// Which of `BUILD_LISTED` it was.
pub fn kinds(given: &Call, made: bool, owed: &Owed) -> Kinds {
    let list = given.list;
    match owed {
        Ok(left) => done(given, made, left),
        Err(RefusedList { number: 2, .. }) => those(&[
            (list.is_empty(), "2: no request"),
            ((1..=MOST).contains(&list.len()), "2: some requests"),
            (list.len() > MOST, "2: more than 512 requests"),
        ]),
        Err(RefusedList { number: 21, .. }) => {
            let (most, _) = built(given, &list[..MOST]);
            those(&[
                (list.len() == 513, "21: 513 requests"),
                (list.len() > 513, "21: more than 513 requests"),
                (most.is_ok(), "21: 512 that would be built, and one more"),
                (most.is_err_and(|refused| refused.rank == 0), "21: and the first would be refused"),
                (list[list.len() - 1].data(given.text).is_none(), "21: and the last has bad bounds"),
            ])
        }
        Err(refused) => refusal(given, refused),
    }
}

fn done(given: &Call, made: bool, left: &Place) -> Kinds {
    let (list, length) = (given.list, given.text.len() as u64);
    let before = builder_place(given.place);
    let same = |one: &Listed, other: &Listed| (one.begin, one.end) == (other.begin, other.end);
    let meet = |one: &Listed, other: &Listed| one.begin.max(other.begin) < one.end.min(other.end);
    // Of the first requests alone, since there are many pairs.
    let front = &list[..list.len().min(20)];
    let pairs = || front.iter().enumerate().flat_map(|(at, one)| front[..at].iter().map(move |other| (one, other)));
    let empty = list.is_empty();
    those(&[
        (empty, "done: no request"),
        (empty && made, "done: no request, at a hand-made place"),
        (empty && before.written == given.before.len() as u64, "done: no request, and a full buffer"),
        (list.len() == 1, "done: one request"),
        ((2..511).contains(&list.len()), "done: 2 to 510 requests"),
        (list.len() == 511, "done: 511 requests"),
        (list.len() == 512, "done: 512 requests"),
        (!empty && made, "done: at a hand-made place"),
        (!empty && left.written == given.before.len() as u64, "done: the buffer is used up"),
        (!empty && left.written == LIMIT, "done: 65,535 bytes"),
        (!empty && length == 0, "done: requests, and no text"),
        (list.iter().any(|one| length > 0 && one.begin == length), "done: no bytes, at the text's end"),
        (list.iter().any(|one| one.begin < one.end && one.end == length), "done: the text's last bytes"),
        (pairs().any(|(one, other)| meet(one, other) && same(one, other)), "done: one part of the text twice"),
        (pairs().any(|(one, other)| meet(one, other) && !same(one, other)), "done: parts of the text that overlap"),
        (
            front.windows(2).any(|two| two[1].begin < two[0].begin),
            "done: a part of the text before that of the request before it",
        ),
        (
            before.open.iter().any(|open| left.open.iter().all(|still| still.start != open.start)),
            "done: a unit is closed that was open before",
        ),
        (!empty && left.open.len() == 4, "done: four units are open"),
    ])
}

fn refusal(given: &Call, refused: &RefusedList) -> Kinds {
    let (number, rank) = (refused.number, refused.rank as usize);
    let (text, n) = (given.text, given.before.len() as u64);
    let listed = given.list[rank];
    let (Ok(at), mut buffer) = built(given, &given.list[..rank]) else {
        unreachable!("those before it are right");
    };
    let first = BUILD_LISTED.iter().position(|label| *label == "6: the first request").expect("it is there");
    let order = [6, 7, 10, 8, 9, 13, 12].iter().position(|one| *one == number).expect("no other number");
    let of = |which: usize| BUILD_LISTED[first + 3 * order + which];
    let Listed { begin, end, .. } = listed;
    let length = text.len() as u64;
    let own = listed.data(text);
    let (bad, crossed) = (own.is_none(), begin > end);
    let needed = at.written + 6 + own.map_or(0, |data| data.len() as u64);
    let nine = bad && number == 9;
    // What a unit without own data would get there: of a name or numbers it is 9 too.
    let bare = next(&mut buffer, &at, &listed.with(&[])).err();
    let without = kind(listed.id).is_some_and(|kind| kind.own.is_empty());
    those(&[
        (rank == 0, of(0)),
        (rank > 0, of(1)),
        (rank > 0 && rank + 1 == given.list.len(), of(2)),
        (bad && number == 6, "6: and bad bounds"),
        (bad && number == 7, "7: and bad bounds"),
        (bad && number == 10, "10: and bad bounds"),
        (bad && number == 8, "8: and bad bounds"),
        (nine && crossed && begin <= length, "9: the bounds cross inside the text"),
        (nine && !crossed && begin <= length && end == length + 1, "9: the end is one past the text"),
        (nine && begin <= length && end > 1 << 32, "9: the end is far past the text"),
        (nine && !crossed && begin > length, "9: both bounds are past the text"),
        (nine && begin == length + 1 && begin == end, "9: no bytes, one past the text"),
        (nine && begin > length && end <= length, "9: the beginning alone is past the text"),
        (nine && without, "9: bad bounds of a unit without own data"),
        (nine && bare == Some(13), "9: bad bounds, and the limit would be passed"),
        (nine && bare == Some(12), "9: bad bounds, and there would be no room"),
        (!bad && number == 9, "9: own data"),
        (!bad && number == 9 && needed > n, "9: own data, and there is no room"),
        (number == 12 && needed == n + 1, "12: by one byte"),
        (number == 13 && needed == LIMIT + 1, "13: by one byte"),
        (number == 13 && needed > n, "13: and there is no room"),
        (rank > 255, "refused: rank 256 or above"),
        (rank == 511, "refused: rank 511"),
    ])
}

/// What the answer does not keep of this. A list is built as its first part and then the rest. A refused one is refused there too
/// without those behind it; those before it are built; and at the place behind these a single call refuses it with the same number:
/// with its own data, or where the bounds are bad with any, of which one is right in form, unless the number is 9.
pub fn broken(given: &Call, owed: &Owed, after: &[u8]) -> Option<&'static str> {
    let Call { before, list, text, .. } = *given;
    let refused = match owed {
        Ok(left) => {
            let (first, rest) = list.split_at(list.len() / 2);
            let (Ok(at), mut buffer) = built(given, first) else {
                return Some("the first part of a list that is built");
            };
            let again = build(&mut buffer, &at, rest, text);
            return (again.as_ref() != Ok(left) || buffer != after).then_some("a list that is built in two parts");
        }
        Err(refused) => refused,
    };
    if before != after {
        return Some("a refused list changes no byte");
    }
    if matches!(refused.number, 2 | 21) {
        return (refused.rank != 0).then_some("2 and 21 have rank 0");
    }
    let rank = refused.rank as usize;
    if built(given, &list[..=rank]).0 != Err(*refused) {
        return Some("those behind a refused request are not looked at");
    }
    let (Ok(at), buffer) = built(given, &list[..rank]) else {
        return Some("those before a refused request are built");
    };
    let single = |data: &[u8]| next(&mut buffer.clone(), &at, &list[rank].with(data)).err().unwrap_or(0);
    match list[rank].data(text) {
        Some(data) => (single(data) != refused.number).then_some("a single call refuses the request"),
        None => {
            let texts: [&[u8]; 5] = [b"", b"\x01A", b"\x01A\0\0", b"\0\0\0\x01", b"\0\0\0\x01\0\0\0\x02"];
            let numbers = texts.map(single);
            let early = |number: &u64| matches!(number, 6 | 7 | 10 | 8);
            let agree = match refused.number {
                9 => !numbers.iter().any(early),
                number => numbers.iter().all(|other| *other == number) && early(&number),
            };
            (!agree).then_some("bad bounds stand in 9's place")
        }
    }
}
