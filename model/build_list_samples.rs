//! Lists of requests, whose answers are worked out by hand.

use crate::build_list::Listed;
use crate::cases::{unit, unit_with};
use crate::numbers::BuilderNumbers;
use crate::samples::K2;

pub struct ListSample {
    pub label: &'static str,
    /// How many bytes the buffer has, and those at its front before the call.
    pub size: usize,
    pub front: Vec<u8>,
    pub place: BuilderNumbers,
    pub list: Vec<Listed>,
    pub text: &'static [u8],
    /// The place and the buffer's front afterwards, or number and rank.
    pub owed: Result<(BuilderNumbers, Vec<u8>), (u64, u64)>,
}

/// MERGE stands from 0 to 6, PERSON to 13, a number to 17, SURNAME with its value to 28; the value begins at 25.
const TEXT: &[u8] = b"\x05MERGE\x06PERSON\0\0\0\x01\x07SURNAME\xC3\x85s";

const fn asked(id: u64, action: u64, begin: u64, end: u64) -> Listed {
    Listed { id, action, begin, end }
}

const MERGE: Listed = asked(2, 0, 0, 6);
const PERSON: Listed = asked(5, 1, 6, 13);
const KEY: Listed = asked(6, 0, 13, 17);
const SURNAME: Listed = asked(8, 1, 17, 28);
/// A line of three bytes, in a unit of nine.
const LINE: Listed = asked(14, 0, 25, 28);

/// Bytes written, and state and start of each open unit: the innermost first, then the others from the root inwards.
const fn place(written: u64, open: &[(u64, u64)]) -> BuilderNumbers {
    let mut numbers = [0; 10];
    (numbers[0], numbers[1]) = (written, open.len() as u64);
    let mut slot = 0;
    while slot < open.len() {
        (numbers[2 + 2 * slot], numbers[3 + 2 * slot]) = open[slot];
        slot += 1;
    }
    numbers
}

/// The states of an E/R group, a file group and an EDMM stream after a start, each as the only open unit.
const GROUP: BuilderNumbers = place(6, &[(5, 0)]);
const FILE: BuilderNumbers = place(6, &[(8, 0)]);
const STREAM: BuilderNumbers = place(6, &[(1, 0)]);
/// A file group with lines that is full to the last byte, and one with room for nine bytes more.
const FULL: BuilderNumbers = place(65_535, &[(9, 0)]);
const NEARLY_FULL: BuilderNumbers = place(65_526, &[(9, 0)]);

/// After a start with this root.
fn one(label: &'static str, size: usize, place: BuilderNumbers, list: &[Listed], owed: Owed) -> ListSample {
    let root = [(GROUP, 4), (FILE, 13), (STREAM, 1)].iter().find(|root| root.0 == place).map(|root| root.1);
    let front = root.map_or(vec![], |id| unit_with(id, 0, &[]));
    let front = front[..front.len().min(size)].to_vec();
    ListSample { label, size, front, place, list: list.to_vec(), text: TEXT, owed }
}

type Owed = Result<(BuilderNumbers, Vec<u8>), (u64, u64)>;

pub fn build_lists() -> Vec<ListSample> {
    let root = |id| unit_with(id, 0, &[]);
    let k2_place = place(46, &[(17, 6), (6, 0)]);
    let k2 = || Ok((k2_place, K2.to_vec()));
    let lines = |count: usize| unit(13, &[&unit(14, &[b"\xC3\x85s"]).repeat(count)]);
    let lined = |count: usize| Ok((place(6 + 9 * count as u64, &[(9, 0)]), lines(count)));
    let bad = |begin, end| asked(6, 0, begin, end);
    let call = unit(2, &[b"\x05MERGE"]);
    let with_group = unit(1, &[&call, &root(4)]);
    let empty_line = unit(13, &[&unit(14, &[])]);
    let mut rows = vec![
        one("K2 in one list", 46, GROUP, &[PERSON, KEY, SURNAME], k2()),
        one("K2, and room is left", 60, GROUP, &[PERSON, KEY, SURNAME], k2()),
        one("K2, a byte too little", 45, GROUP, &[PERSON, KEY, SURNAME], Err((12, 2))),
        one("no room at all", 6, GROUP, &[PERSON, KEY, SURNAME], Err((12, 0))),
        one("a second temporary key", 60, GROUP, &[PERSON, KEY, KEY, SURNAME], Err((7, 2))),
        one("the person twice, once without a key", 60, GROUP, &[PERSON, PERSON], Err((10, 1))),
        one("a field before the key", 60, GROUP, &[PERSON, SURNAME, KEY], Err((7, 1))),
        one("no unit of this id", 60, GROUP, &[PERSON, asked(15, 0, 13, 17)], Err((6, 1))),
        one("an id that is 6 in its last byte", 60, GROUP, &[PERSON, asked(262, 0, 13, 17)], Err((6, 1))),
        one("a key to be created", 60, GROUP, &[PERSON, asked(6, 1, 13, 17)], Err((8, 1))),
        one("an action that is 0 in its last byte", 60, GROUP, &[PERSON, asked(6, 256, 13, 17)], Err((8, 1))),
        one("a key of three bytes", 60, GROUP, &[PERSON, asked(6, 0, 13, 16)], Err((9, 1))),
        one("a key without bytes", 60, GROUP, &[PERSON, asked(6, 0, 13, 13)], Err((9, 1))),
        one("a name with the wrong count", 60, GROUP, &[asked(5, 1, 0, 5)], Err((9, 0))),
        one("the first of two that are wrong", 60, GROUP, &[PERSON, bad(13, 29), asked(15, 0, 0, 0)], Err((9, 1))),
        // Bounds that are outside or cross. The text has 28 bytes.
        one("the bounds cross", 60, GROUP, &[PERSON, bad(17, 13)], Err((9, 1))),
        one("the bounds cross by one", 60, GROUP, &[PERSON, bad(14, 13)], Err((9, 1))),
        one("the end is one past the text", 60, GROUP, &[PERSON, bad(25, 29)], Err((9, 1))),
        one("the end is as large as a number can be", 60, GROUP, &[PERSON, bad(13, u64::MAX)], Err((9, 1))),
        one("both are past the text", 60, GROUP, &[PERSON, bad(29, 33)], Err((9, 1))),
        one("both are far past the text", 60, GROUP, &[PERSON, bad(u64::MAX - 4, u64::MAX)], Err((9, 1))),
        one("the beginning alone is past the text", 60, GROUP, &[PERSON, bad(29, 28)], Err((9, 1))),
        one("right in their low 32 bits", 60, GROUP, &[PERSON, bad((1 << 32) + 13, (1 << 32) + 17)], Err((9, 1))),
        one("at the end, and a key has bytes", 60, GROUP, &[PERSON, bad(28, 28)], Err((9, 1))),
        one("crossed, of an unknown id", 60, GROUP, &[PERSON, asked(15, 1, 17, 13)], Err((6, 1))),
        one("crossed, of a line", 60, GROUP, &[PERSON, asked(14, 0, 17, 13)], Err((7, 1))),
        one("crossed, of a template", 60, GROUP, &[PERSON, asked(5, 1, 17, 13)], Err((10, 1))),
        one("crossed, with a wrong action", 60, GROUP, &[PERSON, asked(6, 1, 17, 13)], Err((8, 1))),
        one("crossed, and no room", 6, GROUP, &[asked(5, 1, 13, 6)], Err((9, 0))),
        one("past the text, and the stream is full", 65_535, FULL, &[asked(14, 0, 28, 29)], Err((9, 0))),
        // Units that have no own data, or may have none.
        one(
            "an empty line at the text's end",
            12,
            FILE,
            &[asked(14, 0, 28, 28)],
            Ok((place(12, &[(9, 0)]), empty_line)),
        ),
        one("an empty line one past the text", 12, FILE, &[asked(14, 0, 29, 29)], Err((9, 0))),
        one(
            "a group at the text's end",
            24,
            STREAM,
            &[MERGE, asked(4, 0, 28, 28)],
            Ok((place(24, &[(5, 18), (3, 0)]), with_group)),
        ),
        one("a group past the text", 24, STREAM, &[MERGE, asked(4, 0, 28, 29)], Err((9, 1))),
        one("a group with own data", 60, STREAM, &[MERGE, asked(4, 0, 27, 28)], Err((9, 1))),
        // The place, the limit and the length of the list.
        one("no request", 6, GROUP, &[], Ok((GROUP, root(4)))),
        one("no request, at a full stream", 65_535, FULL, &[], Ok((FULL, vec![]))),
        one("no request, and a buffer too short", 5, GROUP, &[], Err((2, 0))),
        one("no request, at the empty place", 60, [0; 10], &[], Err((2, 0))),
        one("K2, at the empty place", 60, [0; 10], &[PERSON, KEY, SURNAME], Err((2, 0))),
        one("wrong, where the place does not fit", 5, GROUP, &[asked(15, 0, 2, 1)], Err((2, 0))),
        one("a line at a full stream", 70_000, FULL, &[LINE], Err((13, 0))),
        one("a line at a full stream and a full buffer", 65_535, FULL, &[LINE], Err((13, 0))),
        one("two lines, room for one", 70_000, NEARLY_FULL, &[LINE, LINE], Err((13, 1))),
        one("511 lines", 6_000, FILE, &[LINE; 511], lined(511)),
        one("512 lines", 6_000, FILE, &[LINE; 512], lined(512)),
        one("512 lines, exact room", 4_614, FILE, &[LINE; 512], lined(512)),
        one("512 lines, a byte too little", 4_613, FILE, &[LINE; 512], Err((12, 511))),
        one("513 lines", 6_000, FILE, &[LINE; 513], Err((21, 0))),
        one("513 unknown ids", 6_000, FILE, &[asked(0, 0, 2, 1); 513], Err((21, 0))),
        one("512 unknown ids", 6_000, FILE, &[asked(0, 0, 2, 1); 512], Err((6, 0))),
        one("513 lines, and no room", 6, FILE, &[LINE; 513], Err((21, 0))),
        one("513 lines where the place does not fit", 5, FILE, &[LINE; 513], Err((2, 0))),
    ];
    let mut last_wrong = vec![LINE; 511];
    last_wrong.push(asked(14, 0, 28, 27));
    rows.push(one("511 lines, and the last one's bounds cross", 6_000, FILE, &last_wrong, Err((9, 511))));
    // The number 1 begins with three zeros: its own data overlap, and come from the text in no order.
    let text = b"\0\0\0\0\x01\x01P";
    let list = vec![
        asked(5, 1, 5, 7),
        asked(7, 0, 0, 4),
        asked(7, 0, 1, 5),
        asked(7, 0, 1, 1),
        asked(5, 2, 5, 7),
        asked(6, 0, 1, 5),
    ];
    let p = |action, keys: &[&[u8]]| unit_with(5, action, &[&[&b"\x01P"[..]], keys].concat());
    let [zero, first, none] = [&b"\0\0\0\0"[..], b"\0\0\0\x01", b""].map(|key| unit(7, &[key]));
    let both = unit(4, &[&p(1, &[&zero, &first, &none]), &p(2, &[&unit(6, &[b"\0\0\0\x01"])])]);
    let owed = Ok((place(both.len() as u64, &[(15, 40), (6, 0)]), both));
    rows.push(ListSample { text, ..one("texts that overlap", 100, GROUP, &list, owed) });
    rows.push(ListSample { text: b"", ..one("no text", 6, GROUP, &[PERSON], Err((9, 0))) });
    let line = Ok((place(12, &[(9, 0)]), unit(13, &[&unit(14, &[])])));
    rows.push(ListSample { text: b"", ..one("no text, and an empty line", 12, FILE, &[asked(14, 0, 0, 0)], line) });
    // A place of no run: a template with its key, in a group, in an EDMM stream; the call closes two of the three.
    let deep = place(40, &[(15, 20), (3, 0), (6, 14)]);
    let closed = unit(2, &[b"\x05MERGE"]);
    let mut bytes = vec![0xEE; 40];
    bytes[2..4].copy_from_slice(&[0, 52]);
    bytes.extend(closed);
    rows.push(one("a call behind a group", 52, deep, &[MERGE], Ok((place(52, &[(11, 40), (2, 0)]), bytes))));
    rows.push(one("a person behind a person", 51, deep, &[PERSON, PERSON], Err((12, 0))));
    rows
}
