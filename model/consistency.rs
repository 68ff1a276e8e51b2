//! The model against itself: what document 01 says of whole runs holds of it, by ways that share little code.

use crate::keys;
use crate::pointed;
use crate::readers::hex;
use crate::tally::Tally;
use cdf_model::builder::{self, requests, Request};
use cdf_model::cases;
use cdf_model::check::check;
use cdf_model::explain::{explain, Explanation};
use cdf_model::numbers::CODES;
use cdf_model::plain::Plain;
use cdf_model::random::Random;
use cdf_model::reader::{call, Call, Place, Reply};
use cdf_model::rules::{complete, Handed, Refusal, Unit, LIMIT};
use cdf_model::streams::{gone_on, Tree};
use cdf_model::table;
use cdf_model::units::{handed, list};

fn expect(tally: &Tally, holds: bool, what: &str, stream: &[u8]) {
    if !holds {
        tally.differ(what, &hex(stream), "(not asked)", "does not agree with itself");
    }
}

/// The unit list, the check and the reader; and the tree, if the stream was grown from one.
pub fn stream(tally: &mut Tally, stream: &[u8], tree: Option<&Tree>, random: &mut Random) {
    let listed = list(stream);
    let answer = match listed.fault {
        None => Ok(listed.units.len() as u64),
        Some(fault) => Err(fault),
    };
    expect(tally, check(stream) == answer, "check and unit list", stream);
    expect(tally, listed.units.len() <= stream.len() / 6, "at most n / 6 units", stream);
    let end = listed.fault.map_or((1, 0), |fault| (fault.number, fault.offset));
    let mut reply = call(Call::First, stream, &Place::default());
    let ranked = handed(&listed.units);
    expect(tally, ranked.iter().all(|one| one.rank * 6 <= one.unit.start), "ranks and starts", stream);
    for one in &ranked {
        let handed_out = (reply.number, reply.offset, reply.handed) == (0, 0, *one);
        expect(tally, handed_out, "units that start and NEXT hand out", stream);
        reply = call(Call::Next, stream, &reply.place);
    }
    expect(tally, (reply.number, reply.offset) == end, "the end of reading", stream);
    let owed = if listed.units.is_empty() { (11, 0) } else { end };
    let again = call(Call::Next, stream, &reply.place);
    expect(tally, (again.number, again.offset) == owed, "NEXT after the end", stream);
    explained(tally, stream, &reply.place, random);
    if answer.is_ok() {
        expect(tally, keys::of_one_kind(&listed.units), "keys of one kind in each template and entity key", stream);
        let broken = keys::one_more(stream, &listed.units, random);
        expect(tally, broken.is_none(), broken.unwrap_or_default(), stream);
    }
    if let Some(tree) = tree {
        let same = answer.is_ok() && tree.requests() == requests(stream);
        expect(tally, same, "a tree of the grammar and its reading", stream);
        let read: Vec<(u64, u64)> = ranked.iter().map(|one| (one.depth, one.rank)).collect();
        expect(tally, read == tree.levels(1, 0), "depths and ranks in a tree and in its reading", stream);
        expect(tally, rebuilt(&tree.requests()).as_deref() == Some(stream), "building a tree", stream);
    }
    tally.count("streams on which the model agrees with itself");
}

/// What is told of a stream, against the check, and against the place at which the reader met the fault.
fn explained(tally: &mut Tally, stream: &[u8], place: &Place, random: &mut Random) {
    let told = explain(stream);
    let Err(refusal) = check(stream) else {
        return expect(tally, told == Explanation::default(), "nothing is told of an accepted stream", stream);
    };
    let same = (told.number, told.offset) == (refusal.number, refusal.offset);
    expect(tally, same, "explanation and check", stream);
    let inside = |pair: &[Unit]| pair[0].own <= pair[1].start && pair[1].end <= pair[0].end;
    expect(tally, told.open.windows(2).all(inside), "each open unit in the one before", stream);
    expect(tally, told.number != 10 || !told.ids.is_empty(), "what an incomplete unit takes", stream);
    let stands = match (told.number, told.open.last()) {
        (10, incomplete) => incomplete.is_some_and(|unit| (unit.start, unit.end) == (told.offset, place.position)),
        (9, _) => told.at == place.position,
        _ => told.offset == place.position,
    };
    expect(tally, stands, "where the refused unit stands", stream);
    if told.number == 9 {
        let broken = pointed::broken(stream, &told, random);
        expect(tally, broken.is_none(), broken.unwrap_or_default(), stream);
    }

    let mut left = place.open.clone();
    while left.pop_if(|unit| unit.end == place.position && complete(unit.id, unit.had)).is_some() {}
    let open = told.open.iter().map(|unit| (unit.id, unit.start, unit.end));
    let same = open.eq(left.iter().map(|unit| (unit.id, unit.start, unit.end)));
    expect(tally, same, "open units and the reader's place", stream);
    tally.closed(place.open.len() - left.len());

    // A small unit of each id, where the refused one stands or after all that the incomplete one has had, and nothing after
    // it. If the id was told the check passes it, though a unit around it may still be incomplete; else it gets 7.
    let at = place.position;
    for id in 1..=14 {
        let tried = gone_on(&stream[..at as usize], &told.open, &cases::complete(id as u8));
        let holds = match (check(&tried), told.ids.contains(&id)) {
            _ if tried.len() as u64 > LIMIT => continue,
            (Ok(_), listed) => listed,
            (Err(refusal), true) => refusal.number == 10 && told.open.iter().any(|unit| unit.start == refusal.offset),
            (Err(refusal), false) => refusal == Refusal { number: 7, offset: at },
        };
        expect(tally, holds, "ids and the check of such units", stream);
    }
}

/// On an accepted stream the reader with places answers a list of calls, begun by a start, as the plain reader does; parts
/// are accepted streams.
pub fn plain(tally: &mut Tally, stream: &[u8], codes: &[u8]) {
    let units: Vec<Handed> = handed(&list(stream).units);
    let mut plain = Plain::new(&units);
    let mut place = Place::default();
    for code in codes {
        let which = CODES[usize::from(*code) - 1];
        let reply = call(which, stream, &place);
        let Reply { number, offset, handed, part, .. } = reply;
        let same = (number, handed, part) == plain.call(which) && offset == 0;
        expect(tally, same, "the plain reader", stream);
        if which == Call::GetStream && number == 0 {
            let part = &stream[part.0 as usize..(part.0 + part.1) as usize];
            expect(tally, check(part).is_ok(), "a part is an accepted stream", stream);
        }
        place = reply.place;
    }
    tally.count("lists of calls answered as by the plain reader");
}

/// The reader that is driven by a table answers starts, NEXTs and SKIPs as the reader does, each on its own last place.
pub fn tabled(tally: &mut Tally, stream: &[u8], codes: &[u8]) {
    let (mut place, mut stack) = (Place::default(), Place::default());
    for code in codes.iter().filter(|code| **code <= 3) {
        let which = CODES[usize::from(*code) - 1];
        let one = table::call(which, stream, &stack).reply;
        let other = call(which, stream, &place);
        let same =
            (one.number, one.offset, one.handed, one.part) == (other.number, other.offset, other.handed, other.part);
        expect(tally, same && one.place == other.place, "the reader by a table", stream);
        (stack, place) = (one.place, other.place);
    }
    tally.count("lists of calls that the model answers by a table");
}

/// The bytes that a builder makes of these requests, the first of them the root.
fn rebuilt(requests: &[Request]) -> Option<Vec<u8>> {
    let size = requests.iter().map(|request| 6 + request.data.len()).sum();
    let mut buffer = vec![0xAA; size];
    let mut place = builder::start(&mut buffer, requests[0].id).ok()?;
    for request in &requests[1..] {
        place = builder::next(&mut buffer, &place, request).ok()?;
    }
    let length = builder::finish(&buffer, &place).ok()?;
    (length == size as u64).then_some(buffer)
}

/// After any 0 of a builder: what is written is accepted exactly if finish says so, and else only incomplete; read back
/// it is what was asked for.
pub fn built(tally: &mut Tally, buffer: &[u8], place: &builder::Place, asked: &[Request]) {
    let front = &buffer[..place.written as usize];
    let same = match (builder::finish(buffer, place), check(front)) {
        (Ok(length), Ok(units)) => length == place.written && units == asked.len() as u64,
        (Err(10), Err(refusal)) => refusal.number == 10,
        _ => false,
    };
    expect(tally, same, "finish and check", front);
    let read = requests(front);
    expect(tally, read[..] == asked[..read.len()], "what was built, read back", front);
    tally.count("buffers that the model builds and reads back");
}

/// The bytes of an added group are those of its units built singly.
pub fn added(tally: &mut Tally, buffer: &[u8], place: &builder::Place, group: &[u8]) {
    let (mut whole, mut singly) = (buffer.to_vec(), buffer.to_vec());
    let Ok(closed) = builder::add_stream(&mut whole, place, group) else {
        return;
    };
    let mut open = place.clone();
    for request in requests(group) {
        match builder::next(&mut singly, &open, &request) {
            Ok(next) => open = next,
            Err(_) => expect(tally, false, "units of a group, built singly", group),
        }
    }
    let same = whole == singly && closed.written == open.written;
    expect(tally, same, "a group added and built singly", group);
    let template = Request { id: 5, action: 1, data: b"\x01A".to_vec() };
    let next = builder::next(&mut whole, &closed, &template);
    expect(tally, next == Err(7), "a template after an added group", group);
    tally.count("groups that the model adds and builds singly");
}
