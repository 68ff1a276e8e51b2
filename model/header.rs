//! Calls through the headers of include/: each a line that the program gate/header/main.c reads, and the line that it owes. Both
//! are in the names of the headers' constants, so that a constant with a wrong number makes a difference.

use crate::batch::UNIT;
use crate::build_cases::build_cases;
use crate::build_list::MOST;
use crate::build_list_samples::build_lists;
use crate::build_run::{BuildCase, Step, UNWRITTEN};
use crate::builder::{add_stream, finish, next, start};
use crate::cases::{cases, unit};
use crate::check::{check, listing};
use crate::explain::explain;
use crate::header_lists::{build_list, placed, SIZES};
use crate::header_names::{
    action, building, call_name, code, hex, id, number, parts, place, sum, table_name, unit_parts,
};
use crate::lookup::lookup;
use crate::lookup_samples::lookups;
use crate::numbers::{
    batch, builder_place, explanation, listed, of_builder_place, rescued, BatchNumbers, BuilderNumbers,
    ExplanationNumbers, FoundNumbers, ReaderNumbers, RescueNumbers, ResolveNumbers, CODES,
};
use crate::random::Random;
use crate::reader::{call, Call, Place, Reply};
use crate::rescue::rescue;
use crate::rescue_samples::rescues;
use crate::resolve::resolve;
use crate::resolve_samples::resolves;
use crate::table;

/// The version of the numbers.
const VERSION: u64 = 2;
/// Room for any listing: as many units as 65,535 bytes can have, 19 bytes a line, and 9 for the last.
const ROOM: usize = 65_535 / 6 * 19 + 9;
const ANSWER: [&str; 10] =
    ["OFFSET", "ID", "ACTION", "START", "OWN_END", "END", "PART_START", "PART_LENGTH", "DEPTH", "RANK"];
const ENTRY: [&str; 11] =
    ["NUMBER", "OFFSET", "PART_START", "PART_LENGTH", "ID", "ACTION", "START", "OWN_END", "END", "DEPTH", "RANK"];

/// The lines that are read, and those that are owed.
#[derive(Default)]
pub struct Lines {
    pub calls: String,
    pub owed: String,
}

impl Lines {
    pub fn given(&mut self, line: &str) {
        self.calls += line;
        self.calls.push('\n');
    }

    /// The line owed begins with the function's name and the number.
    pub fn call(&mut self, line: &str, number: &str, owed: &str) {
        self.given(line);
        let function = line.split(' ').next().unwrap_or(line);
        self.owed += &format!("{function} {number}{owed}\n");
    }
}

pub fn lines() -> Lines {
    let (mut lines, mut random, mut place) = (Lines::default(), Random::new(1), Place::default());
    let largest = unit(13, &[&unit(14, &[]).repeat(10_920), &unit(14, &[b"xyz"])]);
    constants(&mut lines);
    for (_, stream) in cases() {
        read(&mut lines, &stream, &mut place, &mut random);
    }
    lines.given(&format!("stream {}", hex(&largest)));
    let length = listing(&largest).len();
    list(&mut lines, &largest, "CDF_LISTING_ROOM", ROOM);
    list(&mut lines, &largest, &(length - 1).to_string(), length - 1);
    for (_, [first, second], asked, _) in lookups() {
        let found = lookup(&first, &second, &asked);
        let words =
            [hex(&first), hex(&second), hex(&asked.template), id(asked.key_id), hex(&asked.key), hex(&asked.field)];
        let owed = format!(
            " CDF_LOOKUP_OFFSET={} CDF_LOOKUP_WHICH={} CDF_LOOKUP_START={} CDF_LOOKUP_LENGTH={}",
            found.offset, found.which, found.part.0, found.part.1
        );
        lines.call(&format!("cdf_lookup {}", words.join(" ")), number(found.number), &owed);
    }
    for (_, bytes, room, _) in rescues() {
        save(&mut lines, &bytes, room.min(100_000) as usize);
    }
    for (_, stream, room, _) in resolves() {
        ranks(&mut lines, &stream, room as usize);
    }
    for case in build_cases() {
        build(&mut lines, &case);
    }
    for sample in build_lists() {
        build_list(&mut lines, &sample);
    }
    lines
}

/// The lengths of arrays are those of the model's.
fn constants(lines: &mut Lines) {
    fn count<T>() -> usize {
        size_of::<T>() / size_of::<u64>()
    }
    let owed = [
        ("EXPLAIN_NUMBERS", count::<ExplanationNumbers>()),
        ("LOOKUP_NUMBERS", count::<FoundNumbers>()),
        ("RESCUE_NUMBERS", count::<RescueNumbers>()),
        ("RESOLVE_NUMBERS", count::<ResolveNumbers>()),
        ("PLACE_NUMBERS", count::<ReaderNumbers>()),
        ("ANSWER_NUMBERS", ANSWER.len()),
        ("ENTRY_NUMBERS", ENTRY.len()),
        ("UNIT_NUMBERS", UNIT),
        ("UNITS_NUMBERS", count::<BatchNumbers>()),
        ("BUILD_PLACE_NUMBERS", count::<BuilderNumbers>()),
        ("LISTING_ROOM", ROOM),
        ("REQUESTS_MOST", MOST),
    ];
    let owed: String = owed.iter().map(|(name, value)| format!(" CDF_{name}={value}")).collect::<String>() + SIZES;
    lines.call("cdf_version", &VERSION.to_string(), &format!(" CDF_VERSION={VERSION}{owed}"));
}

/// All that is asked of one stream. The first calls of some are on the place that another left.
fn read(lines: &mut Lines, stream: &[u8], at: &mut Place, random: &mut Random) {
    lines.given(&format!("stream {}", hex(stream)));
    let (refused, value) = check(stream).map_or_else(|refusal| (refusal.number, refusal.offset), |units| (0, units));
    lines.call("cdf_check", number(refused), &format!(" {value}"));
    told(lines, stream);
    let room = listing(stream).len() + 1 - random.below(3);
    list(lines, stream, &room.to_string(), room);
    let mut calls = vec![Call::Next; random.between(2, 24)];
    for which in [Call::Skip, Call::Skip, Call::GetStream, Call::Previous] {
        let index = random.below(calls.len());
        calls[index] = which;
    }
    if !random.one_in(8) {
        calls.insert(0, Call::First);
    }
    replay(lines, "cdf_replay", &call, stream, &calls, random);
    // The table reader has the first three calls, and others end its run.
    let by_table = |which, stream: &[u8], at: &Place| table::call(which, stream, at).reply;
    replay(lines, "cdf_table_replay", &by_table, stream, &calls, random);
    let tabled: Vec<Call> = calls.iter().copied().filter(|which| CODES[..3].contains(which)).collect();
    if random.one_in(8) {
        calls.push(Call::AbnormalEnd);
        calls.push(random.pick(&CODES));
    }
    for which in calls {
        step(lines, call_name(which), call(which, stream, at), at);
        if random.one_in(6) {
            many(lines, stream, at, random);
        }
    }
    for which in tabled {
        step(lines, &table_name(which), by_table(which, stream, at), at);
    }
}

/// A call that is answered so, and the place that it leaves.
fn step(lines: &mut Lines, name: &str, reply: Reply, at: &mut Place) {
    let owed = parts("ANSWER", &reply, ANSWER) + &left(reply.number, &reply.place);
    lines.call(name, number(reply.number), &owed);
    *at = reply.place;
}

/// What a call leaves of its place.
fn left(refused: u64, left: &Place) -> String {
    match left {
        empty if *empty == Place::default() => " zeros".to_string(),
        _ if refused != 0 => " stays".to_string(),
        new => place(new),
    }
}

/// Many units in a call, into a list that is long enough or not.
fn many(lines: &mut Lines, stream: &[u8], at: &mut Place, random: &mut Random) {
    let mut list = vec![0; random.below(UNIT * 4)];
    let (made, [offset, count]) = batch(stream, at, &mut list);
    let units: String = made.units.iter().map(unit_parts).collect();
    let owed = format!(" CDF_UNITS_OFFSET={offset} CDF_UNITS_COUNT={count}{units}{}", left(made.number, &made.place));
    lines.call(&format!("cdf_units {}", list.len()), number(made.number), &owed);
    *at = made.place;
}

fn told(lines: &mut Lines, stream: &[u8]) {
    let told = explain(stream);
    let [offset, count, others @ ..] = explanation(&told);
    let (units, choices, ids) = (&others[..8], others[8], &others[9..]);
    let units: String = units.chunks(2).map(|unit| format!("{},{},", id(unit[0]), unit[1])).collect();
    let ids: String = ids.iter().map(|one| id(*one) + ",").collect();
    let owed = format!(
        " CDF_EXPLAIN_OFFSET={offset} CDF_EXPLAIN_COUNT={count} CDF_EXPLAIN_UNITS={units} CDF_EXPLAIN_CHOICES={choices} \
         CDF_EXPLAIN_IDS={ids}"
    );
    lines.call("cdf_explain", number(told.number), &owed);
}

/// A rescue into a buffer of so many bytes.
fn save(lines: &mut Lines, bytes: &[u8], room: usize) {
    let saved = rescue(bytes, room as u64);
    let [length, count, runs @ ..] = rescued(&saved);
    let mut out = vec![UNWRITTEN; room];
    out[..saved.group.len()].copy_from_slice(&saved.group);
    let runs: String = runs.iter().map(|number| format!(",{number}")).collect();
    let owed = format!(" CDF_RESCUE_LENGTH={length} CDF_RESCUE_COUNT={count} CDF_RESCUE_RUNS={runs}{}", sum(&out));
    lines.given(&format!("stream {}", hex(bytes)));
    lines.call(&format!("cdf_rescue {room}"), number(saved.number), &owed);
}

/// A resolving into a list of so many numbers.
fn ranks(lines: &mut Lines, stream: &[u8], room: usize) {
    let resolved = resolve(stream, room as u64);
    let ranks: String = resolved.ranks.iter().map(|rank| format!(",{rank}")).collect();
    let (offset, count) = (resolved.offset, resolved.ranks.len());
    lines.given(&format!("stream {}", hex(stream)));
    let owed = format!(" CDF_RESOLVE_OFFSET={offset} CDF_RESOLVE_COUNT={count}{ranks}");
    lines.call(&format!("cdf_resolve {room}"), number(resolved.number), &owed);
}

/// The listing with so much room, as the line says it.
fn list(lines: &mut Lines, stream: &[u8], word: &str, room: usize) {
    let mut text = vec![UNWRITTEN; room];
    let (done, length) = listed(stream, &mut text);
    lines.call(&format!("cdf_listing {word}"), number(done), &format!(" {length}{}", sum(&text)));
}

type Answers<'a> = &'a dyn Fn(Call, &[u8], &Place) -> Reply;

/// The codes, sometimes with one that is none, in a log that is long enough or not. By either reader.
fn replay(lines: &mut Lines, name: &str, call: Answers, stream: &[u8], calls: &[Call], random: &mut Random) {
    let mut codes: Vec<String> = calls.iter().map(|which| code(*which)).collect();
    let mut known = calls;
    if random.one_in(4) {
        let index = random.below(codes.len());
        codes[index] = random.pick(&[0, 6, 255]).to_string();
        known = &calls[..index];
    }
    if name != "cdf_replay" {
        known = &known[..known.iter().position(|which| !CODES[..3].contains(which)).unwrap_or(known.len())];
    }
    let entries = codes.len() + 1 - random.below(3);
    let line = format!("{name} {entries} {} {}", codes.len(), codes.join(" "));
    if entries < codes.len() {
        return lines.call(&line, number(12), " 0");
    }
    let mut at = Place::default();
    let mut owed = format!(" {}", known.len());
    for which in known {
        let reply: Reply = call(*which, stream, &at);
        owed += &parts("ENTRY", &reply, ENTRY);
        at = reply.place;
    }
    lines.call(&line, number(0), &owed);
}

/// A stored case of the builder, with the whole buffer and the place after each call.
fn build(lines: &mut Lines, case: &BuildCase) {
    let (mut buffer, mut at): (_, BuilderNumbers) = (vec![UNWRITTEN; case.size], [0; 10]);
    lines.given(&format!("buffer {}", case.size));
    for step in &case.steps {
        let (line, length, built) = match step {
            Step::Start(root) => {
                at = [0; 10];
                (format!("cdf_build_first {}", id(*root)), None, start(&mut buffer, *root))
            }
            Step::Next(asked) => {
                let line = format!("cdf_build_next {} {} {}", id(asked.id), action(asked.action), hex(&asked.data));
                (line, None, next(&mut buffer, &builder_place(&at), asked))
            }
            Step::Add(group) => (
                format!("cdf_build_add_stream {}", hex(group)),
                None,
                add_stream(&mut buffer, &builder_place(&at), group),
            ),
            Step::Finish => {
                let place = builder_place(&at);
                let said = finish(&buffer, &place);
                ("cdf_build_finish".to_string(), Some(said.unwrap_or(0)), said.map(|_| place))
            }
            Step::Place(numbers) => {
                at = *numbers;
                lines.given(&placed(&at));
                continue;
            }
        };
        let refused = built.as_ref().err().copied().unwrap_or(0);
        let length = length.map_or(String::new(), |length| format!(" {length}"));
        let left = match &built {
            Ok(place) => building(place),
            Err(_) if at == [0; 10] => " zeros".to_string(),
            Err(_) => " stays".to_string(),
        };
        lines.call(&line, number(refused), &(length + &sum(&buffer) + &left));
        // After a finish the place is the one that it was, also where the count does not reach.
        if let (Ok(place), false) = (built, matches!(step, Step::Finish)) {
            at = of_builder_place(&place);
        }
    }
}
