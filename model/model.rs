//! The model as a program of its own, without an archive.
//!   model check FILE   the check's number, and the count of units or the offset
//!   model explain FILE why it is refused, in numbers: the check's number and offset; how many units are open, id and start
//!                      of each; how many ids may stand there, and these
//!   model list FILE    what the listing program writes
//!   model levels FILE  start, depth and rank of each unit, of a refused stream of those before the fault
//!   model states FILE  start, depth and id of each unit that the table reader hands out, and the row of what is around it before
//!                      and after; then 'end', or number, offset, the row that counts there and the ids that it admits
//!   model lookup FIRST SECOND TEMPLATE KEY_ID KEY FIELD
//!                      which value counts in two files, in numbers: number, offset, which file, start and length; names
//!                      with their count byte and keys are written as pairs of hexadecimal digits
//!   model rescue FILE ROOM
//!                      what can be rescued, in numbers: number, the group's length, how many runs, and first byte and byte
//!                      after the last of each
//!   model resolve FILE ROOM
//!                      which template each entity key means, in numbers, into a list of so many: number, offset, how many
//!                      ranks, and these
//!   model inputs       the stored cases of the check, as cdf_check_cases reads them
//!   model answers      the check's answer to each
//!   model build-inputs the stored cases of the builder, as cdf_builder_cases reads them
//!   model build-answers
//!                      what that program is to write
//!   model header-calls calls through the headers for C, as gate/header/main.c reads them
//!   model header-answers
//!                      what that program is to write

use cdf_model::build_cases::build_cases;
use cdf_model::build_run::BuildCase;
use cdf_model::explain::{explain, Explanation};
use cdf_model::lookup::{lookup, Asked, Found};
use cdf_model::numbers::state_number;
use cdf_model::reader::{Call, Place};
use cdf_model::rescue::{rescue, Rescued};
use cdf_model::resolve::{resolve, Resolved};
use cdf_model::rules::Handed;
use cdf_model::units::{handed, list};
use cdf_model::{cases, check, header, samples, table};
use std::fs::File;
use std::io::{self, Read, Write};

fn answer(stream: &[u8]) -> String {
    match check::check(stream) {
        Ok(units) => format!("0 {units}"),
        Err(refusal) => format!("{} {}", refusal.number, refusal.offset),
    }
}

fn written(numbers: &[u64]) -> String {
    numbers.iter().map(u64::to_string).collect::<Vec<_>>().join(" ")
}

fn told(stream: &[u8]) -> String {
    let Explanation { number, offset, open, ids, .. } = explain(stream);
    let mut numbers = vec![number, offset, open.len() as u64];
    numbers.extend(open.iter().flat_map(|unit| [unit.id, unit.start]));
    numbers.push(ids.len() as u64);
    numbers.extend(ids);
    written(&numbers)
}

fn levels(stream: &[u8]) -> String {
    let units = handed(&list(stream).units);
    units.iter().map(|one| written(&[one.unit.start, one.depth, one.rank]) + "\n").collect()
}

fn states(stream: &[u8]) -> String {
    let row = |place: &Place, level: usize| place.open.get(level).map_or(0, |unit| state_number(unit.id, unit.had));
    let (mut lines, mut place) = (String::new(), Place::default());
    let mut reply = table::call(Call::First, stream, &place).reply;
    while reply.number == 0 {
        let Handed { unit, depth, .. } = reply.handed;
        let rows = match (depth as usize).checked_sub(2) {
            Some(around) => [row(&place, around), row(&reply.place, around)],
            None => [0, row(&reply.place, 0)],
        };
        lines += &(written(&[unit.start, depth, unit.id, rows[0], rows[1]]) + "\n");
        place = reply.place;
        reply = table::call(Call::Next, stream, &place).reply;
    }
    if reply.number == 1 {
        return lines + "end\n";
    }
    let around = explain(stream).open.len().checked_sub(1).map_or(0, |level| row(&place, level));
    let admits = (1..=14).filter(|id| table::table().next[around as usize][*id as usize] != 0);
    lines + &written(&[reply.number, reply.offset, around].into_iter().chain(admits).collect::<Vec<_>>()) + "\n"
}

/// Bytes that are written as pairs of hexadecimal digits.
fn bytes(digits: &str) -> Option<Vec<u8>> {
    let pairs = digits.as_bytes().chunks(2).map(|pair| std::str::from_utf8(pair).ok().filter(|pair| pair.len() == 2));
    pairs.map(|pair| u8::from_str_radix(pair?, 16).ok()).collect()
}

fn asked(template: &str, key_id: &str, key: &str, field: &str) -> Option<Asked> {
    Some(Asked { template: bytes(template)?, key_id: key_id.parse().ok()?, key: bytes(key)?, field: bytes(field)? })
}

fn found(first: &[u8], second: &[u8], asked: &Asked) -> String {
    let Found { number, offset, which, part: (start, length) } = lookup(first, second, asked);
    format!("{number} {offset} {which} {start} {length}")
}

fn rescued(bytes: &[u8], room: u64) -> String {
    let Rescued { number, group, runs } = rescue(bytes, room);
    let mut numbers = vec![number, group.len() as u64, runs.len() as u64];
    numbers.extend(runs.iter().flat_map(|run| [run.0, run.1]));
    written(&numbers)
}

fn resolved(stream: &[u8], room: u64) -> String {
    let Resolved { number, offset, ranks } = resolve(stream, room);
    written(&[&[number, offset, ranks.len() as u64], &ranks[..]].concat())
}

/// The first 65,536 bytes: one more than a stream may have.
fn read(path: &str) -> io::Result<Vec<u8>> {
    let mut bytes = Vec::new();
    File::open(path)?.take(65_536).read_to_end(&mut bytes)?;
    Ok(bytes)
}

fn main() -> io::Result<()> {
    for (label, bytes, owed) in samples::samples() {
        assert_eq!(check::check(&bytes), owed, "{label}");
    }
    let words: Vec<String> = std::env::args().skip(1).collect();
    let words: Vec<&str> = words.iter().map(String::as_str).collect();
    let text = match words[..] {
        ["check", path] => answer(&read(path)?) + "\n",
        ["explain", path] => told(&read(path)?) + "\n",
        ["list", path] => check::listing(&read(path)?),
        ["levels", path] => levels(&read(path)?),
        ["states", path] => states(&read(path)?),
        ["lookup", first, second, template, key_id, key, field] => match asked(template, key_id, key, field) {
            Some(asked) => found(&read(first)?, &read(second)?, &asked) + "\n",
            None => usage(),
        },
        // All bytes: there may be more than a stream has.
        ["rescue", path, room] => match room.parse() {
            Ok(room) => rescued(&std::fs::read(path)?, room) + "\n",
            Err(_) => usage(),
        },
        ["resolve", path, room] => match room.parse() {
            Ok(room) => resolved(&read(path)?, room) + "\n",
            Err(_) => usage(),
        },
        ["inputs"] => lines(|bytes| ":".to_string() + &cases::written(bytes)),
        ["answers"] => lines(|bytes| " ".to_string() + &answer(bytes)),
        ["build-inputs"] => build_cases().iter().map(BuildCase::input).collect(),
        ["build-answers"] => build_cases().iter().map(BuildCase::answer).collect(),
        ["header-calls"] => header::lines().calls,
        ["header-answers"] => header::lines().owed,
        _ => usage(),
    };
    io::stdout().write_all(text.as_bytes())
}

fn usage() -> ! {
    eprintln!("usage: model check FILE | explain FILE | list FILE | levels FILE | states FILE");
    eprintln!("       model rescue FILE ROOM | resolve FILE ROOM");
    eprintln!("       model lookup FIRST SECOND TEMPLATE KEY_ID KEY FIELD");
    eprintln!("       model inputs | answers | build-inputs | build-answers | header-calls | header-answers");
    std::process::exit(2);
}

/// A line for each case: its label, and what is said of its bytes.
fn lines(said: impl Fn(&[u8]) -> String) -> String {
    let line = |(label, bytes): &cases::Case| format!("{label}{}\n", said(bytes));
    cases::cases().iter().map(line).collect()
}
