//! The codes that are timed, by part: the first two of a part are plain Rust, inlined and out of line.

use crate::archive::{proved_walk, Archive, Batches, Explanation, Found, Now, Reads, Rescued, ENTRY};
use crate::cases::{Asked, Case, LOOKUPS};
use crate::iterator;
use crate::plain::{check, explain, replay, walk, INLINED, OUT_OF_LINE};
use crate::plain_lookup::lookup;
use crate::plain_rescue::rescue;
use crate::plain_write::{listing, Builder};
use crate::rules::{RANGES, ROW};

/// As many bytes as any listing takes.
pub const LISTING_ROOM: usize = 207_527;

/// What the codes write into.
pub struct Scratch {
    pub explanation: Explanation,
    pub found: Found,
    pub rescued: Rescued,
    pub log: Vec<u64>,
    pub buffer: Vec<u8>,
    pub text: Vec<u8>,
    pub plain_text: Vec<u8>,
}

impl Scratch {
    pub fn new() -> Scratch {
        Scratch {
            explanation: [0; 25],
            found: [0; 4],
            rescued: [0; 130],
            log: vec![0; ENTRY * 11_000],
            buffer: vec![0; 65_535],
            text: vec![0; LISTING_ROOM],
            plain_text: Vec::with_capacity(LISTING_ROOM),
        }
    }
}

/// A code to be timed. It returns something of its result, so that none of it can be left out.
pub struct Code {
    pub name: String,
    pub run: fn(&Case, &mut Scratch) -> u64,
}

pub struct Part {
    pub name: &'static str,
    pub codes: Vec<Code>,
    /// Pairs of codes: the first one's time is also given by that of the second, which is no code to be compared.
    pub by: Vec<(usize, usize)>,
    /// How many bytes of a case the part reads or writes: none if the part is not timed on it.
    pub bytes: fn(&Case) -> usize,
}

fn plain_check<const CALLS: bool>(case: &Case, _: &mut Scratch) -> u64 {
    match check::<CALLS>(&case.stream) {
        Ok(units) => units as u64,
        Err(stop) => stop.number as u64 + stop.offset as u64,
    }
}

fn proved_check<A: Archive>(case: &Case, _: &mut Scratch) -> u64 {
    let mut answer = [0];
    A::check(&case.stream, &mut answer) + answer[0]
}

fn plain_explain<const CALLS: bool>(case: &Case, scratch: &mut Scratch) -> u64 {
    explain::<CALLS>(&case.refused, &mut scratch.explanation)
}

fn proved_explain<A: Archive>(case: &Case, scratch: &mut Scratch) -> u64 {
    A::explain(&case.refused, &mut scratch.explanation)
}

fn refused_check<A: Archive>(case: &Case, _: &mut Scratch) -> u64 {
    let mut answer = [0];
    A::check(&case.refused, &mut answer) + answer[0]
}

fn plain_replay<const CALLS: bool>(case: &Case, scratch: &mut Scratch) -> u64 {
    replay::<CALLS>(&case.stream, &case.calls, &mut scratch.log) as u64
}

pub fn proved_replay<A: Reads>(case: &Case, scratch: &mut Scratch) -> u64 {
    let mut answer = [0];
    A::replay(&case.stream, &case.calls, &mut scratch.log, &mut answer) + answer[0]
}

/// The length of what is built, or the first refusal.
pub fn plain_build<const CALLS: bool>(case: &Case, scratch: &mut Scratch) -> u64 {
    let (root, others) = case.requests.split_first().expect("a stream has a root");
    let built = Builder::first(&mut scratch.buffer, root.id).and_then(|mut builder| {
        for request in others {
            let data = case.data(request);
            if CALLS {
                builder.next_out_of_line(request.id, request.action, data)?;
            } else {
                builder.next(request.id, request.action, data)?;
            }
        }
        builder.finish()
    });
    built.map_or_else(|number| number as u64, |length| length as u64)
}

pub fn proved_build<A: Archive>(case: &Case, scratch: &mut Scratch) -> u64 {
    let (root, others) = case.requests.split_first().expect("a stream has a root");
    let mut place = [0; 10];
    let mut number = A::build_first(&mut scratch.buffer, root.id as u64, &mut place);
    for request in others {
        if number != 0 {
            return number;
        }
        let (id, action) = (request.id as u64, request.action as u64);
        number = A::build_next(&mut scratch.buffer, &mut place, id, action, case.data(request));
    }
    let mut answer = [0];
    match A::build_finish(&scratch.buffer, &place, &mut answer) {
        0 => answer[0],
        number => number,
    }
}

fn plain_listing<const CALLS: bool>(case: &Case, scratch: &mut Scratch) -> u64 {
    listing::<CALLS>(&case.stream, &mut scratch.plain_text);
    scratch.plain_text.len() as u64
}

fn proved_listing<A: Archive>(case: &Case, scratch: &mut Scratch) -> u64 {
    let mut answer = [0];
    A::listing(&case.stream, &mut scratch.text, &mut answer) + answer[0]
}

/// With room for no text the listing is counted, and 12 answered.
fn counted_listing<A: Archive>(case: &Case, scratch: &mut Scratch) -> u64 {
    let mut answer = [0];
    A::listing(&case.stream, &mut scratch.text[..1], &mut answer) + answer[0]
}

/// What the lookups of a case are asked that they are timed on.
#[inline(always)]
fn asked(case: &Case) -> &Asked {
    case.asked.as_ref().expect("a lookup is timed on E/R groups")
}

/// `AT` says where the value stands, by `LOOKUPS`.
fn plain_lookup<const CALLS: bool, const AT: usize>(case: &Case, scratch: &mut Scratch) -> u64 {
    let ([first, second], question) = asked(case).lookup::<AT>(&case.stream);
    lookup::<CALLS>(first, second, &question, &mut scratch.found)
}

fn proved_lookup<A: Archive, const AT: usize>(case: &Case, scratch: &mut Scratch) -> u64 {
    let ([first, second], question) = asked(case).lookup::<AT>(&case.stream);
    A::lookup(first, second, &question, &mut scratch.found)
}

fn both_checks<A: Archive, const AT: usize>(case: &Case, _: &mut Scratch) -> u64 {
    let ([first, second], _) = asked(case).lookup::<AT>(&case.stream);
    let (mut one, mut other) = ([0], [0]);
    A::check(first, &mut one) + A::check(second, &mut other) + one[0] + other[0]
}

fn lookup_bytes<const AT: usize>(case: &Case) -> usize {
    case.asked.as_ref().map_or(0, |asked| asked.lookup::<AT>(&case.stream).0.iter().map(|stream| stream.len()).sum())
}

fn lookup_part<const AT: usize>() -> Part {
    let name = format!("lookup{}", LOOKUPS[AT]);
    let mut part = named("lookup", &name, plain_lookup::<INLINED, AT>, plain_lookup::<OUT_OF_LINE, AT>);
    part.bytes = lookup_bytes::<AT>;
    part
}

fn plain_rescue<const CALLS: bool>(case: &Case, scratch: &mut Scratch) -> u64 {
    rescue::<CALLS>(&case.stream, &mut scratch.buffer, &mut scratch.rescued)
}

fn proved_rescue<A: Archive>(case: &Case, scratch: &mut Scratch) -> u64 {
    A::rescue(&case.stream, &mut scratch.buffer, &mut scratch.rescued)
}

/// The copy of a case that has lost bytes.
#[inline(always)]
fn lost(case: &Case) -> &[u8] {
    case.lost.as_ref().expect("bytes are lost of an E/R group")
}

fn plain_rescue_lost<const CALLS: bool>(case: &Case, scratch: &mut Scratch) -> u64 {
    rescue::<CALLS>(lost(case), &mut scratch.buffer, &mut scratch.rescued)
}

fn proved_rescue_lost<A: Archive>(case: &Case, scratch: &mut Scratch) -> u64 {
    A::rescue(lost(case), &mut scratch.buffer, &mut scratch.rescued)
}

fn version<A: Archive>(parts: &mut [Part; 12]) {
    let lookup = |at: usize| format!("cdf_lookup{}", LOOKUPS[at]);
    let runs: [(&str, fn(&Case, &mut Scratch) -> u64); 12] = [
        ("cdf_check", proved_check::<A>),
        ("cdf_explain", proved_explain::<A>),
        ("cdf_first, cdf_next, from C", |case, _| A::walk(&case.stream)),
        ("cdf_replay", proved_replay::<A>),
        ("cdf_build_*", proved_build::<A>),
        ("cdf_listing", proved_listing::<A>),
        (&lookup(0), proved_lookup::<A, 0>),
        ("cdf_rescue", proved_rescue::<A>),
        ("cdf_rescue, bytes lost", proved_rescue_lost::<A>),
        (&lookup(1), proved_lookup::<A, 1>),
        (&lookup(2), proved_lookup::<A, 2>),
        (&lookup(3), proved_lookup::<A, 3>),
    ];
    for (part, (name, run)) in parts.iter_mut().zip(runs) {
        part.codes.push(Code { name: format!("{}{name}", A::NAME), run });
    }
    let checks: [(usize, &str, fn(&Case, &mut Scratch) -> u64); 7] = [
        (1, "cdf_check, refused", refused_check::<A>),
        (6, "cdf_check, both", both_checks::<A, 0>),
        (7, "cdf_check", proved_check::<A>),
        (8, "cdf_check, no byte lost", proved_check::<A>),
        (9, "cdf_check, both", both_checks::<A, 1>),
        (10, "cdf_check, both", both_checks::<A, 2>),
        (11, "cdf_check, both", both_checks::<A, 3>),
    ];
    for (at, name, run) in checks {
        let codes = &mut parts[at].codes;
        codes.push(Code { name: format!("{}{name}", A::NAME), run });
        let by = (codes.len() - 2, codes.len() - 1);
        parts[at].by.push(by);
    }
    parts[5].codes.push(Code { name: format!("{}cdf_listing, no room", A::NAME), run: counted_listing::<A> });
}

fn batches<A: Batches>(reader: &mut Part) {
    let name = format!("{}cdf_first, cdf_units by 32, from C", A::NAME);
    reader.codes.push(Code { name, run: |case, _| A::walk_units(&case.stream) });
}

fn named(
    name: &'static str,
    code_name: &str,
    inlined: fn(&Case, &mut Scratch) -> u64,
    out_of_line: fn(&Case, &mut Scratch) -> u64,
) -> Part {
    let code = |form, run| Code { name: format!("{code_name}: plain, {form}"), run };
    let codes = vec![code("inlined", inlined), code("out of line", out_of_line)];
    Part { name, codes, by: Vec::new(), bytes: |case| case.stream.len() }
}

pub fn parts() -> [Part; 12] {
    fn part(
        name: &'static str,
        inlined: fn(&Case, &mut Scratch) -> u64,
        out_of_line: fn(&Case, &mut Scratch) -> u64,
    ) -> Part {
        named(name, name, inlined, out_of_line)
    }
    let mut parts = [
        part("check", plain_check::<INLINED>, plain_check::<OUT_OF_LINE>),
        part("explain", plain_explain::<INLINED>, plain_explain::<OUT_OF_LINE>),
        part(
            "reader",
            |case, _| walk::<INLINED, RANGES>(&case.stream),
            |case, _| walk::<OUT_OF_LINE, RANGES>(&case.stream),
        ),
        part("replay", plain_replay::<INLINED>, plain_replay::<OUT_OF_LINE>),
        part("builder", plain_build::<INLINED>, plain_build::<OUT_OF_LINE>),
        part("listing", plain_listing::<INLINED>, plain_listing::<OUT_OF_LINE>),
        lookup_part::<0>(),
        part("rescue", plain_rescue::<INLINED>, plain_rescue::<OUT_OF_LINE>),
        named("rescue", "rescue, bytes lost", plain_rescue_lost::<INLINED>, plain_rescue_lost::<OUT_OF_LINE>),
        lookup_part::<1>(),
        lookup_part::<2>(),
        lookup_part::<3>(),
    ];
    parts[7].bytes = |case| case.lost.as_ref().map_or(0, |_| case.stream.len());
    parts[8].bytes = |case| case.lost.as_ref().map_or(0, Vec::len);
    let reader = &mut parts[2];
    let by_row: fn(&Case, &mut Scratch) -> u64 = |case, _| walk::<INLINED, ROW>(&case.stream);
    reader.codes.push(Code { name: "reader: plain, inlined, names by a row".to_string(), run: by_row });
    reader.codes.push(Code { name: "cdf_walk".to_string(), run: |case, _| proved_walk(&case.stream) });
    version::<Now>(&mut parts);
    #[cfg(before)]
    version::<crate::archive::Before>(&mut parts);
    batches::<Now>(&mut parts[2]);
    parts[2].codes.push(Code { name: "cdf::Reader".to_string(), run: |case, _| iterator::walk(&case.stream) });
    #[cfg(before_units)]
    batches::<crate::archive::Before>(&mut parts[2]);
    let reader = &mut parts[2];
    reader.by = (BY_ROW + 1..reader.codes.len()).map(|code| (code, BY_ROW)).collect();
    parts
}

/// Where in the part reader the third plain code stands, with names by a row: the other codes are told by it too.
pub const BY_ROW: usize = 2;

/// The part reader, whose codes are also timed on the streams of a night.
pub fn reader() -> Part {
    let [_, _, reader, ..] = parts();
    reader
}
