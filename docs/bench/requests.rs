//! The part requests: a list of requests at one go, to plain Rust and by the same requests in single calls.

use crate::archive::{Archive, BuildPlace, Now};
use crate::compare::case;
use crate::plain::{INLINED, OUT_OF_LINE};
use crate::plain_requests::Place;
use crate::plain_write::Builder;
use crate::random::Random;
use crate::rounds::{best, heading, ratios, row, time, AGAIN};
use crate::streams::{fields, lines, relations, templates};
use std::hint::black_box;

/// A unit of a list: its own data stand in the list's text.
#[derive(Clone, Copy, Debug)]
#[repr(C)]
pub struct Request {
    pub id: u64,
    pub action: u64,
    pub begin: u64,
    pub end: u64,
}

/// What a list is told: number, rank and place.
#[repr(C)]
pub struct Batched {
    pub number: u64,
    pub rank: u64,
    pub place: BuildPlace,
}

/// `cdf_build_batch` of the joined archive. An older one may lack it.
#[inline(always)]
pub fn proved(place: &BuildPlace, buffer: &mut [u8], list: &[Request], text: &[u8]) -> Batched {
    #[repr(C)]
    struct Building(BuildPlace);
    extern "C" {
        fn cdf_build_batch(
            place: Building,
            buffer: *mut u8,
            length: usize,
            list: *const Request,
            count: usize,
            text: *const u8,
            text_length: usize,
        ) -> Batched;
    }
    let (n, at) = (buffer.len(), Building(*place));
    // SAFETY: pointers and lengths are those of slices, and what is written is lent alone.
    unsafe { cdf_build_batch(at, buffer.as_mut_ptr(), n, list.as_ptr(), list.len(), text.as_ptr(), text.len()) }
}

/// The same requests in single calls from C, whose bounds are right.
#[inline(always)]
pub fn singly(place: &mut BuildPlace, buffer: &mut [u8], list: &[Request], text: &[u8]) -> u64 {
    extern "C" {
        fn requests_from_c(
            buffer: *mut u8,
            length: usize,
            place: &mut BuildPlace,
            list: *const Request,
            count: usize,
            text: *const u8,
        ) -> u64;
    }
    // SAFETY: as above.
    unsafe { requests_from_c(buffer.as_mut_ptr(), buffer.len(), place, list.as_ptr(), list.len(), text.as_ptr()) }
}

/// A root and a list behind it, with the text of all.
pub struct List {
    pub root: u8,
    pub requests: Vec<Request>,
    pub text: Vec<u8>,
}

/// The first so many units of a stream behind its root.
fn list(stream: Vec<u8>, count: usize) -> List {
    let case = case(stream);
    let (mut requests, mut text) = (Vec::new(), Vec::new());
    for request in &case.requests[1..=count] {
        let begin = text.len() as u64;
        text.extend_from_slice(case.data(request));
        let (id, action, end) = (request.id.into(), request.action.into(), text.len() as u64);
        requests.push(Request { id, action, begin, end });
    }
    List { root: case.requests[0].id, requests, text }
}

/// A name, a kind of stream with as many bytes as it needs, how many requests a list has, and how many lists there are: of about 60,000
/// bytes together.
type Kind = (&'static str, fn(&mut Random, usize) -> Vec<u8>, usize, usize, usize);

const KINDS: [Kind; 5] = [
    ("a person of 12", fields, 400, 12, 200),
    ("512 small: fields", fields, 20_000, 512, 5),
    ("512 small: templates", templates, 20_000, 512, 5),
    ("512 small: relations", relations, 20_000, 512, 5),
    ("512 small: lines", lines, 20_000, 512, 5),
];

/// The lists of each kind.
pub fn lists() -> Vec<(&'static str, Vec<List>)> {
    let random = &mut Random::new(512);
    let of = |kind: &Kind, random: &mut Random| (0..kind.4).map(|_| list((kind.1)(random, kind.2), kind.3)).collect();
    KINDS.iter().map(|kind| (kind.0, of(kind, random))).collect()
}

const CODES: usize = 6;

/// A start, the list, and what is then written.
#[inline(always)]
pub fn run(code: usize, list: &List, buffer: &mut [u8]) -> u64 {
    let List { root, requests, text } = list;
    match code {
        0 | 1 => {
            let Ok(mut place) = Place::first(buffer, *root) else { return 0 };
            let (number, _) = match code {
                0 => place.build::<INLINED>(buffer, requests, text),
                _ => place.build::<OUT_OF_LINE>(buffer, requests, text),
            };
            number << 32 | place.written as u64
        }
        2 => {
            let mut place = [0; 10];
            Now::build_first(buffer, u64::from(*root), &mut place);
            let told = proved(&place, buffer, requests, text);
            told.number << 32 | told.place[0]
        }
        3 => {
            let mut place = [0; 10];
            Now::build_first(buffer, u64::from(*root), &mut place);
            singly(&mut place, buffer, requests, text) << 32 | place[0]
        }
        _ => {
            let Ok(mut builder) = Builder::first(buffer, *root) else { return 0 };
            for request in requests {
                let data = &text[request.begin as usize..request.end as usize];
                let built = match code {
                    4 => builder.next(request.id as u8, request.action as u8, data),
                    _ => builder.next_out_of_line(request.id as u8, request.action as u8, data),
                };
                if let Err(number) = built {
                    return u64::from(number) << 32;
                }
            }
            builder.written() as u64
        }
    }
}

/// The times of each code in each round, in nanoseconds a request.
fn times(lists: &[List], rounds: usize) -> Vec<Vec<f64>> {
    let mut buffer = vec![0; 65_535];
    let requests = lists.iter().map(|list| list.requests.len()).sum();
    time(CODES, rounds, AGAIN, requests, |code| {
        for list in lists {
            black_box(run(code, black_box(list), black_box(&mut buffer[..])));
        }
    })
}

pub fn tables(rounds: usize) {
    let columns = [
        "to plain, inlined",
        "out of line",
        "by single calls from C",
        "to the plain builder unit by unit, inlined",
        "out of line",
        "ns a request",
        "singly from C, ns",
    ]
    .map(str::to_string);
    println!(
        "\n{rounds} rounds; cdf_build_batch: ratio of the best times / median of the rounds' ratios; then best times\n"
    );
    println!("{}", heading(["list", "requests"], &columns));
    for (name, lists) in lists() {
        let times = times(&lists, rounds);
        let by = |other: usize| ratios(&times[2], &times[other]);
        let cost = |code: usize| format!("{:.1}", best(&times[code]));
        let names = [name.to_string(), lists[0].requests.len().to_string()];
        println!("{}", row(&[&names[..], &[by(0), by(1), by(3), by(4), by(5), cost(2), cost(3)]].concat()));
    }
}
