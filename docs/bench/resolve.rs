//! The part resolve: what it costs to resolve the entity keys of a group, by its bytes, to plain Rust and by the check.

use crate::archive::{Archive, Now};
use crate::plain::{INLINED, OUT_OF_LINE};
use crate::plain_resolve::resolve;
use crate::rounds::{best, heading, ratios, row, time, AGAIN};
use crate::streams::{unit, SIZES};
use std::hint::black_box;

/// `cdf_resolve` of the joined archive. An older one may lack it.
#[inline(always)]
pub fn proved(stream: &[u8], list: &mut [u64], answer: &mut [u64; 2]) -> u64 {
    extern "C" {
        fn cdf_resolve(stream: *const u8, length: usize, list: *mut u64, numbers: usize, answer: &mut [u64; 2]) -> u64;
    }
    // SAFETY: pointers and lengths are those of slices, and what is written is lent alone.
    unsafe { cdf_resolve(stream.as_ptr(), stream.len(), list.as_mut_ptr(), list.len(), answer) }
}

fn key(id: u8, number: u32) -> Vec<u8> {
    unit(id, 0, &number.to_be_bytes(), &[])
}

fn template(name: &[u8], number: u32) -> Vec<u8> {
    unit(5, 1, name, &key(6, number))
}

/// A group of these templates, and of so many relations between two entity keys with this name and key as has room.
fn group(size: usize, templates: &[u8], name: &[u8], key: &[u8]) -> Vec<u8> {
    let entity = unit(11, 0, name, key);
    let relation = unit(9, 1, b"\x00\x00\x00\x01", &[&entity[..], &entity].concat());
    let count = (size - 6 - templates.len()) / relation.len();
    unit(4, 0, &[], &[templates, &relation.repeat(count)].concat())
}

/// 256 templates of one name, each with a number of its own; every key is that of the last.
fn by_the_last(size: usize) -> Vec<u8> {
    let templates: Vec<u8> = (0..256).flat_map(|number| template(b"\x01P", number)).collect();
    group(size, &templates, b"\x01P", &key(6, 255))
}

/// 256 templates of one number, whose names differ in the last letters alone; every key is that of the last.
fn long_names(size: usize) -> Vec<u8> {
    let name = |at: u32| [&[32], &[b'N'; 30][..], &[b'A' + (at / 16) as u8, b'A' + (at % 16) as u8]].concat();
    let templates: Vec<u8> = (0..256).flat_map(|at| template(&name(at), 1)).collect();
    group(size, &templates, &name(255), &key(6, 1))
}

fn one_template(size: usize) -> Vec<u8> {
    group(size, &template(b"\x01P", 1), b"\x01P", &key(6, 1))
}

/// Entity keys with template keys, beside a template with a temporary one.
fn no_such_key(size: usize) -> Vec<u8> {
    group(size, &template(b"\x01P", 1), b"\x01P", &key(7, 1))
}

/// A name, a group of about so many bytes, and the least size that it needs.
pub type Kind = (&'static str, fn(usize) -> Vec<u8>, usize);

pub const KINDS: [Kind; 4] = [
    ("256 templates, keys of the last", by_the_last, 8_000),
    ("256 templates alike but for two letters, keys of the last", long_names, 60_000),
    ("one template, keys of it", one_template, 1_000),
    ("no such key", no_such_key, 1_000),
];

/// Of each kind and size so many streams as have some 60,000 bytes together.
fn set(kind: &Kind, size: usize) -> Option<Vec<Vec<u8>>> {
    (size >= kind.2).then(|| vec![(kind.1)(size); 60_000_usize.div_ceil(size)])
}

const CODES: [&str; 4] = ["resolve: plain, inlined", "resolve: plain, out of line", "cdf_resolve", "cdf_check"];

/// The times of each code in each round.
fn times(streams: &[Vec<u8>], rounds: usize) -> Vec<Vec<f64>> {
    let mut list = vec![0; 65_535 / 18];
    let bytes = streams.iter().map(Vec::len).sum();
    time(CODES.len(), rounds, AGAIN, bytes, |code| {
        for stream in streams {
            let (stream, mut answer) = (black_box(&stream[..]), [0; 2]);
            let list = black_box(&mut list[..]);
            black_box(match code {
                0 => resolve::<INLINED>(stream, list, &mut answer),
                1 => resolve::<OUT_OF_LINE>(stream, list, &mut answer),
                2 => proved(stream, list, &mut answer),
                _ => Now::check(stream, &mut [0]),
            });
            black_box(answer);
        }
    })
}

pub fn tables(rounds: usize) {
    let by_size = |what: &str| SIZES.iter().map(|size| format!("{what}, {} kB", size / 1000)).collect::<Vec<_>>();
    let columns =
        [by_size("to inlined"), by_size("out of line"), by_size("by cdf_check"), by_size("ns a byte")].concat();
    println!(
        "\n{rounds} rounds; cdf_resolve: ratio of the best times / median of the rounds' ratios; then its best times\n"
    );
    println!("{}", heading(["group", "keys at 60 kB"], &columns));
    for kind in &KINDS {
        let taken: Vec<_> = SIZES.iter().map(|size| set(kind, *size).map(|set| times(&set, rounds))).collect();
        let cells = |of: &dyn Fn(&Vec<Vec<f64>>) -> String| {
            taken.iter().map(|times| times.as_ref().map_or(String::new(), of)).collect::<Vec<_>>()
        };
        let mut list = vec![0; 65_535 / 18];
        let mut answer = [0; 2];
        assert_eq!(proved(&(kind.1)(60_000), &mut list, &mut answer), 0, "{}", kind.0);
        let names = [kind.0.to_string(), answer[1].to_string()];
        let ratio = |other: usize| cells(&move |times| ratios(&times[2], &times[other]));
        let cost = cells(&|times| format!("{:.2}", best(&times[2])));
        println!("{}", row(&[&names[..], &ratio(0), &ratio(1), &ratio(3), &cost].concat()));
    }
}
