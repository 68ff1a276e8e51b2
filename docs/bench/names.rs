//! Compares the proved reading of a name with plain Rust: first that all answers are equal, then how long both take.
//! It is a program of its own, since no function of the joined archive reads a name alone.

mod compare_names;
// Both are whole for the other parts; here the random numbers, and of the rules those of own data, are used.
#[allow(dead_code)]
mod random;
mod rounds;
#[allow(dead_code)]
mod rules;

use random::Random;
use rounds::{best, heading, ratios, row};
use rules::{before_wrong, own_data, RANGES};
use std::collections::BTreeSet;
use std::hint::black_box;
use std::process::ExitCode;

/// The bytes that a name takes with its count, or the byte that breaks its rule.
pub type Answer = [u64; 1];

/// A code to be timed: on the bytes from a name's count on, and over a whole set, whose answers it adds up.
pub struct Code {
    name: &'static str,
    read: fn(&[u8], &mut Answer) -> u64,
    run: fn(&Set) -> u64,
}

const TEMPLATE: u8 = 5;

#[inline(always)]
fn inlined(data: &[u8], answer: &mut Answer) -> u64 {
    let taken = own_data::<RANGES>(TEMPLATE, data);
    answer[0] = taken.unwrap_or_else(|| before_wrong(TEMPLATE, data)) as u64;
    taken.map_or(9, |_| 0)
}

#[inline(never)]
fn out_of_line(data: &[u8], answer: &mut Answer) -> u64 {
    inlined(data, answer)
}

macro_rules! proved {
    ($name:ident) => {
        |data, answer| {
            extern "C" {
                fn $name(data: *const u8, length: usize, answer: &mut Answer) -> u64;
            }
            // SAFETY: pointer and length are those of a slice, and the function is proved safe on any bytes.
            unsafe { $name(data.as_ptr(), data.len(), answer) }
        }
    };
}

macro_rules! code {
    ($name:literal, $read:expr) => {
        Code { name: $name, read: $read, run: |set| set.sum($read) }
    };
}

/// The first two are plain Rust. The older version is the last.
fn codes() -> Vec<Code> {
    vec![
        code!("names: plain, inlined", inlined),
        code!("names: plain, out of line", out_of_line),
        code!("cdf_name", proved!(cdf_name)),
        #[cfg(before)]
        code!("before: cdf_name", proved!(before_cdf_name)),
    ]
}

const PLAIN: usize = 2;
const LENGTHS: [usize; 3] = [3, 8, 32];
/// How many bytes the names of a set have together, without their counts: whatever their length, so that the caches and the
/// branches that the processor learns are alike for all.
const BYTES: usize = 48_000;
/// How many names are different where they come again and again.
const FEW: usize = 20;
/// The bytes that stand in a name behind its first, which is a letter.
const KINDS: [(&str, &[u8]); 2] =
    [("letters", b"ABCDEFGHIJKLMNOPQRSTUVWXYZ"), ("mixed", b"ABCDEFGHIJKLMNOPQRSTUVWXYZ0123456789_")];

/// Names of one length, each with its count, one behind the other.
pub struct Set {
    label: String,
    length: usize,
    bytes: Vec<u8>,
}

impl Set {
    /// The bytes from each name's count on: others stand behind it, as in a template.
    #[inline(always)]
    fn names(&self) -> impl Iterator<Item = &[u8]> {
        (0..BYTES / self.length).map(|at| &self.bytes[at * (1 + self.length)..])
    }

    #[inline(always)]
    fn sum(&self, read: impl Fn(&[u8], &mut Answer) -> u64) -> u64 {
        let mut answer = [0];
        self.names().map(|data| read(data, &mut answer) + answer[0]).sum()
    }
}

fn name(random: &mut Random, length: usize, later: &[u8]) -> Vec<u8> {
    let (_, letters) = KINDS[0];
    let mut name = vec![length as u8, random.pick(letters)];
    name.extend((1..length).map(|_| random.pick(later)));
    name
}

/// All names of a set are different, or only a few, which then stand in it at random.
fn set(kind: &str, later: &[u8], few: bool, length: usize) -> Set {
    let random = &mut Random::new(length as u64);
    let places = BYTES / length;
    let different = if few { FEW } else { places };
    let (mut names, mut known) = (Vec::new(), BTreeSet::new());
    while names.len() < different {
        let name = name(random, length, later);
        if known.insert(name.clone()) {
            names.push(name);
        }
    }
    let place = |at| if few { random.below(different) } else { at };
    let bytes = (0..places).map(place).flat_map(|at| names[at].clone()).collect();
    let different = if few { format!("{FEW} names") } else { "all different".to_string() };
    Set { label: format!("{kind}, {different}"), length, bytes }
}

/// The sets are those of one label by length, then those of the next.
fn tables(codes: &[Code], sets: &[Set], rounds: usize) {
    let (mut to_plain, mut to_before, mut costs) = (Vec::new(), Vec::new(), Vec::new());
    for sets in sets.chunks_exact(LENGTHS.len()) {
        let times = sets.iter().map(|set| {
            rounds::time(codes.len(), rounds, rounds::AGAIN, BYTES, |code| {
                black_box((codes[code].run)(black_box(set)));
            })
        });
        let times: Vec<_> = times.collect();
        let each = |cell: &dyn Fn(&Vec<Vec<f64>>) -> String| times.iter().map(cell).collect::<Vec<_>>();
        for (at, code) in codes.iter().enumerate() {
            let names = [code.name.to_string(), sets[0].label.clone()];
            costs.push(row(&[&names[..], &each(&|times| format!("{:.2}", best(&times[at])))].concat()));
            if at >= PLAIN {
                let plain = [0, 1].map(|plain| each(&|times| ratios(&times[at], &times[plain])));
                to_plain.push(row(&[&names[..], &plain.concat()].concat()));
            }
            if at > PLAIN {
                let names = [format!("{} by {}", codes[PLAIN].name, code.name), names[1].clone()];
                to_before.push(row(&[&names[..], &each(&|times| ratios(&times[PLAIN], &times[at]))].concat()));
            }
        }
    }
    let by_length = |what: &str| LENGTHS.map(|length| format!("{what}{length} bytes"));
    let heading = |columns: &[String]| heading(["code", "names"], columns);
    println!("\n{rounds} rounds; to plain Rust, ratio of the best times / median of the rounds' ratios, by the names' length\n");
    println!("{}", heading(&[by_length("inlined, "), by_length("out of line, ")].concat()));
    println!("{}", to_plain.join("\n"));
    if !to_before.is_empty() {
        println!("\nto the older version, ratios as above\n");
        println!("{}\n{}", heading(&by_length("")), to_before.join("\n"));
    }
    println!("\nof all codes: best times in nanoseconds a byte of the name, without its count\n");
    println!("{}\n{}", heading(&by_length("ns, ")), costs.join("\n"));
}

fn main() -> ExitCode {
    let codes = codes();
    let mut sets = Vec::new();
    for (kind, later) in KINDS {
        for few in [true, false] {
            sets.extend(LENGTHS.map(|length| set(kind, later, few, length)));
        }
    }
    if let Err(difference) = compare_names::compare(&codes, &sets) {
        eprintln!("{difference}");
        return ExitCode::FAILURE;
    }
    tables(&codes, &sets, rounds::wanted());
    ExitCode::SUCCESS
}
