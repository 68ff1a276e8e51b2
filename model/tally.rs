//! What was compared, how often, and with which numbers; and the end of a run at the first difference.

use crate::batches::BATCHED;
use crate::build_listed::BUILD_LISTED;
use crate::functions::{Function, AT_PLACES, BUILDER, CAN_GIVE, READER, TABLE};
use crate::keys::TOO_MANY;
use crate::looked_up::LOOKED_UP;
use crate::met::{count_each, each_met};
use crate::pointed::{Byte, BYTES};
use crate::ranked::RANKED;
use crate::rescued::RESCUED;
use crate::resolved::RESOLVED;
use crate::tables::Looks;
use cdf_model::explain::Explanation;
use cdf_model::rules::Had;
use cdf_model::{builder, reader};
use std::collections::BTreeMap;

/// The clauses of the reader's rule, by their place in it, that need not be missed alone: a place with no open unit gets
/// 11, one with more than four has units of no kind, and a number that is no state tells no kind either.
const NOT_ASKED: [usize; 2] = [0, 7];

/// The kinds of refusals that must have been explained. 'There' is the end of the incomplete unit, 'before it' is where the
/// refused unit stands, or inside the incomplete one at its end.
const EXPLAINED: [&str; 14] = [
    "no unit open",
    "one unit open",
    "two units open",
    "three units open",
    "four units open",
    "no id admitted: a relation has both its ends",
    "no id admitted: an entity key has its temporary key",
    "10, and one open unit ends there",
    "10, and two open units end there",
    "10, and three open units end there",
    "10, and four open units end there",
    "one complete unit closed before it",
    "two complete units closed before it",
    "three complete units closed before it",
];

/// The functions that refuse a key too many with 7.
const REFUSE_KEYS: [Function; 4] = [Function::Check, Function::Next, Function::Explain, Function::BuildNext];

/// What must have been open in hand-made places that fit.
const TEMPORARY: [&str; 4] = [
    "reader: a template that has had its temporary key",
    "reader: an entity key that has had its temporary key",
    "builder: a template that has had its temporary key",
    "builder: an entity key that has had its temporary key",
];

pub struct Tally {
    pub seed: u64,
    pub round: u64,
    met: [[u64; 22]; CAN_GIVE.len()],
    kinds: BTreeMap<&'static str, u64>,
    /// How many hand-made places missed one clause alone.
    reader_missed: [u64; reader::CLAUSES.len()],
    builder_missed: [u64; builder::CLAUSES.len()],
    explained: [u64; EXPLAINED.len()],
    pointed: [u64; BYTES.len()],
    /// By function, of those that can give 7.
    too_many: [[u64; TOO_MANY.len()]; CAN_GIVE.len()],
    temporary: [u64; TEMPORARY.len()],
    looked_up: [u64; LOOKED_UP.len()],
    rescued: [u64; RESCUED.len()],
    resolved: [u64; RESOLVED.len()],
    ranked: [u64; RANKED.len()],
    batched: [u64; BATCHED.len()],
    build_listed: [u64; BUILD_LISTED.len()],
    pub looks: Looks,
}

impl Tally {
    pub fn new(seed: u64) -> Tally {
        Tally {
            seed,
            round: 0,
            met: [[0; 22]; CAN_GIVE.len()],
            kinds: BTreeMap::new(),
            reader_missed: [0; reader::CLAUSES.len()],
            builder_missed: [0; builder::CLAUSES.len()],
            explained: [0; EXPLAINED.len()],
            pointed: [0; BYTES.len()],
            too_many: [[0; TOO_MANY.len()]; CAN_GIVE.len()],
            temporary: [0; TEMPORARY.len()],
            looked_up: [0; LOOKED_UP.len()],
            rescued: [0; RESCUED.len()],
            resolved: [0; RESOLVED.len()],
            ranked: [0; RANKED.len()],
            batched: [0; BATCHED.len()],
            build_listed: [0; BUILD_LISTED.len()],
            looks: Looks::default(),
        }
    }

    pub fn count(&mut self, kind: &'static str) {
        self.add(kind, 1);
    }

    pub fn add(&mut self, kind: &'static str, count: u64) {
        *self.kinds.entry(kind).or_default() += count;
    }

    pub fn counted(&self, start: &str) -> u64 {
        let kinds = self.kinds.iter().filter(|(kind, _)| kind.starts_with(start));
        kinds.map(|(_, count)| count).sum()
    }

    pub fn met(&mut self, function: Function, number: u64) {
        self.met[function as usize][number as usize] += 1;
    }

    /// A hand-made place for n bytes.
    pub fn reader_place(&mut self, place: &reader::Place, n: u64) {
        let missed = place.missed(n);
        if missed.count_ones() == 1 {
            self.reader_missed[missed.trailing_zeros() as usize] += 1;
        }
        if let (0, Some(innermost)) = (missed, place.open.last()) {
            self.temporary(0, innermost.id, innermost.had);
        }
    }

    /// A hand-made place for a buffer of so many bytes.
    pub fn builder_place(&mut self, place: &builder::Place, buffer: u64) {
        let missed = place.missed(buffer);
        if missed.count_ones() == 1 {
            self.builder_missed[missed.trailing_zeros() as usize] += 1;
        }
        if let (0, Some(innermost)) = (missed, place.open.last()) {
            self.temporary(2, innermost.id, innermost.had);
        }
    }

    /// What a place that fits says of its innermost unit.
    fn temporary(&mut self, first: usize, id: u64, had: Had) {
        if had == Had::Temporary {
            self.temporary[first + usize::from(id == 11)] += 1;
        }
    }

    /// A 7 that refused these of `TOO_MANY`.
    pub fn too_many(&mut self, function: Function, which: &[usize]) {
        which.iter().for_each(|which| self.too_many[function as usize][*which] += 1);
    }

    pub fn explained(&mut self, told: &Explanation) {
        if told.number == 0 {
            return;
        }
        self.explained[told.open.len()] += 1;
        if told.ids.is_empty() {
            self.explained[5 + usize::from(told.open.last().is_some_and(|unit| unit.id == 11))] += 1;
        }
        if let (10, Some(incomplete)) = (told.number, told.open.last()) {
            let there = told.open.iter().filter(|unit| unit.end == incomplete.end);
            self.explained[6 + there.count()] += 1;
        }
    }

    /// A refusal before which so many complete units were closed.
    pub fn closed(&mut self, units: usize) {
        if units > 0 {
            self.explained[10 + units] += 1;
        }
    }

    pub fn pointed(&mut self, byte: Byte) {
        self.pointed[byte as usize] += 1;
    }

    /// A lookup that was all these of `LOOKED_UP`.
    pub fn looked_up(&mut self, kinds: &[&str]) {
        count_each(&LOOKED_UP, &mut self.looked_up, kinds);
    }

    /// A rescue that was all these of `RESCUED`.
    pub fn rescued(&mut self, kinds: &[&str]) {
        count_each(&RESCUED, &mut self.rescued, kinds);
    }

    /// A resolving that was all these of `RESOLVED`.
    pub fn resolved(&mut self, kinds: &[&str]) {
        count_each(&RESOLVED, &mut self.resolved, kinds);
    }

    /// A place, a PREVIOUS or a NEXT that was all these of `RANKED`.
    pub fn ranked(&mut self, kinds: &[&str]) {
        count_each(&RANKED, &mut self.ranked, kinds);
    }

    /// A call for many units that was all these of `BATCHED`.
    pub fn batched(&mut self, kinds: &[&str]) {
        count_each(&BATCHED, &mut self.batched, kinds);
    }

    /// A list of requests that was all these of `BUILD_LISTED`.
    pub fn build_listed(&mut self, kinds: &[&str]) {
        count_each(&BUILD_LISTED, &mut self.build_listed, kinds);
    }

    fn calls(&self, of: std::ops::Range<usize>) -> u64 {
        self.met[of].iter().flatten().sum()
    }

    pub fn reader_calls(&self) -> u64 {
        self.calls(READER)
    }

    pub fn builder_calls(&self) -> u64 {
        self.calls(BUILDER)
    }

    pub fn table_calls(&self) -> u64 {
        self.calls(TABLE)
    }

    /// Ends the run: the two sides differ, or the model contradicts itself.
    pub fn differ(&self, what: &str, given: &str, one: &str, other: &str) -> ! {
        println!("\nDIFFERENCE in {what} (seed {}, round {})", self.seed, self.round);
        println!("given:   {given}\narchive: {one}\nmodel:   {other}");
        std::process::exit(1);
    }

    /// Prints the figures. False if a number was not met that the function can give, or met that it cannot, or if a clause
    /// was never missed alone, a kind of refusal not explained, a kind of byte not named, a kind of key not refused, a kind
    /// of lookup, of rescue, of resolving, of list or of batch not made, a kind of rank not told, or an entry of the table not asked. Of a run on
    /// hand-made places alone the functions that it calls are asked, and the kinds of places, ranks and batches.
    pub fn report(&self, places_alone: bool) -> bool {
        let mut good = true;
        println!("compared:");
        for (kind, count) in &self.kinds {
            println!("{count:>12} {kind}");
        }
        println!("{:>12} reader calls, one by one", self.reader_calls());
        println!("{:>12} builder calls", self.builder_calls());
        println!("{:>12} calls of the table reader, each also of the first reader", self.table_calls());
        println!("numbers met by each function:");
        for (function, ((name, can_give), met)) in CAN_GIVE.iter().zip(&self.met).enumerate() {
            if places_alone && !AT_PLACES.contains(&function) {
                continue;
            }
            let mut figures = Vec::new();
            let mut wrong = Vec::new();
            for (number, times) in met.iter().enumerate() {
                let expected = can_give.contains(&number);
                if expected || *times > 0 {
                    figures.push(format!("{number}: {times}"));
                }
                if expected != (*times > 0) {
                    wrong.push(number);
                }
            }
            println!("{name:>22}  {}", figures.join(", "));
            if !wrong.is_empty() {
                println!("FAILED: {name} and the numbers {wrong:?}");
                good = false;
            }
        }
        let reader = "hand-made places of the reader that missed one clause alone";
        good &= each_met(reader, &reader::CLAUSES, &self.reader_missed, &NOT_ASKED);
        good &= each_met("depths and ranks", &RANKED, &self.ranked, &[]);
        good &= each_met("many units in a call", &BATCHED, &self.batched, &[]);
        if places_alone {
            return good;
        }
        let builder = "hand-made places of the builder that missed one clause alone";
        good &= each_met(builder, &builder::CLAUSES, &self.builder_missed, &[]);
        good &= each_met("refusals explained", &EXPLAINED, &self.explained, &[]);
        good &= each_met("bytes that 9 named", &BYTES, &self.pointed, &[]);
        for function in REFUSE_KEYS {
            let (name, _) = CAN_GIVE[function as usize];
            let keys = format!("keys too many that got 7 from {name}");
            good &= each_met(&keys, &TOO_MANY, &self.too_many[function as usize], &[]);
        }
        good &= each_met("hand-made places that fit, and their innermost unit", &TEMPORARY, &self.temporary, &[]);
        good &= each_met("lookups", &LOOKED_UP, &self.looked_up, &[]);
        good &= each_met("rescues", &RESCUED, &self.rescued, &[]);
        good &= each_met("resolvings", &RESOLVED, &self.resolved, &[]);
        good &= each_met("lists of requests", &BUILD_LISTED, &self.build_listed, &[]);
        good & self.looks.report()
    }
}
