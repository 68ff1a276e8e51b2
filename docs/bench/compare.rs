//! That the proved code gives plain Rust's answers: nothing is timed before.

use crate::archive::{Archive, Explanation, Now, Place, Reads, Table, ENTRY};
use crate::cases::{Asked, Case, Holder};
use crate::codes::{plain_build, proved_build, Scratch, LISTING_ROOM};
use crate::compare_reader::{assert_plain_walk, assert_reader, assert_units, words};
use crate::place::Spot;
use crate::plain::{check, explain, fold_stop, fold_unit, replay, Reader, INLINED, OUT_OF_LINE};
use crate::plain_write::{listing, Builder};
use crate::random::Random;
use crate::rules::{Handed, Stop, Unit};
use crate::samples::samples;
use crate::streams::{damaged, lost, one_field_more, Set};

/// What plain Rust says of some bytes: the units handed out, with depth and rank too, what comes after the last, and why it
/// is a refusal.
pub struct Expected {
    pub units: Vec<Unit>,
    pub handed: Vec<Handed>,
    pub stop: Stop,
    explanation: Explanation,
}

impl Expected {
    pub fn fold(&self) -> u64 {
        fold_stop(self.handed.iter().fold(0, fold_unit), &self.stop)
    }

    /// The check's number, and its count or offset.
    pub fn check(&self) -> (u64, u64) {
        match self.stop.number {
            1 => (0, self.units.len() as u64),
            number => (number as u64, self.stop.offset as u64),
        }
    }
}

pub fn read(bytes: &[u8]) -> Expected {
    let mut handed = Vec::new();
    let stop = match Reader::first(bytes) {
        Err(stop) => stop,
        Ok((mut reader, root)) => {
            handed.push(root);
            loop {
                match reader.next() {
                    Ok(next) => handed.push(next),
                    Err(stop) => break stop,
                }
            }
        }
    };
    let mut explanation = [u64::MAX; 25];
    explain::<INLINED>(bytes, &mut explanation);
    Expected { units: handed.iter().map(|handed| handed.unit).collect(), handed, stop, explanation }
}

/// A stream that is to be accepted, as a case to time.
pub fn case(stream: Vec<u8>) -> Case {
    let Expected { units, stop, .. } = read(&stream);
    assert_eq!(stop.number, 1, "a stream to be timed is accepted");
    let mut case = Case::new(stream, &units);
    if units[0].id == 4 {
        case.asked = Some(asked(&case.stream, &units));
        case.lost = Some(lost(&case.stream, 8, &mut Random::new(case.stream.len() as u64)));
    }
    let refused = read(&case.refused);
    let last = units.last().expect("a stream has a root").start;
    assert_eq!(refused.stop, Stop { number: 7, offset: last }, "the copy is refused at its last unit");
    case
}

/// The streams of the lookups: a template of each has one field more, and the value of that is looked up. The last template stands in the
/// stream itself too, without the field, so where both are searched for it all templates of both are passed.
fn asked(stream: &[u8], units: &[Unit]) -> Asked {
    let with_value = |behind: &Unit| {
        let stream = one_field_more(stream, units, behind, b"Larsen");
        let Expected { units, stop, .. } = read(&stream);
        assert_eq!(stop.number, 1, "a stream to be timed is accepted");
        let field = units.iter().position(|unit| unit.start == behind.end && unit.id == 8).expect("the field is there");
        let template = units[..field].iter().rposition(|unit| unit.id == 5).expect("a field stands in a template");
        Holder { units: [units[template], units[template + 1], units[field]], stream }
    };
    let from = |position| units.iter().find(|unit| unit.id == 8 && unit.start >= position).expect("there are fields");
    let last = units.last().expect("a stream has a root");
    Asked { last: with_value(last), early: with_value(from(0)), middle: with_value(from(stream.len() / 2)) }
}

/// The two forms of the plain code agree.
fn assert_plain(label: &str, bytes: &[u8], expected: &Expected) {
    for checked in [check::<INLINED>(bytes), check::<OUT_OF_LINE>(bytes)] {
        let answer = match checked {
            Ok(units) => (0, units as u64),
            Err(stop) => (stop.number as u64, stop.offset as u64),
        };
        assert_eq!(answer, expected.check(), "plain check on {label}");
    }
    for explain in [explain::<INLINED>, explain::<OUT_OF_LINE>] {
        let mut answer = [u64::MAX; 25];
        assert_eq!(explain(bytes, &mut answer), expected.check().0, "plain number on {label}");
        assert_eq!(answer, expected.explanation, "plain explanation on {label}");
    }
    assert_plain_walk(label, bytes, expected);
}

fn assert_check<A: Archive>(label: &str, bytes: &[u8], expected: &Expected) {
    let mut answer = [u64::MAX];
    let number = A::check(bytes, &mut answer);
    assert_eq!((number, answer[0]), expected.check(), "{}cdf_check on {label}", A::NAME);
}

fn assert_explain<A: Archive>(label: &str, bytes: &[u8], expected: &Expected) {
    let mut answer = [u64::MAX; 25];
    assert_eq!(A::explain(bytes, &mut answer), expected.check().0, "{}cdf_explain's number on {label}", A::NAME);
    assert_eq!(answer, expected.explanation, "{}cdf_explain on {label}", A::NAME);
}

/// A start and one NEXT more than there are units, so that the last answer is met twice.
fn assert_replay<A: Reads>(label: &str, case: &Case) {
    let calls = [&case.calls[..], &[2]].concat();
    let mut logs = [0, 1, 2].map(|_| vec![u64::MAX; ENTRY * calls.len() + 5]);
    let [log, inlined, out_of_line] = &mut logs;
    let mut answer = [u64::MAX];
    assert_eq!(A::replay(&case.stream, &calls, log, &mut answer), 0, "{}replay on {label}", A::NAME);
    assert_eq!(answer[0], calls.len() as u64, "{}the replay's count on {label}", A::NAME);
    assert_eq!(replay::<INLINED>(&case.stream, &calls, inlined), calls.len());
    assert_eq!(replay::<OUT_OF_LINE>(&case.stream, &calls, out_of_line), calls.len());
    assert!(log == inlined && log == out_of_line, "{}the log on {label}", A::NAME);
}

/// The text, and that with a byte less no text is written.
fn assert_listing<A: Archive>(label: &str, bytes: &[u8]) {
    let (mut inlined, mut out_of_line) = (Vec::with_capacity(LISTING_ROOM), Vec::with_capacity(LISTING_ROOM));
    listing::<INLINED>(bytes, &mut inlined);
    listing::<OUT_OF_LINE>(bytes, &mut out_of_line);
    assert!(inlined == out_of_line, "plain listing on {label}");
    let mut text = vec![0xFF; inlined.len() + 3];
    let mut answer = [u64::MAX];
    assert_eq!(A::listing(bytes, &mut text, &mut answer), 0, "cdf_listing on {label}");
    assert_eq!(answer[0], inlined.len() as u64, "the text's length on {label}");
    inlined.extend([0xFF; 3]);
    assert!(text == inlined, "the text on {label}");
    let mut short = vec![0xFF; text.len() - 4];
    assert_eq!(A::listing(bytes, &mut short, &mut answer), 12, "cdf_listing without room on {label}");
    assert!(answer[0] == 0 && short.iter().all(|byte| *byte == 0xFF), "12 wrote on {label}");
}

/// The builder makes the stream again, byte by byte.
fn assert_built<A: Archive>(label: &str, case: &Case, scratch: &mut Scratch) {
    for build in [plain_build::<INLINED>, plain_build::<OUT_OF_LINE>, proved_build::<A>] {
        scratch.buffer.fill(0xFF);
        assert_eq!(build(case, scratch), case.stream.len() as u64, "the length built on {label}");
        assert!(scratch.buffer.starts_with(&case.stream), "the bytes built on {label}");
    }
}

/// Requests of a stream, some of them changed, twice over: number by number and at the end all bytes of the buffer.
fn assert_builder<A: Archive>(label: &str, case: &Case, random: &mut Random, met: &mut [usize; 15]) {
    let length = if random.below(2) == 0 { 65_535 } else { random.below(case.stream.len() + 20) };
    let (mut plain, mut proved) = (vec![0xFF; length], vec![0xFF; length]);
    let mut place = [u64::MAX; 10];
    let root = if random.below(8) == 0 { random.below(16) as u8 } else { case.requests[0].id };
    let number = A::build_first(&mut proved, root as u64, &mut place);
    let mut compare = |number: u64, expected: Option<u8>| {
        assert_eq!(number, expected.map_or(0, u64::from), "number of the builder on {label}");
        met[number as usize] += 1;
    };
    match Builder::first(&mut plain, root) {
        Err(expected) => compare(number, Some(expected)),
        Ok(mut builder) => {
            compare(number, None);
            for request in case.requests[1..].iter().chain(&case.requests[1..]) {
                let (mut id, mut action, mut data) = (request.id, request.action, case.data(request));
                match random.below(40) {
                    0 => id = random.below(16) as u8,
                    1 => action = random.below(6) as u8,
                    2 => data = &data[..random.below(data.len() + 1)],
                    _ => (),
                }
                let given = place;
                let number = A::build_next(&mut proved, &mut place, id as u64, action as u64, data);
                compare(number, builder.next(id, action, data).err());
                assert!(number == 0 || place == given, "a refusal changed the builder's place on {label}");
            }
            let mut answer = [u64::MAX];
            let number = A::build_finish(&proved, &place, &mut answer);
            compare(number, builder.finish().err());
            assert_eq!(answer[0], builder.finish().unwrap_or(0) as u64, "the length on {label}");
        }
    }
    assert!(plain == proved, "the buffer on {label}");
}

/// Gives the places that the reader met.
fn assert_archive<A: Archive>(label: &str, case: &Case, expected: &Expected) -> Vec<Place> {
    let bytes = &case.stream;
    assert_check::<A>(label, bytes, expected);
    assert_explain::<A>(label, bytes, expected);
    let met = assert_reader::<A>(label, bytes, expected);
    assert_replay::<A>(label, case);
    assert_listing::<A>(label, bytes);
    met
}

/// How often each of these numbers was met: all of them were.
pub fn list(met: &[usize], numbers: &[usize]) -> String {
    assert!(numbers.iter().all(|number| met[*number] > 0), "a number is never met: {met:?}");
    numbers.iter().map(|number| format!("{number}: {}", met[*number])).collect::<Vec<_>>().join(", ")
}

/// Samples, streams and damaged streams, and requests of the builder that are changed at random.
pub fn assert_equal(sets: &[Set]) {
    const DAMAGED: usize = 150;
    let scratch = &mut Scratch::new();
    let (mut stops, mut open, mut built) = ([0; 15], [0; 5], [0; 15]);
    let mut compare = |label: &str, bytes: &[u8]| {
        let expected = read(bytes);
        let case = Case::new(bytes.to_vec(), &expected.units);
        assert_plain(label, bytes, &expected);
        let met = assert_archive::<Now>(label, &case, &expected);
        for room in [1, 7, 32] {
            assert_units::<Now>(label, bytes, &expected, &met, room);
        }
        let tabled = assert_reader::<Table>(label, bytes, &expected);
        assert!(met.iter().map(Spot::new).eq(tabled.iter().map(Spot::new)), "the table reader's places on {label}");
        assert_replay::<Table>(label, &case);
        #[cfg(before)]
        assert_archive::<crate::archive::Before>(label, &case, &expected);
        stops[expected.stop.number as usize] += 1;
        if expected.stop.number != 1 {
            open[expected.explanation[1] as usize] += 1;
        }
        expected
    };
    for sample in samples() {
        let expected = compare(sample.name, &sample.bytes);
        let units: Vec<[u64; 7]> = expected.handed.iter().map(words).collect();
        assert_eq!(expected.check(), sample.answer, "document 01 on {}", sample.name);
        assert_eq!(units, sample.units, "document 01 and request g on {}", sample.name);
        assert_eq!(expected.explanation, sample.explanation(), "request a on {}", sample.name);
    }
    for set in sets {
        let random = &mut Random::new(set.size as u64);
        let label = |at: usize| format!("{} of {} bytes, {at}", set.name, set.size);
        let read = set.cases.iter().enumerate().map(|(at, case)| compare(&label(at), &case.stream));
        let read: Vec<Expected> = read.collect();
        for (at, case) in set.cases.iter().enumerate() {
            compare(&format!("{}, refused", label(at)), &case.refused);
        }
        for round in 0..DAMAGED {
            let at = round % set.cases.len();
            let bytes = damaged(&set.cases[at].stream, &read[at].units, random);
            compare(&format!("{}, damage {round}", label(at)), &bytes);
            let label = format!("{}, requests {round}", label(at));
            assert_builder::<Now>(&label, &set.cases[at], random, &mut built);
            #[cfg(before)]
            assert_builder::<crate::archive::Before>(&label, &set.cases[at], random, &mut built);
        }
    }
    for set in sets {
        for case in &set.cases {
            assert_built::<Now>(set.name, case, scratch);
            #[cfg(before)]
            assert_built::<crate::archive::Before>(set.name, case, scratch);
        }
    }
    println!("equal answers on K1 to K12, the streams of {} sets, these refused at their last unit, and", sets.len());
    println!("{DAMAGED} damaged copies of each set");
    println!("  how often each number ended them: {}", list(&stops, &[1, 3, 4, 5, 6, 7, 8, 9, 10]));
    println!("  how many units were open at a refusal, and how often: {}", list(&open, &[0, 1, 2, 3, 4]));
    println!("  the builder's numbers: {}", list(&built, &[0, 6, 7, 8, 9, 10, 12, 13]));
}
