//! That the reader's calls answer as plain Rust does at places that no call made, fitting and not.

use crate::archive::{Answer, Archive, Batches, Now, Place, Reads, Table};
use crate::compare::{list, read};
use crate::compare_reader::assert_reader;
use crate::hand_made;
use crate::place::{Call, Spot, RULES};
use crate::random::Random;
use crate::samples::samples;
use crate::streams::{damaged, Set};

const CALLS: [Call; 4] = [Call::Next, Call::Skip, Call::GetStream, Call::Previous];

/// What was met: the numbers of each call, and of those for many units, how many places fit, and how many broke one rule alone.
#[derive(Default)]
struct Met {
    numbers: [[usize; 12]; CALLS.len()],
    /// Of NEXT and SKIP of the table reader.
    tabled: [[usize; 12]; 2],
    units: [usize; 12],
    places: usize,
    fitting: usize,
    alone: [usize; RULES + 1],
}

type Run = fn(&[u8], &mut Place, &mut Answer) -> u64;

/// Number, answer and place. Beside a 0 the place is compared by what its count reaches; beside any other number, and after PREVIOUS, no
/// number of it may have changed.
fn assert_by(name: &str, run: Run, call: Call, stream: &[u8], place: &Place) -> (u64, Place) {
    let (mut left, mut answer) = (*place, [u64::MAX; 10]);
    let number = run(stream, &mut left, &mut answer);
    let (owed, owed_answer, spot) = Spot::new(place).call(call, stream);
    assert_eq!((number, answer), (owed, owed_answer), "{name}{call:?} at {place:?}, {} bytes", stream.len());
    if number == 0 && call != Call::Previous {
        assert_eq!(Spot::new(&left), spot, "{name}the place after {call:?} at {place:?}, {} bytes", stream.len());
        assert!(left[19] <= 1, "{name}the flag after {call:?} at {place:?}");
    } else {
        assert_eq!(left, *place, "{name}the place stays beside {number} of {call:?}");
    }
    (number, left)
}

fn assert_call<A: Archive>(call: Call, stream: &[u8], place: &Place) -> (u64, Place) {
    let run = match call {
        Call::Next => A::next,
        Call::Skip => A::skip,
        Call::GetStream => A::get_stream,
        Call::Previous => A::previous,
    };
    assert_by(A::NAME, run, call, stream, place)
}

/// The two of these calls that the table reader has, and both again where one answered 0.
fn compare_table(stream: &[u8], place: &Place, met: &mut Met) {
    let calls: [(Call, Run); 2] = [(Call::Next, Table::next), (Call::Skip, Table::skip)];
    for ((call, run), numbers) in calls.into_iter().zip(&mut met.tabled) {
        let (number, left) = assert_by(Table::NAME, run, call, stream, place);
        numbers[number as usize] += 1;
        if number == 0 {
            for (call, run) in calls {
                assert_by(Table::NAME, run, call, stream, &left);
            }
        }
    }
}

/// All calls at a place, and what follows a 0.
fn compare_at<A: Archive>(stream: &[u8], place: &Place, met: &mut Met) {
    for (call, numbers) in CALLS.iter().zip(&mut met.numbers) {
        let (number, left) = assert_call::<A>(*call, stream, place);
        numbers[number as usize] += 1;
        if number == 0 {
            for call in CALLS {
                assert_call::<A>(call, stream, &left);
            }
        }
    }
    let broken = Spot::new(place).broken(stream.len() as u64);
    met.places += 1;
    match broken[..] {
        [] => met.fitting += 1,
        [rule] => met.alone[rule] += 1,
        _ => (),
    }
}

/// Many units in a call: number, answer, list and place, with room for none too, and in lists that are no multiple of seven.
fn compare_units<A: Batches>(stream: &[u8], place: &Place, random: &mut Random, met: &mut Met) {
    let length = match random.below(4) {
        0 => random.below(7),
        1 => 7 * random.pick(&[1, 2, 7]),
        2 => 7 * 32,
        _ => random.below(100),
    };
    let (mut left, mut list, mut answer) = (*place, vec![u64::MAX; length], [u64::MAX; 2]);
    let number = A::units(stream, &mut left, &mut list, &mut answer);
    let (owed, offset, units, spot) = Spot::new(place).units(stream, length / 7);
    let name = A::NAME;
    let owed = (owed, [offset, units.len() as u64]);
    assert_eq!((number, answer), owed, "{name}a list of {length} at {place:?}, {} bytes", stream.len());
    let mut owed_list = units.concat();
    owed_list.resize(length, u64::MAX);
    assert_eq!(list, owed_list, "{name}the list at {place:?}, {} bytes", stream.len());
    if number == 0 {
        assert_eq!(Spot::new(&left), spot, "{name}the place after {} units at {place:?}", units.len());
    } else {
        assert_eq!(left, *place, "{name}the place stays beside {number} of a call for many units");
    }
    met.units[number as usize] += 1;
}

/// So many places on some bytes.
fn compare(bytes: &[u8], places: usize, random: &mut Random, met: &mut Met) {
    let real = assert_reader::<Now>("bytes for places", bytes, &read(bytes));
    for _ in 0..places {
        let place = hand_made::place(&real, bytes.len() as u64, random);
        compare_at::<Now>(bytes, &place, met);
        compare_units::<Now>(bytes, &place, random, met);
        compare_table(bytes, &place, met);
        #[cfg(before)]
        compare_at::<crate::archive::Before>(bytes, &place, &mut Met::default());
    }
}

/// On K1 to K12, on every stream and its refused copy, on damaged ones, and on those of the night.
pub fn assert_equal(sets: &[Set], night: &[Vec<u8>]) {
    let (met, random) = (&mut Met::default(), &mut Random::new(7));
    for sample in samples() {
        compare(&sample.bytes, 500, random, met);
    }
    for set in sets {
        for case in &set.cases {
            let units = read(&case.stream).units;
            compare(&case.stream, 40, random, met);
            compare(&case.refused, 10, random, met);
            compare(&damaged(&case.stream, &units, random), 40, random, met);
        }
    }
    for stream in night {
        compare(stream, 40, random, met);
    }
    println!("equal answers at {} hand-made places, of which {} fit", met.places, met.fitting);
    let alone = list(&met.alone, &[2, 3, 4, 5, 7, 8, 9, 10]);
    println!("  those that broke one rule alone of section 7.3 of docs/FORMAT.md, by its number: {alone}");
    let given: [&[usize]; 4] = [&[0, 1, 2, 3, 4, 5, 6, 7, 8, 9, 10, 11], &[0, 2, 11], &[0, 2, 11], &[0, 2, 11]];
    for ((call, numbers), given) in CALLS.iter().zip(&met.numbers).zip(given) {
        println!("  the numbers of {call:?}: {}", list(numbers, given));
    }
    println!("  the numbers of calls for many units: {}", list(&met.units, given[0]));
    for ((call, numbers), given) in CALLS.iter().zip(&met.tabled).zip(given) {
        println!("  the numbers of {call:?} of the table reader: {}", list(numbers, given));
    }
}
