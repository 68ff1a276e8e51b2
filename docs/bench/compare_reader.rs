//! That FIRST and the NEXTs hand out what plain Rust does: each call, and the walks that are timed. On all streams of the night too.

use crate::archive::{proved_walk, Batches, Now, Place, Reads, Table, LAST, LAST_RANK};
use crate::compare::{read, Expected};
use crate::iterator;
use crate::place::Spot;
use crate::plain::{walk, INLINED, OUT_OF_LINE};
use crate::random::Random;
use crate::rules::{Handed, Stop, Unit, RANGES, ROW};
use crate::streams::damaged;

/// Id, action, start, own end, end, depth and rank.
pub fn words(handed: &Handed) -> [u64; 7] {
    let Unit { id, action, start, own, end } = handed.unit;
    let [start, own, end, depth, rank] = [start, own, end, handed.depth, handed.rank].map(|number| number as u64);
    [id as u64, action as u64, start, own, end, depth, rank]
}

/// The three forms of the plain walk, the proved loop, and the Rust crate's iterator.
pub fn assert_plain_walk(label: &str, bytes: &[u8], expected: &Expected) {
    assert_eq!(walk::<INLINED, RANGES>(bytes), expected.fold(), "plain walk on {label}");
    assert_eq!(walk::<OUT_OF_LINE, RANGES>(bytes), expected.fold(), "plain walk, out of line, on {label}");
    assert_eq!(walk::<INLINED, ROW>(bytes), expected.fold(), "plain walk, names by a row, on {label}");
    assert_eq!(proved_walk(bytes), expected.fold(), "cdf_walk on {label}");
    assert_eq!(iterator::walk(bytes), expected.fold(), "the Rust crate's iterator on {label}");
}

/// Number, offset and unit of each call, and what the place says of it; then the walk from C. Gives the places that were met.
pub fn assert_reader<A: Reads>(label: &str, bytes: &[u8], expected: &Expected) -> Vec<Place> {
    let mut place = [u64::MAX; 25];
    let mut answer = [u64::MAX; 10];
    let mut met = Vec::with_capacity(expected.handed.len() + 1);
    let mut number = A::first(bytes, &mut place, &mut answer);
    for handed in &expected.handed {
        let [id, action, start, own, end, depth, rank] = words(handed);
        assert_eq!(number, 0, "{}number on {label}, {handed:?}", A::NAME);
        assert_eq!(answer, [0, id, action, start, own, end, 0, 0, depth, rank], "{}answer on {label}", A::NAME);
        assert_eq!(place[LAST], [id, action, start, own, end], "{}last unit of the place on {label}", A::NAME);
        assert_eq!(place[LAST_RANK], rank, "{}its rank in the place on {label}", A::NAME);
        met.push(place);
        let given = place;
        answer = [u64::MAX; 10];
        number = A::next(bytes, &mut place, &mut answer);
        assert!(number == 0 || place == given, "a refusal changed the place on {label}, after {handed:?}");
    }
    let Stop { number: stop, offset } = expected.stop;
    assert_eq!((number, answer[0]), (stop as u64, offset as u64), "{}number and offset on {label}", A::NAME);
    assert_eq!(answer[1..], [0; 9], "{}unit and part beside a refusal on {label}", A::NAME);
    assert!(!expected.units.is_empty() || place == [0; 25], "the place of a refused start on {label}");
    assert_eq!(A::walk(bytes), expected.fold(), "{}single calls from C on {label}", A::NAME);
    met.push(place);
    met
}

/// All units behind the root in batches for so many: the lists, the answers, the places, and what ends them; then the walk from C.
pub fn assert_units<A: Batches>(label: &str, bytes: &[u8], expected: &Expected, met: &[Place], room: usize) {
    assert_eq!(A::walk_units(bytes), expected.fold(), "{}units by 32 from C on {label}", A::NAME);
    let Some(behind) = expected.handed.get(1..) else {
        return;
    };
    let mut place = met[0];
    let mut handed = 0;
    for units in behind.chunks(room) {
        let (mut list, mut answer) = (vec![u64::MAX; 7 * room + 3], [u64::MAX; 2]);
        let number = A::units(bytes, &mut place, &mut list, &mut answer);
        handed += units.len();
        let mut owed: Vec<u64> = units.iter().flat_map(words).collect();
        owed.resize(list.len(), u64::MAX);
        assert_eq!((number, answer), (0, [0, units.len() as u64]), "{}batch up to unit {handed} on {label}", A::NAME);
        assert!(list == owed, "{}the list up to unit {handed} on {label}", A::NAME);
        assert_eq!(Spot::new(&place), Spot::new(&met[handed]), "{}the place behind unit {handed} on {label}", A::NAME);
    }
    let (given, mut list, mut answer) = (place, [u64::MAX; 7], [u64::MAX; 2]);
    let number = A::units(bytes, &mut place, &mut list, &mut answer);
    let Stop { number: stop, offset } = expected.stop;
    assert_eq!((number, answer), (stop as u64, [offset as u64, 0]), "{}what ends the batches on {label}", A::NAME);
    assert!(place == given && list == [u64::MAX; 7], "{}place and list beside {number} on {label}", A::NAME);
}

/// All streams of the night, each whole, and damaged in one or two places.
pub fn assert_night(night: &[Vec<u8>]) {
    let random = &mut Random::new(night.len() as u64);
    let mut units = 0;
    let mut compare = |label: &str, bytes: &[u8]| {
        let expected = read(bytes);
        assert_plain_walk(label, bytes, &expected);
        let met = assert_reader::<Now>(label, bytes, &expected);
        assert_units::<Now>(label, bytes, &expected, &met, 32);
        assert_reader::<Table>(label, bytes, &expected);
        #[cfg(before)]
        assert_reader::<crate::archive::Before>(label, bytes, &expected);
        units += expected.units.len();
        expected
    };
    for (at, stream) in night.iter().enumerate() {
        let expected = compare(&format!("stream {at} of the night"), stream);
        assert_eq!(expected.stop.number, 1, "a stream of the night is accepted");
        compare(&format!("stream {at} of the night, damaged"), &damaged(stream, &expected.units, random));
    }
    println!("equal answers on the {} streams of the night, and on a damaged copy of each: {units} units", night.len());
}
