//! That the proved resolving gives plain Rust's answers.

use crate::compare::{list, read};
use crate::plain::{INLINED, OUT_OF_LINE};
use crate::plain_resolve::resolve;
use crate::random::Random;
use crate::resolve::{proved, KINDS};
use crate::samples::samples;
use crate::streams::{damaged, unit, Set, SIZES};

/// The number, the offset, and the ranks.
type Answer = (u64, u64, Vec<u64>);

/// What request i of document 02 says, from the units that the plain reader hands out.
fn expected(stream: &[u8], room: usize) -> Answer {
    let told = read(stream);
    match told.check() {
        (0, _) if told.units[0].id != 4 => return (7, 0, vec![]),
        (0, _) => {}
        (number, offset) => return (number, offset, vec![]),
    }
    // A unit with a temporary key has no other, so that it is handed out next.
    let with_key: Vec<_> = told.handed.windows(2).filter(|pair| pair[1].unit.id == 6).collect();
    let says = |at: usize| {
        let [outer, key] = [with_key[at][0].unit, with_key[at][1].unit];
        (&stream[outer.start + 6..outer.own], &stream[key.start + 6..key.end])
    };
    let is = |at: usize, id: u8| with_key[at][0].unit.id == id;
    let earlier = |at: usize| (0..at).find(|other| is(*other, 5) && says(*other) == says(at));
    let of = |id: u8| (0..with_key.len()).filter(move |at| is(*at, id)).collect::<Vec<_>>();
    let (templates, entities) = (of(5), of(11));
    let start = |at: usize| with_key[at][0].unit.start as u64;
    if templates.len() > 256 {
        return (18, 0, vec![]);
    }
    if let Some(doubled) = templates.iter().find(|at| earlier(**at).is_some()) {
        return (19, start(*doubled), vec![]);
    }
    if let Some(alone) = entities.iter().find(|at| earlier(**at).is_none()) {
        return (20, start(*alone), vec![]);
    }
    match entities.len() > room {
        true => (12, 0, vec![]),
        false => (0, 0, entities.iter().filter_map(|at| earlier(*at)).map(|at| with_key[at][0].rank as u64).collect()),
    }
}

/// How often each number was met.
struct Met([usize; 21]);

impl Met {
    /// Number, answer, and every number of the list.
    fn compare(&mut self, label: &str, stream: &[u8], room: usize) -> Answer {
        let owed = expected(stream, room);
        let mut left = vec![u64::MAX; room];
        left[..owed.2.len()].copy_from_slice(&owed.2);
        let codes: [(&str, fn(&[u8], &mut [u64], &mut [u64; 2]) -> u64); 3] = [
            ("plain resolve", resolve::<INLINED>),
            ("plain resolve, out of line", resolve::<OUT_OF_LINE>),
            ("cdf_resolve", proved),
        ];
        for (code, run) in codes {
            let (mut list, mut answer) = (vec![u64::MAX; room], [u64::MAX; 2]);
            let number = run(stream, &mut list, &mut answer);
            assert_eq!(
                (number, answer),
                (owed.0, [owed.1, owed.2.len() as u64]),
                "{code} on {label}, a list of {room}"
            );
            assert!(list == left, "the list of {code} on {label}, a list of {room}");
        }
        self.0[owed.0 as usize] += 1;
        owed
    }

    /// Into a list that is long, exact, too short by one, and none.
    fn compare_rooms(&mut self, label: &str, stream: &[u8]) -> Answer {
        let answer = self.compare(label, stream, 65_535 / 18);
        let count = answer.2.len();
        for room in [count, count.saturating_sub(1), 0] {
            self.compare(label, stream, room);
        }
        answer
    }
}

/// K1 to K12 with what request i says, written down by hand: K2 is an E/R group without a relation.
fn compare_samples(met: &mut Met) {
    for sample in samples() {
        let said = match (sample.name, sample.answer) {
            ("K2", _) => (0, 0, vec![]),
            (_, (0, _)) => (7, 0, vec![]),
            (_, (number, offset)) => (number, offset, vec![]),
        };
        assert_eq!(met.compare_rooms(sample.name, &sample.bytes), said, "request i on {}", sample.name);
    }
}

fn key(id: u8, number: u32) -> Vec<u8> {
    unit(id, 0, &number.to_be_bytes(), &[])
}

/// Groups with few names and numbers, of templates and relations as they come.
fn few(random: &mut Random) -> Vec<u8> {
    const NAMES: [&[u8]; 3] = [b"\x01P", b"\x01Q", b"\x02PQ"];
    let numbers = random.pick(&[1, 3, 40]);
    let keyed = |id: u8, random: &mut Random| {
        let (name, kind) = (random.pick(&NAMES), random.pick(&[6, 6, 6, 7]));
        unit(id, u8::from(id == 5), name, &key(kind, random.below(numbers) as u32))
    };
    let mut nested = Vec::new();
    for _ in 0..random.between(1, 12) {
        let one = match random.below(3) {
            0 => {
                let ends = [keyed(11, random), keyed(11, random)].concat();
                unit(9, 1, b"\x00\x00\x00\x01", &ends)
            }
            _ => keyed(5, random),
        };
        nested.extend(one);
    }
    unit(4, 0, &[], &nested)
}

/// So many templates, and relations that name the first and the last of them, or none.
fn many(templates: u32, doubled: bool, alone: bool) -> Vec<u8> {
    let template = |number| unit(5, 1, b"\x01P", &key(6, number));
    let entity = |number| unit(11, 0, b"\x01P", &key(6, number));
    let mut nested: Vec<u8> = (1..templates).flat_map(template).collect();
    nested.extend(template(if doubled { 1 } else { templates }));
    let ends = [entity(1), entity(if alone { 999 } else { templates - 1 })].concat();
    nested.extend(unit(9, 1, b"\x00\x00\x00\x01", &ends));
    unit(4, 0, &[], &nested)
}

/// Samples, about 256 templates, the streams that are timed, small groups, and all streams and damaged copies of them.
pub fn assert_equal(sets: &[Set]) {
    const FEW: usize = 4_000;
    const DAMAGED: usize = 60;
    let met = &mut Met([0; 21]);
    compare_samples(met);
    for templates in 255..=258 {
        for (doubled, alone) in [(false, false), (true, false), (false, true), (true, true)] {
            let (number, ..) = met.compare_rooms("about 256 templates", &many(templates, doubled, alone));
            let owed = if templates > 256 {
                18
            } else if doubled {
                19
            } else if alone {
                20
            } else {
                0
            };
            assert_eq!(number, owed, "{templates} templates");
        }
    }
    for (name, kind, least) in KINDS {
        for size in SIZES.into_iter().filter(|size| *size >= least) {
            assert_eq!(met.compare_rooms(name, &kind(size)).0, 0, "{name} of {size} bytes");
        }
    }
    let random = &mut Random::new(29);
    for round in 0..FEW {
        let stream = few(random);
        met.compare_rooms(&format!("a small group, {round}"), &stream);
        met.compare(&format!("a damaged small group, {round}"), &damaged(&stream, &read(&stream).units, random), 9);
    }
    for set in sets {
        for (at, case) in set.cases.iter().enumerate() {
            let label = format!("{} of {} bytes, {at}", set.name, set.size);
            met.compare_rooms(&label, &case.stream);
            met.compare(&format!("{label}, refused"), &case.refused, 9);
        }
        for round in 0..DAMAGED {
            let stream = &set.cases[round % set.cases.len()].stream;
            let label = format!("{} of {} bytes, damage {round}", set.name, set.size);
            met.compare(&label, &damaged(stream, &read(stream).units, random), 9);
        }
    }
    println!("equal resolvings of these, of small groups and of groups with about 256 templates");
    println!("  the numbers: {}", list(&met.0, &[0, 3, 4, 5, 6, 7, 8, 9, 10, 12, 18, 19, 20]));
}
