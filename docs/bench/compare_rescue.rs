//! That the proved rescue gives plain Rust's answers.

use crate::archive::{Archive, Now, Rescued};
use crate::compare::{list, read};
use crate::plain::{check, INLINED, OUT_OF_LINE};
use crate::plain_rescue::rescue;
use crate::random::Random;
use crate::samples::samples;
use crate::streams::{damaged, lost, unit, Set};

/// The number, the answer and the group.
type Answer = (u64, Rescued, Vec<u8>);

/// What request f of document 02 says: a unit is kept if the group is accepted that holds it alone.
fn expected(bytes: &[u8], room: usize) -> Answer {
    let refused = |number| (number, [0; 130], Vec::new());
    if bytes.len() < 6 {
        return refused(3);
    }
    let (mut kept, mut runs) = (Vec::new(), Vec::<[u64; 2]>::new());
    let mut at = 6;
    while at < bytes.len() {
        let rest = &bytes[at..];
        // No group holds more than 65,529 bytes; there is no longer unit in these.
        let alone = match rest {
            [0xCD, 0xF1, high, low, ..] => rest.get(..u16::from_be_bytes([*high, *low]).min(65_529) as usize),
            _ => None,
        };
        match alone.filter(|alone| check::<INLINED>(&unit(4, 0, &[], alone)).is_ok()) {
            Some(unit) => {
                kept.extend(unit);
                at += unit.len();
            }
            None => {
                match runs.last_mut() {
                    Some([_, after]) if *after == at as u64 => *after += 1,
                    _ => runs.push([at as u64, at as u64 + 1]),
                }
                at += 1;
            }
        }
    }
    match 6 + kept.len() {
        6 => refused(16),
        _ if runs.len() > 64 => refused(17),
        65_536.. => refused(13),
        length if length > room => refused(12),
        length => {
            let mut answer = [0; 130];
            answer[..2].copy_from_slice(&[length as u64, runs.len() as u64]);
            answer[2..2 + 2 * runs.len()].copy_from_slice(runs.as_flattened());
            (0, answer, unit(4, 0, &[], &kept))
        }
    }
}

/// Number, answer, and every byte of the buffer.
fn assert_one(code: &str, label: &str, room: usize, expected: &Answer, run: impl Fn(&mut [u8], &mut Rescued) -> u64) {
    let (number, owed, group) = expected;
    let (mut buffer, mut left) = (vec![0xA5; room], vec![0xA5; room]);
    left[..group.len()].copy_from_slice(group);
    let mut answer = [u64::MAX; 130];
    assert_eq!((run(&mut buffer, &mut answer), &answer), (*number, owed), "{code} on {label}, room {room}");
    assert!(buffer == left, "the buffer of {code} on {label}, room {room}");
}

/// How often each number was met.
struct Met([usize; 18]);

impl Met {
    fn compare(&mut self, label: &str, bytes: &[u8], room: usize) -> Answer {
        let expected = expected(bytes, room);
        let one = |code: &str, run: fn(&[u8], &mut [u8], &mut Rescued) -> u64| {
            assert_one(code, label, room, &expected, |buffer, answer| run(bytes, buffer, answer));
        };
        one("plain rescue", rescue::<INLINED>);
        one("plain rescue, out of line", rescue::<OUT_OF_LINE>);
        one("cdf_rescue", Now::rescue);
        #[cfg(before)]
        one("before: cdf_rescue", crate::archive::Before::rescue);
        self.0[expected.0 as usize] += 1;
        expected
    }

    /// With room for all, with exact room, with a byte less and with none.
    fn compare_rooms(&mut self, label: &str, bytes: &[u8]) -> Answer {
        let answer = self.compare(label, bytes, bytes.len() + 7);
        let length = answer.2.len();
        for room in [length, length.saturating_sub(1), 0] {
            self.compare(label, bytes, room);
        }
        answer
    }
}

/// K1 to K12 with what request f says, written down by hand: K2 is an E/R group, and K8's template is whole without its
/// field.
fn compare_samples(met: &mut Met) {
    for sample in samples() {
        let (number, answer, group) = met.compare_rooms(sample.name, &sample.bytes);
        let said: (u64, &[u64]) = match sample.name {
            // K9 differs from K2 in its first six bytes, which are not looked at.
            "K2" | "K9" => (0, &[46, 0]),
            "K8" => (0, &[29, 1, 29, 46]),
            "K3" => (3, &[]),
            _ => (16, &[]),
        };
        assert_eq!((number, &answer[..said.1.len()]), said, "request f on {}", sample.name);
        assert!(sample.name != "K2" || group == sample.bytes, "K2 comes out as it is");
        for length in 0..sample.bytes.len() {
            met.compare_rooms(&format!("{}, {length} bytes", sample.name), &sample.bytes[..length]);
        }
    }
}

/// As many runs as are told, and one more; as many bytes as a group holds, and one more.
fn compare_limits(met: &mut Met) {
    let key = unit(6, 0, b"\x00\x00\x00\x01", &[]);
    let person = unit(5, 1, b"\x06PERSON", &key);
    let field = |length: usize| unit(8, 1, &[b"\x04NOTE", &vec![b'x'; length][..]].concat(), &[]);
    let apart = |count: usize| [&[0; 6], &[&person[..], b"?"].concat().repeat(count)[..]].concat();
    assert_eq!(met.compare_rooms("64 runs", &apart(64)).1[..4], [6 + 64 * 23, 64, 29, 30]);
    assert_eq!(met.compare_rooms("65 runs", &apart(65)).0, 17);
    // 15 templates of 4,130 bytes, and one that fills what is left, with a byte before each.
    let long = |length| [b"?", &unit(5, 1, b"\x06PERSON", &[key.clone(), field(length)].concat())[..]].concat();
    let filled = |more: usize| [vec![0; 6], long(4_096).repeat(15), long(3_545 + more)].concat();
    assert_eq!(met.compare_rooms("as long as a group", &filled(0)).1[..2], [65_535, 16]);
    assert_eq!(met.compare_rooms("longer than a group", &filled(1)).0, 13);
    assert_eq!(met.compare_rooms("longer than a group, 81 runs", &[&apart(65), &filled(1)[6..]].concat()).0, 17);
}

/// Samples, limits, streams, damaged streams, and streams with bytes lost.
pub fn assert_equal(sets: &[Set]) {
    const DAMAGED: usize = 150;
    let met = &mut Met([0; 18]);
    compare_samples(met);
    compare_limits(met);
    for set in sets {
        let random = &mut Random::new(set.size as u64 + 2);
        for (at, case) in set.cases.iter().enumerate() {
            let label = format!("{} of {} bytes, {at}", set.name, set.size);
            let (number, answer, group) = met.compare_rooms(&label, &case.stream);
            let is_group = case.stream[5] == 4;
            assert!(!is_group || (number, answer[1], &group) == (0, 0, &case.stream), "{label} comes out as it is");
            met.compare_rooms(&format!("{label}, another front"), &[&random.bytes(6), &case.stream[6..]].concat());
            met.compare_rooms(&format!("{label}, refused"), &case.refused);
            if let Some(lost) = &case.lost {
                let (number, ..) = met.compare_rooms(&format!("{label}, bytes lost"), lost);
                let owed = if set.name == "fields" { 16 } else { 0 };
                assert_eq!(number, owed, "what is left of {label}, bytes lost");
            }
        }
        for round in 0..DAMAGED {
            let stream = &set.cases[round % set.cases.len()].stream;
            let label = format!("{} of {} bytes, damage {round}", set.name, set.size);
            met.compare(&label, &damaged(stream, &read(stream).units, random), 65_535);
            let count = random.pick(&[1, 1, 2, 8, 70]);
            met.compare(&format!("{label}, {count} bytes lost"), &lost(stream, count, random), 65_535);
        }
    }
    println!("equal rescues of these and of copies with bytes lost");
    println!("  the numbers: {}", list(&met.0, &[0, 3, 12, 13, 16, 17]));
}
