//! That the proved reading of a name gives plain Rust's answers: nothing is timed before.

use crate::random::Random;
use crate::{name, Code, Set, KINDS};

/// By document 01 and request b of 02, written down by hand: the number, and the bytes taken or the first wrong one.
const KNOWN: [(&[u8], (u64, u64)); 19] = [
    (b"", (9, 0)),
    (b"\x00", (9, 0)),
    (b"\x00SEX", (9, 0)),
    (b"\x01", (9, 0)),
    (b"\x01S", (0, 2)),
    (b"\x01S\x00", (0, 2)),
    (b"\x03SEX", (0, 4)),
    (b"\x03SEXsex", (0, 4)),
    (b"\x04SEX", (9, 0)),
    (b"\x20SEX", (9, 0)),
    (b"\x06NOTE_1", (0, 7)),
    (b"\x03_EX", (9, 1)),
    (b"\x031EX", (9, 1)),
    (b"\x03S-X", (9, 2)),
    (b"\x03SEx", (9, 3)),
    (b"\x03S\xC3\x89", (9, 2)),
    (b"\x20ABCDEFGHIJKLMNOPQRSTUVWXYZ_12345", (0, 33)),
    (b"\x21ABCDEFGHIJKLMNOPQRSTUVWXYZ_123456", (9, 0)),
    (&[255; 256], (9, 0)),
];

/// How many names were compared, and how many of them are right.
struct Met<'a> {
    codes: &'a [Code],
    names: usize,
    right: usize,
}

impl Met<'_> {
    /// What all codes answer, or how two differ.
    fn compare(&mut self, data: &[u8]) -> Result<(u64, u64), String> {
        let answers = self.codes.iter().map(|code| {
            let mut answer = [u64::MAX];
            ((code.read)(data, &mut answer), answer[0])
        });
        let answers: Vec<_> = answers.collect();
        if let Some(other) = answers.iter().position(|answer| *answer != answers[0]) {
            let [one, other] = [0, other].map(|at| format!("{}: {:?}", self.codes[at].name, answers[at]));
            return Err(format!("different answers on {data:?}\n  {one}\n  {other}"));
        }
        self.names += 1;
        self.right += usize::from(answers[0].0 == 0);
        Ok(answers[0])
    }
}

/// The names to be timed with damaged copies, every byte at every place of a name of every length, and every count.
pub fn compare(codes: &[Code], sets: &[Set]) -> Result<(), String> {
    let met = &mut Met { codes, names: 0, right: 0 };
    for (data, answer) in KNOWN {
        let given = met.compare(data)?;
        if given != answer {
            return Err(format!("{given:?} on {data:?}, but {answer:?} by hand"));
        }
    }
    let random = &mut Random::new(1);
    for set in sets {
        for data in set.names() {
            if met.compare(data)? != (0, 1 + set.length as u64) {
                return Err(format!("a name to be timed is not right: {:?}", &data[..1 + set.length]));
            }
            let mut damaged = data[..1 + set.length].to_vec();
            for _ in 0..2 {
                damaged[random.between(1, set.length)] = random.below(256) as u8;
            }
            met.compare(&damaged)?;
        }
        let sums: Vec<u64> = codes.iter().map(|code| (code.run)(set)).collect();
        if sums.iter().any(|sum| *sum != sums[0]) {
            return Err(format!("different sums, {sums:?}, on {} of {} bytes", set.label, set.length));
        }
    }
    for (_, later) in KINDS {
        for length in 1..=32 {
            let right = name(random, length, later);
            for at in 1..=length {
                for byte in 0..=255 {
                    let mut data = right.clone();
                    data[at] = byte;
                    met.compare(&data)?;
                    data.push(b'A');
                    met.compare(&data)?;
                }
            }
        }
    }
    for count in 0..=255 {
        for length in 0..=256 {
            let mut data = vec![b'A'; 1 + length];
            data[0] = count;
            met.compare(&data)?;
        }
    }
    println!("equal answers on {} names, {} of them right", met.names, met.right);
    Ok(())
}
