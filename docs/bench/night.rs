//! The part night: NEXT on the streams of a night, one after the other, so that neither caches nor branches are learned on one.

use crate::cases::Case;
use crate::codes::{Part, Scratch, BY_ROW};
use crate::rounds::{self, best, heading, ratios, row};
use std::hint::black_box;

/// The table, by the codes of the part reader.
pub fn table(reader: &Part, night: Vec<Vec<u8>>, rounds: usize) {
    let bytes = night.iter().map(Vec::len).sum::<usize>();
    let streams = night.len();
    let cases: Vec<Case> = night.into_iter().map(|stream| Case::new(stream, &[])).collect();
    let (codes, scratch) = (&reader.codes, &mut Scratch::new());
    let times = rounds::time(codes.len(), rounds, 1, bytes, |code| {
        for case in &cases {
            black_box((codes[code].run)(black_box(case), black_box(&mut *scratch)));
        }
    });
    println!("\n{streams} different streams of small fields, one after the other, {bytes} bytes in all; {rounds} rounds; to plain Rust,");
    println!("ratio of the best times / median of the rounds' ratios; best time in nanoseconds a byte\n");
    println!("{}", heading(["code", "inlined"], &["out of line", "inlined, names by a row", "ns"].map(str::to_string)));
    for (code, own) in codes.iter().zip(&times) {
        let to_plain = [0, 1, BY_ROW].map(|plain| ratios(own, &times[plain]));
        println!("{}", row(&[&[code.name.clone()], &to_plain[..], &[format!("{:.2}", best(own))]].concat()));
    }
}
