//! The walk of plain.rs with the same fold, by the iterator of the Rust crate.

use cdf::{Reader, Unit};

fn fold_unit(fold: u64, unit: &Unit) -> u64 {
    fold.rotate_left(5)
        ^ unit.start() as u64
        ^ (unit.own_end() as u64) << 16
        ^ (unit.end() as u64) << 32
        ^ unit.id().number() << 48
        ^ unit.action().number() << 56
        ^ (unit.depth() as u64) << 52
        ^ (unit.rank() as u64) << 8
}

pub fn walk(stream: &[u8]) -> u64 {
    let mut fold = 0;
    for unit in Reader::new(stream) {
        match unit {
            Ok(unit) => fold = fold_unit(fold, &unit),
            Err(refusal) => return fold ^ refusal.number << 57 ^ (refusal.offset.unwrap_or(0) as u64) << 3,
        }
    }
    // The end.
    fold ^ 1 << 57
}
