//! A plain rescue: what the proved one is measured against.

use crate::archive::Rescued;
use crate::plain::in_group;

const RUNS: usize = 64;

/// The number, and into `answer`, in the order of `cdf_rescue`, the group's length and the runs that were dropped. One pass
/// judges the bytes, and a second copies what is kept, since a refusal writes nothing.
#[inline(always)]
pub fn rescue<const CALLS: bool>(bytes: &[u8], group: &mut [u8], answer: &mut Rescued) -> u64 {
    *answer = [0; 130];
    if bytes.len() < 6 {
        return 3;
    }
    let mut runs = [(0, 0); RUNS];
    let (mut at, mut dropped, mut length) = (6, 0, 6);
    while at < bytes.len() {
        if let Some(end) = in_group::<CALLS>(bytes, at) {
            length += end - at;
            at = end;
            continue;
        }
        if dropped > 0 && runs[dropped - 1].1 == at {
            runs[dropped - 1].1 += 1;
        } else if dropped < RUNS {
            runs[dropped] = (at, at + 1);
            dropped += 1;
        } else {
            // There are units between the runs, so it is not 16.
            return 17;
        }
        at += 1;
    }
    match length {
        6 => return 16,
        65_536.. => return 13,
        _ if length > group.len() => return 12,
        _ => {}
    }
    let [high, low] = (length as u16).to_be_bytes();
    group[..6].copy_from_slice(&[0xCD, 0xF1, high, low, 0, 4]);
    let (mut from, mut to) = (6, 6);
    for (first, after) in runs[..dropped].iter().copied().chain([(bytes.len(), bytes.len())]) {
        let end = to + first - from;
        group[to..end].copy_from_slice(&bytes[from..first]);
        (from, to) = (after, end);
    }
    answer[..2].copy_from_slice(&[length as u64, dropped as u64]);
    for (pair, (first, after)) in answer[2..].chunks_exact_mut(2).zip(&runs[..dropped]) {
        pair.copy_from_slice(&[*first as u64, *after as u64]);
    }
    0
}
