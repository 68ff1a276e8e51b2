//! The samples K1 to K12 of document 01, and what it and requests a, b, c and g of document 02 say of them, written down by hand.

use crate::archive::Explanation;

/// The check's answer, for K11 by request b: 0 with the count of units, or the refusal and its offset. The units that FIRST and the NEXTs
/// hand out, by request g: id, action, start, own end, end, depth, rank. Of a refused one, by requests a and c, id and start of
/// the units open there and the ids that may stand there.
pub struct Sample {
    pub name: &'static str,
    pub bytes: Vec<u8>,
    pub answer: (u64, u64),
    pub units: &'static [[u64; 7]],
    open: &'static [(u64, u64)],
    ids: &'static [u64],
}

impl Sample {
    /// What request a says, as the archive's numbers.
    pub fn explanation(&self) -> Explanation {
        let mut numbers = [0; 25];
        let offset = if self.answer.0 == 0 { 0 } else { self.answer.1 };
        (numbers[0], numbers[1], numbers[10]) = (offset, self.open.len() as u64, self.ids.len() as u64);
        for (pair, (id, start)) in numbers[2..10].chunks_exact_mut(2).zip(self.open) {
            pair.copy_from_slice(&[*id, *start]);
        }
        numbers[11..11 + self.ids.len()].copy_from_slice(self.ids);
        numbers
    }
}

const FILE: [u64; 7] = [13, 0, 0, 6, 16, 1, 0];
const GROUP: [u64; 7] = [4, 0, 0, 6, 46, 1, 0];
const PERSON: [u64; 7] = [5, 1, 6, 19, 46, 2, 0];
const KEY: [u64; 7] = [6, 0, 19, 29, 29, 3, 0];

pub fn samples() -> [Sample; 12] {
    const K1: &[u8] = b"\xCD\xF1\x00\x10\x00\x0D\xCD\xF1\x00\x0A\x00\x0E\xC3\x89va";
    const K2: &[u8] = b"\xCD\xF1\x00\x2E\x00\x04\xCD\xF1\x00\x28\x01\x05\x06PERSON\
        \xCD\xF1\x00\x0A\x00\x06\x00\x00\x00\x01\xCD\xF1\x00\x11\x01\x08\x07SURNAME\xC3\x85s";
    const K12: &[u8] = b"\xCD\xF1\x00\x12\x00\x01\xCD\xF1\x00\x0C\x00\x02\x05MERGE";
    const ROOTS: &[u64] = &[1, 4, 13];
    let sample = |name, bytes: &[u8], answer, units, open, ids| {
        let bytes = bytes.to_vec();
        Sample { name, bytes, answer, units, open, ids }
    };
    let changed = |name, of: &[u8], place: usize, byte: u8, answer, units, open, ids| {
        let mut bytes = of.to_vec();
        bytes[place] = byte;
        Sample { name, bytes, answer, units, open, ids }
    };
    [
        sample("K1", K1, (0, 2), &[FILE, [14, 0, 6, 12, 16, 2, 0]], &[], &[]),
        sample("K2", K2, (0, 4), &[GROUP, PERSON, KEY, [8, 1, 29, 43, 46, 3, 1]], &[], &[]),
        sample("K3", b"", (3, 0), &[], &[], ROOTS),
        sample("K4", b"\xCD\xF1\x00\x06\x00\x0D", (10, 0), &[[13, 0, 0, 6, 6, 1, 0]], &[(13, 0)], &[14]),
        changed("K5", K1, 3, 0x0F, (5, 0), &[], &[], ROOTS),
        changed("K6", K1, 9, 0x0B, (5, 6), &[FILE], &[(13, 0)], &[14]),
        changed("K7", K1, 9, 0x09, (3, 15), &[FILE, [14, 0, 6, 12, 15, 2, 0]], &[(13, 0)], &[14]),
        changed("K8", K2, 9, 0x17, (7, 29), &[GROUP, [5, 1, 6, 19, 29, 2, 0], KEY], &[(4, 0)], &[5, 9, 10]),
        changed("K9", K2, 1, 0xF0, (4, 0), &[], &[], ROOTS),
        changed("K10", K2, 33, 0x00, (8, 29), &[GROUP, PERSON, KEY], &[(4, 0), (5, 6)], &[8]),
        changed("K11", K2, 13, 0x31, (9, 13), &[GROUP], &[(4, 0)], &[5, 9, 10]),
        sample("K12", K12, (0, 2), &[[1, 0, 0, 6, 18, 1, 0], [2, 0, 6, 18, 18, 2, 0]], &[], &[]),
    ]
}
