//! The samples K1 to K12 of document 01 (K11 as document 02, b has it), and what is worked out by hand: explanations, the
//! bytes that 9 names, and answers to keys of one kind and of two.

use crate::rules::Refusal;

pub const K1: &[u8] = b"\xCD\xF1\x00\x10\x00\x0D\xCD\xF1\x00\x0A\x00\x0E\xC3\x89va";
pub const K2: &[u8] = b"\xCD\xF1\x00\x2E\x00\x04\xCD\xF1\x00\x28\x01\x05\x06PERSON\
    \xCD\xF1\x00\x0A\x00\x06\x00\x00\x00\x01\xCD\xF1\x00\x11\x01\x08\x07SURNAME\xC3\x85s";
pub const K12: &[u8] = b"\xCD\xF1\x00\x12\x00\x01\xCD\xF1\x00\x0C\x00\x02\x05MERGE";

/// The bytes with these in place of those at the offset.
pub fn changed(bytes: &[u8], offset: usize, values: &[u8]) -> Vec<u8> {
    let mut bytes = bytes.to_vec();
    bytes[offset..offset + values.len()].copy_from_slice(values);
    bytes
}

/// Each sample with the answer that the check owes.
pub fn samples() -> [(&'static str, Vec<u8>, Result<u64, Refusal>); 12] {
    let refused = |number, offset| Err(Refusal { number, offset });
    [
        ("K1", K1.to_vec(), Ok(2)),
        ("K2", K2.to_vec(), Ok(4)),
        ("K3", vec![], refused(3, 0)),
        ("K4", b"\xCD\xF1\x00\x06\x00\x0D".to_vec(), refused(10, 0)),
        ("K5", changed(K1, 3, &[0x0F]), refused(5, 0)),
        ("K6", changed(K1, 9, &[0x0B]), refused(5, 6)),
        ("K7", changed(K1, 9, &[0x09]), refused(3, 15)),
        ("K8", changed(K2, 9, &[0x17]), refused(7, 29)),
        ("K9", changed(K2, 1, &[0xF0]), refused(4, 0)),
        ("K10", changed(K2, 33, &[0x00]), refused(8, 29)),
        ("K11", changed(K2, 13, &[0x31]), refused(9, 13)),
        ("K12", K12.to_vec(), Ok(2)),
    ]
}

/// What is told of some of the stored cases: id and start of the open units, and the ids.
pub const TOLD: [(&str, &[(u64, u64)], &[u64]); 45] = [
    ("k1", &[], &[]),
    ("k2", &[], &[]),
    ("k3", &[], &[1, 4, 13]),
    ("k4", &[(13, 0)], &[14]),
    ("k5", &[], &[1, 4, 13]),
    ("k6", &[(13, 0)], &[14]),
    ("k7", &[(13, 0)], &[14]),
    ("k8", &[(4, 0)], &[5, 9, 10]),
    ("k9", &[], &[1, 4, 13]),
    ("k10", &[(4, 0), (5, 6)], &[8]),
    ("k11", &[(4, 0)], &[5, 9, 10]),
    ("k12", &[], &[]),
    ("full-and-one", &[], &[1, 4, 13]),
    ("second-group", &[(1, 0)], &[2]),
    ("key-after-field", &[(4, 0), (5, 6)], &[8]),
    ("five-deep-fault", &[(1, 0), (4, 14), (9, 20), (11, 30)], &[]),
    ("no-call", &[(1, 0)], &[2]),
    ("no-template", &[(4, 0)], &[5, 9, 10]),
    ("no-line-inside", &[(1, 0), (13, 14)], &[14]),
    ("no-key-inside", &[(1, 0), (4, 14), (5, 38)], &[6, 7]),
    ("no-entity-key", &[(4, 0), (9, 6), (11, 16)], &[6, 7]),
    ("no-entity-key-innermost", &[(4, 0), (9, 6), (11, 16)], &[6, 7]),
    ("nested.9-12-14", &[(4, 0), (9, 6)], &[11, 12]),
    ("both-3-7", &[(4, 0), (9, 6)], &[]),
    ("both-10-4", &[(4, 0), (5, 6)], &[6, 7]),
    ("byte-no-count", &[(1, 0)], &[2]),
    ("byte-no-count-at-n", &[(1, 0)], &[2, 4, 13]),
    ("byte-no-count-innermost", &[(4, 0), (5, 6)], &[8]),
    ("byte-no-count-in-first", &[(4, 0), (5, 6)], &[8]),
    ("byte-count-into-nested", &[(4, 0)], &[5, 9, 10]),
    ("byte-no-second-number", &[(4, 0)], &[5, 9, 10]),
    ("mixed-keys", &[(4, 0), (5, 6)], &[8]),
    ("second-temporary-key", &[(4, 0), (5, 6)], &[8]),
    ("template-key-after-temporary", &[(4, 0), (5, 6)], &[8]),
    ("temporary-after-template-key", &[(4, 0), (5, 6)], &[7, 8]),
    ("temporary-after-template-keys", &[(4, 0), (5, 6)], &[7, 8]),
    ("template-key-after-field", &[(4, 0), (5, 6)], &[8]),
    ("entity-second-temporary-key", &[(4, 0), (9, 6), (11, 16)], &[]),
    ("entity-template-key-after-temporary", &[(4, 0), (9, 6), (11, 16)], &[]),
    ("entity-temporary-after-template-key", &[(4, 0), (9, 6), (11, 16)], &[7]),
    ("five-deep-mixed", &[(1, 0), (4, 14), (9, 20), (11, 48)], &[7]),
    ("five-deep-fault-template-key", &[(1, 0), (4, 14), (9, 20), (11, 30)], &[7]),
    ("key-both-5-7", &[(4, 0), (5, 6)], &[8]),
    ("key-both-8-7", &[(4, 0), (5, 6)], &[6, 7]),
    ("nested.11-6-12", &[(4, 0), (9, 6), (11, 16)], &[]),
];

/// Stored cases of keys, right ones and such as are too many: the check's number, and the count of units or the offset.
pub const KEYS: [(&str, u64, u64); 34] = [
    ("temporary-key", 0, 5),
    ("template-keys", 0, 7),
    ("entity-temporary-key", 0, 5),
    ("entity-template-keys", 0, 7),
    ("five-deep", 0, 9),
    ("mixed-keys", 7, 24),
    ("second-temporary-key", 7, 24),
    ("template-key-after-temporary", 7, 24),
    ("temporary-after-template-key", 7, 20),
    ("temporary-after-template-keys", 7, 26),
    ("temporary-after-field", 7, 32),
    ("template-key-after-field", 7, 28),
    ("entity-second-temporary-key", 7, 34),
    ("entity-template-key-after-temporary", 7, 34),
    ("entity-temporary-after-template-key", 7, 30),
    ("entity-temporary-after-template-keys", 7, 36),
    ("five-deep-mixed", 7, 62),
    ("nested.5-6-6", 7, 24),
    ("nested.5-6-7", 7, 24),
    ("nested.5-7-6", 7, 20),
    ("nested.11-6-6", 7, 34),
    ("nested.11-7-6", 7, 30),
    ("key-both-3-7", 3, 24),
    ("key-both-4-7", 4, 24),
    ("key-both-5-7", 5, 24),
    ("key-both-7-8", 7, 24),
    ("key-both-7-8-template-key", 7, 24),
    ("key-both-7-8-temporary", 7, 20),
    ("key-both-7-9", 7, 24),
    ("key-both-7-9-long", 7, 24),
    ("entity-key-both-7-8", 7, 34),
    ("entity-key-both-7-9", 7, 34),
    ("key-both-8-7", 8, 14),
    ("key-both-9-7", 9, 20),
];

/// Stored cases that get 9, and the byte that it names.
pub const POINTED: [(&str, u64); 30] = [
    ("k11", 13),
    ("name-past-end", 12),
    ("name-past-unit", 12),
    ("both-9-10", 13),
    ("byte-no-count", 12),
    ("byte-no-count-at-n", 20),
    ("byte-no-count-innermost", 30),
    ("byte-no-count-in-first", 30),
    ("byte-count-0", 12),
    ("byte-count-33", 12),
    ("byte-count-past-unit", 12),
    ("byte-count-into-nested", 19),
    ("byte-count-to-end", 13),
    ("byte-count-into-value", 43),
    ("byte-first", 36),
    ("byte-two", 38),
    ("byte-last", 18),
    ("byte-value", 4_114),
    ("byte-value-last", 4_114),
    ("byte-field-value", 4_131),
    ("byte-name-and-value", 33),
    ("byte-count-and-value", 30),
    ("byte-number-short", 20),
    ("byte-number-long", 20),
    ("byte-no-number", 20),
    ("byte-relation-number", 12),
    ("byte-second-number", 12),
    ("byte-no-second-number", 12),
    ("name.11.none", 32),
    ("key-both-9-7", 20),
];
