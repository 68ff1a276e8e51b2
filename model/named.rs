//! The stored cases of the check that have a name of their own.

use crate::cases::{complete, nested, unit, unit_with, A, N};
use crate::rules::MARK;
use crate::samples::{changed, K1, K12, K2};

/// A file group: fifteen full lines, 4,096 bytes each, then a line with this many.
pub fn sixteen_lines(last: usize) -> Vec<u8> {
    let mut lines = unit(14, &[&[b'x'; 4096]]).repeat(15);
    lines.extend(unit(14, &[&vec![b'x'; last]]));
    unit(13, &[&lines])
}

pub fn named() -> Vec<(&'static str, Vec<u8>)> {
    let full = sixteen_lines(3993);
    let [call, parameter, group, template, key, value_key, field, entity, rel_key, file, line] =
        [2, 3, 4, 5, 6, 7, 8, 11, 12, 13, 14].map(complete);
    let short = &line[..5];
    // A template in a group, and an entity key that is the source of a relation in a group, with these units in it.
    let person = |nested: &[&[u8]]| unit(4, &[&unit(5, &[A, &nested.concat()])]);
    let source = |nested: &[&[u8]]| unit(4, &[&unit(9, &[N, &unit(11, &[A, &nested.concat()]), &rel_key])]);
    let deep = |ends: &[&[u8]]| unit(1, &[&call, &unit(4, &[&unit(9, &[N, &ends.concat()])])]);
    let (acting, cut) = (|id| changed(&complete(id), 4, &[1]), unit(6, &[&N[..3]]));
    vec![
        ("full", full.clone()),
        ("full-and-one", [&full[..], b"x"].concat()),
        ("zeros", vec![0; 65_536]),
        ("full-wrapped", sixteen_lines(3994)),
        ("full-last-early", changed(&full, 61_538, &[0x0F, 0x9E])),
        ("full-last-late", changed(&full, 61_538, &[0x0F, 0xA0])),
        ("full-stream", unit(1, &[&call, &sixteen_lines(3979)])),
        ("full-of-units", unit(13, &[&line.repeat(10_920), &unit(14, &[b"xyz"])])),
        ("marks-in-lines", unit(13, &[&unit(14, &[&MARK]), &unit(14, &[K1]), &unit(14, &[K2]), &unit(14, &[short])])),
        ("marks-in-template", unit(4, &[&unit(5, &[A, &unit(7, &[K1]), &unit(8, &[A, K2]), &unit(8, &[A, &MARK])])])),
        ("marks-in-relation", unit(4, &[&unit(9, &[&MARK, &MARK, &unit(12, &[&MARK, &MARK]), &entity])])),
        ("marks-in-parameter", unit(1, &[&unit(2, &[A, &unit(3, &[A, K12]), &unit(3, &[A, &MARK])])])),
        ("stream", unit(1, &[&unit(2, &[A, &parameter, &parameter]), &group, &call, &call, &file, &call])),
        ("second-group", unit(1, &[&call, &group, &group])),
        ("second-file", unit(1, &[&call, &file, &file])),
        ("mixed-keys", unit(4, &[&unit(5, &[A, &key, &value_key, &key, &field, &field])])),
        ("key-after-field", unit(4, &[&unit(5, &[A, &key, &field, &value_key, &key])])),
        ("five-deep", deep(&[&entity, &unit(11, &[A, &value_key, &value_key])])),
        ("five-deep-fault", deep(&[&unit(11, &[A, &key, &[0; 6]])])),
        ("no-call", unit(1, &[])),
        ("no-template", unit(4, &[])),
        ("no-line", unit(13, &[])),
        ("no-line-inside", unit(1, &[&call, &unit(13, &[]), &call])),
        ("no-key", unit(4, &[&unit(5, &[A])])),
        ("no-key-inside", unit(1, &[&call, &unit(4, &[&template, &unit(5, &[A]), &template]), &call])),
        ("no-entity-key", unit(4, &[&unit(9, &[N, &unit(11, &[A]), &rel_key])])),
        ("no-entity-key-innermost", unit(4, &[&unit(9, &[N, &unit(11, &[A])])])),
        ("name-past-end", unit(1, &[&unit(2, &[b"\x05MERG"])])),
        ("name-past-unit", changed(K12, 9, &[0x0B])),
        ("mark-zeros", vec![0; 6]),
        ("mark-swapped", changed(K1, 0, &[0xF1, 0xCD])),
        ("two-roots", [K1, K1].concat()),
        // Two rules are broken, and the first in the label is the one met.
        ("both-3-4", vec![0; 5]),
        ("both-3-7", nested(&[9, 12, 11], short)),
        ("both-4-5", changed(K1, 1, &[0, 0, 0])),
        ("both-4-7", nested(&[9, 12, 11], &[0; 6])),
        ("both-5-6", changed(K1, 8, &[0, 5, 9, 15])),
        ("both-7-8", unit(13, &[&unit_with(5, 9, &[])])),
        ("both-8-9", unit(4, &[&unit_with(5, 0, &[b"\x01a"])])),
        ("both-9-10", unit(4, &[&unit(5, &[b"\x01a"])])),
        ("both-10-3", unit(4, &[&unit(5, &[A]), &[0]])),
        ("both-10-4", unit(4, &[&unit(5, &[A]), &[0; 6]])),
        // Keys of one kind, and a key too many.
        ("temporary-key", person(&[&key, &field, &field])),
        ("template-keys", person(&[&value_key, &value_key, &value_key, &field, &field])),
        ("entity-temporary-key", source(&[&key])),
        ("entity-template-keys", source(&[&value_key, &value_key, &value_key])),
        ("second-temporary-key", person(&[&key, &key, &field])),
        ("template-key-after-temporary", person(&[&key, &value_key, &field])),
        ("temporary-after-template-key", person(&[&value_key, &key, &field])),
        ("temporary-after-template-keys", person(&[&value_key, &value_key, &key])),
        ("temporary-after-field", person(&[&key, &field, &key])),
        ("template-key-after-field", person(&[&value_key, &field, &value_key])),
        ("entity-second-temporary-key", source(&[&key, &key])),
        ("entity-template-key-after-temporary", source(&[&key, &value_key])),
        ("entity-temporary-after-template-key", source(&[&value_key, &key])),
        ("entity-temporary-after-template-keys", source(&[&value_key, &value_key, &key])),
        ("five-deep-mixed", deep(&[&entity, &unit(11, &[A, &value_key, &key])])),
        ("five-deep-fault-template-key", deep(&[&unit(11, &[A, &value_key, &[0; 6]])])),
        // A key too many and another rule, and the first in the label is the one met.
        ("key-both-3-7", person(&[&key, &key[..5]])),
        ("key-both-4-7", person(&[&key, &changed(&key, 0, &[0])])),
        ("key-both-5-7", person(&[&key, &changed(&key, 3, &[11])])),
        ("key-both-7-8", person(&[&key, &acting(6)])),
        ("key-both-7-8-template-key", person(&[&key, &acting(7)])),
        ("key-both-7-8-temporary", person(&[&value_key, &acting(6)])),
        ("key-both-7-9", person(&[&key, &cut])),
        ("key-both-7-9-long", person(&[&key, &unit(7, &[&[b'x'; 4097]])])),
        ("entity-key-both-7-8", source(&[&key, &acting(6)])),
        ("entity-key-both-7-9", source(&[&key, &cut])),
        ("key-both-8-7", person(&[&acting(6), &key])),
        ("key-both-9-7", person(&[&cut, &key])),
        // A 9, and where the byte stands that it names.
        ("byte-no-count", unit(1, &[&unit(2, &[]), &call])),
        ("byte-no-count-at-n", unit(1, &[&call, &unit(2, &[])])),
        ("byte-no-count-innermost", unit(4, &[&unit(5, &[A, &key, &unit(8, &[])])])),
        ("byte-no-count-in-first", unit(4, &[&unit(5, &[A, &key, &unit(8, &[])]), &template])),
        ("byte-count-0", changed(K2, 12, &[0])),
        ("byte-count-33", unit(4, &[&unit(5, &[&[33], &[b'?'; 33], &key])])),
        ("byte-count-past-unit", unit(4, &[&unit(5, &[b"\x03?A"]), &template])),
        ("byte-count-into-nested", changed(K2, 12, &[7])),
        ("byte-count-to-end", unit(4, &[&unit(5, &[b"\x0A", &key])])),
        ("byte-count-into-value", changed(K2, 35, &[8])),
        ("byte-first", changed(K2, 36, b"_")),
        ("byte-two", changed(K2, 38, b"rn")),
        ("byte-last", changed(K2, 18, b"n")),
        ("byte-value", unit(13, &[&line, &unit(14, &[&[b'x'; 5000]])])),
        ("byte-value-last", unit(13, &[&line, &unit(14, &[&[b'x'; 4097]])])),
        ("byte-field-value", unit(4, &[&unit(5, &[A, &key, &unit(8, &[b"\x04NOTE", &[b'x'; 4200]])])])),
        ("byte-name-and-value", unit(4, &[&unit(5, &[A, &key, &unit(8, &[b"\x04NOtE", &[b'x'; 4200]])])])),
        ("byte-count-and-value", unit(4, &[&unit(5, &[A, &key, &unit(8, &[&[b'x'; 4200]])])])),
        ("byte-number-short", unit(4, &[&unit(5, &[A, &unit(6, &[&N[..3]]), &key])])),
        ("byte-number-long", unit(4, &[&unit(5, &[A, &unit(6, &[N, N])])])),
        ("byte-no-number", unit(4, &[&unit(5, &[A, &unit(6, &[])])])),
        ("byte-relation-number", unit(4, &[&unit(9, &[&N[..3]]), &template])),
        ("byte-second-number", unit(4, &[&unit(10, &[N, &N[..3]]), &template])),
        ("byte-no-second-number", unit(4, &[&unit(10, &[N])])),
    ]
}
