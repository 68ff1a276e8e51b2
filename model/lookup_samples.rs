//! Lookups whose answers are worked out by hand.

use crate::cases::{unit, A, N};
use crate::lookup::{Asked, Found};
use crate::samples::{changed, K1, K12, K2};

pub type Lookup = (&'static str, [Vec<u8>; 2], Asked, Found);

pub fn lookups() -> Vec<Lookup> {
    const B: &[u8] = b"\x01B";
    const PERSON: &[u8] = b"\x06PERSON";
    const ONE: &[u8] = b"\0\0\0\x01";
    const SURNAME: &[u8] = b"\x07SURNAME";
    let field = |name: &[u8], value: &[u8]| unit(8, &[name, value]);
    let person = |name: &[u8], nested: &[&[u8]]| unit(5, &[name, &nested.concat()]);
    let (key, keyed) = (unit(6, &[N]), unit(7, &[N]));
    let (without, with) = (person(A, &[&key]), person(A, &[&key, &field(A, b"v")]));
    // The field at 24, its value at 32.
    let plain = unit(4, &[&person(A, &[&key, &field(A, b"w!")])]);
    // A template of 18 bytes, then the one with the field: at 24, its key at 32, the field at 42, the value at 50.
    let after = |first: &[u8]| unit(4, &[first, &with]);
    // Keys at 14 and 21, the field at 29, its empty value at 37.
    let keys = unit(4, &[&person(A, &[&unit(7, &[b"x"]), &unit(7, &[b"yy"]), &field(A, b"")])]);
    // Fields at 24, 33 and 42.
    let fields = unit(4, &[&person(A, &[&key, &field(B, b"b"), &field(A, b"1"), &field(A, b"22")])]);
    // An entity key at 16; a template at 44, its key at 52, its field at 62.
    let relation = unit(9, &[N, &unit(11, &[A, &key]), &unit(12, &[N])]);
    let related = unit(4, &[&relation, &with]);
    // The field is that of the next template.
    let next = unit(4, &[&without, &person(B, &[&key, &field(A, b"v")])]);
    // A field, and a template, that are values.
    let values =
        unit(4, &[&person(A, &[&unit(7, &[&field(B, b"k")]), &field(A, &person(A, &[&key, &field(B, b"x")]))])]);
    let [k8, k9, k10, k11] = [(9, 0x17), (1, 0xF0), (33, 0x00), (13, 0x31)].map(|(at, byte)| changed(K2, at, &[byte]));
    let (stream, nothing) = (unit(1, &[&unit(2, &[A]), &plain]), unit(4, &[]));

    let asked = |template: &[u8], key_id, key: &[u8], field: &[u8]| {
        let [template, key, field] = [template, key, field].map(<[u8]>::to_vec);
        Asked { template, key_id, key, field }
    };
    let (surname, a) = (|| asked(PERSON, 6, ONE, SURNAME), || asked(A, 6, N, A));
    let found = |which, start, length| Found { number: 0, offset: 0, which, part: (start, length) };
    let refused = |number, offset| Found { number, offset, which: 0, part: (0, 0) };
    let rows: [(&'static str, [&[u8]; 2], Asked, Found); 38] = [
        ("k2 twice", [K2, K2], surname(), found(1, 43, 3)),
        ("k2 first", [K2, &plain], surname(), found(1, 43, 3)),
        ("k2 second", [&plain, K2], surname(), found(2, 43, 3)),
        ("no bytes", [b"", b""], surname(), refused(3, 0)),
        ("k9 first", [&k9, K2], surname(), refused(4, 0)),
        ("k11 second", [K2, &k11], surname(), refused(9, 13)),
        ("nothing second", [K2, &nothing], surname(), refused(10, 0)),
        ("k10 before k11", [&k10, &k11], surname(), refused(8, 29)),
        ("k11 before k10", [&k11, &k10], surname(), refused(9, 13)),
        ("k8 before another root", [&k8, K1], surname(), refused(7, 29)),
        ("k8 after another root", [K12, &k8], surname(), refused(7, 29)),
        ("file group first", [K1, K2], surname(), refused(7, 0)),
        ("file group second", [K2, K1], surname(), refused(7, 0)),
        ("the group in a stream", [&plain, &stream], a(), refused(7, 0)),
        ("template without count", [K2, K2], asked(&PERSON[1..], 6, ONE, SURNAME), refused(15, 0)),
        ("field without count", [K2, K2], asked(PERSON, 6, ONE, &SURNAME[1..]), refused(15, 0)),
        ("field cut", [K2, K2], asked(PERSON, 6, ONE, b"\x06SURNAM"), refused(15, 0)),
        ("field and value", [K2, K2], asked(PERSON, 6, ONE, b"\x07SURNAME\xC3"), refused(15, 0)),
        ("no names", [K2, K2], asked(b"", 6, ONE, b""), refused(15, 0)),
        ("key of kind 7", [K2, K2], asked(PERSON, 7, ONE, SURNAME), refused(15, 0)),
        ("key of no kind", [K2, K2], asked(PERSON, (1 << 32) + 6, ONE, SURNAME), refused(15, 0)),
        ("key cut", [K2, K2], asked(PERSON, 6, &ONE[..3], SURNAME), refused(15, 0)),
        ("plain", [&plain, &plain], a(), found(1, 32, 2)),
        ("only the first such template", [&after(&without), &after(&without)], a(), refused(15, 0)),
        ("then the second stream", [&after(&without), &plain], a(), found(2, 32, 2)),
        ("only the first of the second stream", [K2, &after(&without)], a(), refused(15, 0)),
        ("after another name", [&after(&person(B, &[&key])), K2], a(), found(1, 50, 1)),
        ("after another key", [&after(&person(A, &[&unit(6, &[ONE])])), K2], a(), found(1, 50, 1)),
        ("after another kind of key", [K2, &after(&person(A, &[&keyed]))], a(), found(2, 50, 1)),
        ("the next template's field", [&next, &next], a(), refused(15, 0)),
        ("first key, empty value", [&keys, &plain], asked(A, 7, b"x", A), found(1, 37, 0)),
        ("later key", [&keys, &keys], asked(A, 7, b"yy", A), refused(15, 0)),
        ("first of two fields", [&fields, &plain], a(), found(1, 41, 1)),
        ("field before them", [&fields, &plain], asked(A, 6, N, B), found(1, 32, 1)),
        ("entity key", [&unit(4, &[&relation]), K2], a(), refused(15, 0)),
        ("after an entity key", [&related, &plain], a(), found(1, 70, 1)),
        ("template in a value", [&values, &values], asked(A, 6, N, B), refused(15, 0)),
        ("field in a key", [&values, &values], asked(A, 7, &field(B, b"k"), B), refused(15, 0)),
    ];
    rows.map(|(label, streams, asked, found)| (label, streams.map(<[u8]>::to_vec), asked, found)).into()
}
