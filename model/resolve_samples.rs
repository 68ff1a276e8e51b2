//! Groups to be resolved, whose answers are worked out by hand.

use crate::cases::{unit, unit_with, A, N};
use crate::resolve::Resolved;
use crate::samples::{changed, K1, K12, K2};

/// A label, the stream, the list's length and the answer.
pub type Resolve = (&'static str, Vec<u8>, u64, Resolved);

pub fn resolves() -> Vec<Resolve> {
    const AB: &[u8] = b"\x02AB";
    const ONE: &[u8] = b"\0\0\0\x01";
    const TWO: &[u8] = b"\0\0\0\x02";
    let numbered = |number: u32| number.to_be_bytes();
    let (temporary, stored) = (|number: &[u8]| unit(6, &[number]), |text: &[u8]| unit(7, &[text]));
    let with_key = |id: u8, name: &[u8], key: &[u8]| unit(id, &[name, key]);
    // 18 bytes each, and 19 with the longer name.
    let person = |name: &[u8], number: &[u8]| with_key(5, name, &temporary(number));
    let entity = |name: &[u8], number: &[u8]| with_key(11, name, &temporary(number));
    let deleted = unit_with(5, 4, &[A, &temporary(ONE)]);
    let elsewhere = unit(12, &[N]);
    // Its source stands ten bytes behind its start, or fourteen if it is ordered.
    let relation = |source: &[u8], target: &[u8]| unit(9, &[N, source, target]);
    let ordered = |source: &[u8], target: &[u8]| unit(10, &[N, N, source, target]);
    let group = |nested: &[&[u8]]| unit(4, &[&nested.concat()]);
    let (a1, a2, ab1) = (person(A, ONE), person(A, TWO), person(AB, ONE));
    let (to_a1, to_a2, to_ab1) = (entity(A, ONE), entity(A, TWO), entity(AB, ONE));
    let (a_stored, to_stored) = (with_key(5, A, &stored(ONE)), with_key(11, A, &stored(ONE)));
    // A relation of 46 bytes, and one of 38 to what is no entity key.
    let both = relation(&to_a1, &to_a2);
    let half = relation(&to_a1, &elsewhere);
    let with_fields = unit(5, &[A, &temporary(ONE), &unit(8, &[A, ONE]), &unit(8, &[A, b""])]);

    let many = |count: u32| (1..=count).map(|number| person(A, &numbered(number))).collect::<Vec<_>>().concat();
    let many_stored = |count: usize| a_stored.repeat(count);
    let to = |number: u32| relation(&entity(A, &numbered(number)), &elsewhere);
    let call = unit(2, &[A]);

    let refused = |number, offset| Resolved { number, offset, ranks: vec![] };
    let done = |ranks: &[u64]| Resolved { number: 0, offset: 0, ranks: ranks.to_vec() };
    let rows: [(&'static str, Vec<u8>, u64, Resolved); 46] = [
        ("k1", K1.to_vec(), 9, refused(7, 0)),
        ("k2", K2.to_vec(), 9, done(&[])),
        ("k2 and no list", K2.to_vec(), 0, done(&[])),
        ("no bytes", vec![], 0, refused(3, 0)),
        ("k8: the check's 7 has its offset", changed(K2, 9, &[0x17]), 9, refused(7, 29)),
        ("k11", changed(K2, 13, &[0x31]), 9, refused(9, 13)),
        ("k12", K12.to_vec(), 9, refused(7, 0)),
        ("a group in a stream", unit(1, &[&call, &group(&[&a1, &half])]), 9, refused(7, 0)),
        ("source and target", group(&[&a1, &a2, &both]), 2, done(&[0, 1])),
        ("a longer list", group(&[&a1, &a2, &both]), 9, done(&[0, 1])),
        ("a list too short by one", group(&[&a1, &a2, &both]), 1, refused(12, 0)),
        ("no list", group(&[&a1, &a2, &both]), 0, refused(12, 0)),
        ("exchanged", group(&[&a2, &a1, &both]), 2, done(&[1, 0])),
        ("one template twice", group(&[&a1, &relation(&to_a1, &to_a1)]), 2, done(&[0, 0])),
        ("of an ordered relation", group(&[&a2, &a1, &ordered(&elsewhere, &to_a1)]), 1, done(&[1])),
        ("relations count in a rank", group(&[&a1, &half, &a2, &both, &half]), 4, done(&[0, 0, 2, 0])),
        ("templates with other keys count in a rank", group(&[&a_stored, &a_stored, &a1, &half]), 1, done(&[2])),
        ("what is in a template does not count", group(&[&with_fields, &a2, &both]), 2, done(&[0, 1])),
        ("a template to be deleted", group(&[&deleted, &half]), 1, done(&[0])),
        ("the same number, another name", group(&[&ab1, &a1, &relation(&to_a1, &to_ab1)]), 2, done(&[1, 0])),
        ("other keys are not resolved", group(&[&a1, &relation(&to_stored, &to_a1)]), 1, done(&[0])),
        ("other keys alone, and no list", group(&[&relation(&to_stored, &to_stored)]), 0, done(&[])),
        ("other keys may come twice", group(&[&a_stored, &a_stored, &a1]), 0, done(&[])),
        ("no template", group(&[&half]), 9, refused(20, 16)),
        ("no template for the target", group(&[&a1, &both]), 9, refused(20, 52)),
        ("no template for either", group(&[&both]), 9, refused(20, 16)),
        ("no template for an ordered relation's", group(&[&a1, &ordered(&elsewhere, &to_a2)]), 9, refused(20, 48)),
        ("a template after the relation", group(&[&half, &a1]), 9, refused(20, 16)),
        ("a template after one relation, before another", group(&[&half, &a1, &half]), 9, refused(20, 16)),
        ("another number", group(&[&a2, &half]), 9, refused(20, 34)),
        ("a name that begins like it", group(&[&ab1, &half]), 9, refused(20, 35)),
        ("a template key of the same bytes", group(&[&a_stored, &half]), 9, refused(20, 34)),
        ("no template, and no list", group(&[&half]), 0, refused(20, 16)),
        ("no template, before a list too short", group(&[&a1, &both]), 1, refused(20, 52)),
        ("doubled", group(&[&a1, &a1]), 9, refused(19, 24)),
        ("doubled, with other fields and action", group(&[&with_fields, &a2, &deleted]), 9, refused(19, 62)),
        ("doubled thrice", group(&[&a1, &a2, &a1, &a2, &a1]), 9, refused(19, 42)),
        ("doubled behind the key", group(&[&a1, &half, &a1]), 0, refused(19, 62)),
        ("no template before a doubled one", group(&[&relation(&elsewhere, &to_a2), &a1, &a1]), 9, refused(19, 62)),
        ("256 templates", group(&[&many(256), &to(256)]), 1, done(&[255])),
        ("256 templates, and others", group(&[&many_stored(9), &many(256), &to(1), &to(256)]), 2, done(&[9, 264])),
        ("257 templates", group(&[&many(257), &to(257)]), 9, refused(18, 0)),
        ("257 templates, and no list", group(&[&many(257), &to(257)]), 0, refused(18, 0)),
        ("256 templates and a doubled one", group(&[&many(256), &a1]), 9, refused(18, 0)),
        ("255 templates and a doubled one", group(&[&many(255), &a1]), 9, refused(19, 4596)),
        ("257 templates, and no template", group(&[&to(999), &many(257)]), 9, refused(18, 0)),
    ];
    rows.into()
}
