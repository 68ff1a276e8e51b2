//! Rescues whose answers are worked out by hand.

use crate::cases::{unit, unit_with, A, N};
use crate::rescue::Rescued;
use crate::samples::{changed, K1, K12, K2};

/// A label, the bytes, the room and the answer.
pub type Rescue = (&'static str, Vec<u8>, u64, Rescued);

pub fn rescues() -> Vec<Rescue> {
    let (key, value_key, rel_key) = (unit(6, &[N]), unit(7, &[N]), unit(12, &[N]));
    let field = |value: &[u8]| unit(8, &[A, value]);
    // 18 bytes, 30 bytes and 34 bytes.
    let person = unit(5, &[A, &key]);
    let relation = unit(9, &[N, &rel_key, &rel_key]);
    let ordered = unit(10, &[N, N, &rel_key, &rel_key]);
    let group = |nested: &[&[u8]]| unit(4, &[&nested.concat()]);
    let all = group(&[&person, &relation, &ordered]);
    let k8 = changed(K2, 9, &[0x17]);
    let k2_end = [K2, b"\xCD"].concat();
    let k2_front = [&K2[..6], b"\xCD", &K2[6..]].concat();
    let lost = |from: usize, to: usize| [&all[..from], &all[to..]].concat();
    let two_broken = changed(&changed(&all, 6, &[0]), 54, &[0]);
    // The template's key lost a byte of its number, and any byte will do.
    let taken = [&all[6..20], &all[21..25]].concat();
    // A template of 18 bytes in a field's value at 32 of a template at 6: whole, and with another count of its name.
    let inside = group(&[&unit(5, &[A, &key, &field(&person)])]);
    let outer_broken = changed(&inside, 12, &[0]);
    let stream = unit(1, &[&unit(2, &[A]), &group(&[&person])]);
    let mixed = group(&[&unit(5, &[A, &key, &value_key]), &person]);
    let incomplete = group(&[&unit(9, &[N, &rel_key]), &person]);
    let other_action = group(&[&unit_with(10, 2, &[N, N, &rel_key, &rel_key]), &person]);
    let spaced = |units: usize, between: &[u8]| [&[0; 6], &[&person[..], between].concat().repeat(units)[..]].concat();
    let spaced_runs = |units: u64| (1..=units).map(|unit| (19 * unit + 5, 19 * unit + 6)).collect::<Vec<_>>();
    // 16 fields of at most 4,104 bytes: a template of 65,529 bytes, which fills a group, and one of 65,530.
    let long = |last: usize| unit(5, &[A, &key, &field(&[b'x'; 4096]).repeat(15), &field(&vec![b'x'; last])]);
    let (fits, too_long) = (group(&[&long(3943)]), [&[0; 6], &long(3944)[..]].concat());

    let refused = |number| Rescued { number, ..Rescued::default() };
    let done = |group: &[u8], runs: &[(u64, u64)]| Rescued { number: 0, group: group.to_vec(), runs: runs.to_vec() };
    let rows: [(&'static str, &[u8], u64, Rescued); 40] = [
        ("k1", K1, 99, refused(16)),
        ("k2", K2, 46, done(K2, &[])),
        ("k2 and more room", K2, 1 << 40, done(K2, &[])),
        ("k2 without room", K2, 45, refused(12)),
        ("k2 and no room", K2, 0, refused(12)),
        ("k12", K12, 99, refused(16)),
        ("no bytes", b"", 0, refused(3)),
        ("five bytes", &K2[..5], 99, refused(3)),
        ("six bytes", &K2[..6], 0, refused(16)),
        ("k2 without its first six bytes", &K2[6..], 99, refused(16)),
        ("k2 with other first bytes", &[b"\xCD\xF2\xFF\xFF\x09\x0D", &K2[6..]].concat(), 99, done(K2, &[])),
        ("k8: the template ends before its field", &k8, 99, done(&group(&[&k8[6..29]]), &[(29, 46)])),
        ("k10: the field's action", &changed(K2, 33, &[0]), 99, refused(16)),
        ("k11: the name", &changed(K2, 13, b"1"), 99, refused(16)),
        ("k2 and a byte", &k2_end, 99, done(K2, &[(46, 47)])),
        ("a byte before the template", &k2_front, 99, done(K2, &[(6, 7)])),
        ("three kinds", &all, 99, done(&all, &[])),
        ("the first lost its mark", &lost(6, 8), 99, done(&group(&[&relation, &ordered]), &[(6, 22)])),
        ("the second lost a byte", &lost(30, 31), 99, done(&group(&[&person, &ordered]), &[(24, 53)])),
        ("the third lost its last byte", &lost(87, 88), 99, done(&group(&[&person, &relation]), &[(54, 87)])),
        ("the first and the third without mark", &two_broken, 99, done(&group(&[&relation]), &[(6, 24), (54, 88)])),
        ("a number ends with the next unit's mark", &lost(20, 21), 99, done(&group(&[&taken, &ordered]), &[(24, 53)])),
        ("the units lost are whole", &lost(24, 54), 99, done(&group(&[&person, &ordered]), &[])),
        ("a template in a value", &inside, 99, done(&inside, &[])),
        ("the template around it broken", &outer_broken, 99, done(&group(&[&person]), &[(6, 32)])),
        ("a group in a stream", &stream, 99, done(&group(&[&person]), &[(6, 20)])),
        ("mixed keys", &mixed, 99, done(&group(&[&person]), &[(6, 34)])),
        ("a relation without target", &incomplete, 99, done(&group(&[&person]), &[(6, 26)])),
        ("an action of a relation", &other_action, 99, done(&group(&[&person]), &[(6, 40)])),
        ("a key alone", &group(&[&key, &person, &field(b"")]), 99, done(&group(&[&person]), &[(6, 16), (34, 42)])),
        ("64 runs", &spaced(64, b"\xCD"), 9999, done(&group(&[&person.repeat(64)]), &spaced_runs(64))),
        ("64 runs without room", &spaced(64, b"\xCD"), 1157, refused(12)),
        ("65 runs", &spaced(65, b"\xCD"), 9999, refused(17)),
        ("65 runs and no room", &spaced(65, b"\xCD"), 0, refused(17)),
        ("65 runs and too many bytes", &[&spaced(65, b"\xCD")[..], &long(3944)].concat(), 0, refused(17)),
        ("a template that fills a group", &fits, 65_535, done(&fits, &[])),
        ("a template that fills a group, without room", &fits, 65_534, refused(12)),
        ("a template that no group holds", &too_long, 99_999, refused(13)),
        ("a template that no group holds, and no room", &too_long, 0, refused(13)),
        ("a template that no group holds, and another", &[&too_long[..], &person].concat(), 99_999, refused(13)),
    ];
    rows.map(|(label, bytes, room, rescued)| (label, bytes.to_vec(), room, rescued)).into()
}
