//! The builder's refusals, in their order, and what they leave.

use cdf::{Action, Builder, Id, Key, Root};

fn number<T: std::fmt::Debug>(said: Result<T, cdf::Refusal>) -> u64 {
    let refusal = said.unwrap_err();
    assert_eq!(refusal.offset, None);
    refusal.number
}

#[test]
fn refusals_come_in_their_order() {
    let mut buffer = [0xEE; 60];
    let mut group = Builder::new(&mut buffer, Root::ErGroup).unwrap();
    assert_eq!(number(group.finish()), 10);
    assert_eq!(number(group.line(b"x")), 7);
    group.template(Action::Create, "PERSON").unwrap();
    let written = group.written();
    // Wrong in one more way each time, and the first in the order of the rules is told.
    assert_eq!(number(group.add(Id::TemporaryKey, Action::None, &[0; 100])), 9);
    assert_eq!(number(group.add(Id::TemporaryKey, Action::Read, &[0; 100])), 8);
    assert_eq!(number(group.add(Id::Template, Action::None, &[0; 100])), 10);
    assert_eq!(number(group.add(Id::Line, Action::Read, &[0; 100])), 7);
    assert_eq!(number(group.template_key(&[b'x'; 40])), 12);
    assert_eq!(number(group.add_stream(b"no group")), 14);
    assert_eq!(number(group.finish()), 10);
    assert_eq!(group.written(), written);
    group.temporary_key(1).unwrap();
    assert_eq!(cdf::check(group.finish().unwrap()), Ok(3));
}

#[test]
fn a_refused_call_leaves_every_byte() {
    let mut buffer = [0xEE; 40];
    let mut group = Builder::new(&mut buffer, Root::FileGroup).unwrap();
    group.line(b"one").unwrap();
    let before = group.finish().unwrap().to_vec();
    assert_eq!(number(group.line(&[b'x'; 40])), 12);
    assert_eq!(group.finish().unwrap(), before);
    let end = group.written();
    assert!(buffer[end..].iter().all(|&byte| byte == 0xEE));
}

#[test]
fn names_of_every_length() {
    let mut buffer = [0; 2000];
    for length in 0..600 {
        let name = "A".repeat(length);
        let mut stream = Builder::new(&mut buffer, Root::Stream).unwrap();
        let said = stream.call(&name).map(|_| ());
        match length {
            1..=32 => assert!(said.is_ok() && stream.finish().is_ok()),
            _ => assert_eq!(number(said), 9, "{length}"),
        }
    }
    let mut stream = Builder::new(&mut buffer, Root::Stream).unwrap();
    for name in ["a", "1A", "_A", "A B", "Å", ""] {
        assert_eq!(number(stream.call(name).map(|_| ())), 9, "{name}");
    }
}

#[test]
fn room_and_length() {
    for room in 0..6 {
        assert_eq!(number(Builder::new(&mut vec![0; room], Root::Stream)), 12);
    }
    let mut buffer = vec![0; 70_000];
    let mut group = Builder::new(&mut buffer, Root::FileGroup).unwrap();
    while group.line(&[b'x'; 4096]).is_ok() {}
    assert_eq!(number(group.line(&[b'x'; 4096])), 13);
    assert_eq!(number(group.line(&[b'x'; 4097])), 9);
    let left = 65_535 - group.written() - 6;
    group.line(&vec![b'x'; left]).unwrap();
    assert_eq!(group.finish().unwrap().len(), 65_535);
    assert_eq!(cdf::listing(group.finish().unwrap()).lines().last(), Some("ok 17"));
}

#[test]
fn lookups_by_names_that_none_can_have() {
    let mut buffer = [0; 200];
    let mut group = Builder::new(&mut buffer, Root::ErGroup).unwrap();
    group.template(Action::Create, "PERSON").unwrap().template_key(b"P-1").unwrap().field(Action::Create, "SURNAME", b"").unwrap();
    let stream = group.finish().unwrap();
    let ask = |template: &str, key, field: &str| cdf::lookup(stream, stream, template, key, field);
    assert_eq!(ask("PERSON", Key::Template(b"P-1"), "SURNAME").unwrap().value, b"");
    for name in ["", "PERSO", "PERSONS", &"P".repeat(255), &"P".repeat(256), &"P".repeat(300)] {
        assert_eq!(number(ask(name, Key::Template(b"P-1"), "SURNAME")), 15);
        assert_eq!(number(ask("PERSON", Key::Template(b"P-1"), name)), 15);
    }
    assert_eq!(number(ask("PERSON", Key::Temporary(1), "SURNAME")), 15);
    let file = b"\xCD\xF1\x00\x10\x00\x0D\xCD\xF1\x00\x0A\x00\x0EEva!";
    assert_eq!(number(cdf::lookup(stream, file, "PERSON", Key::Template(b"P-2"), "SURNAME")), 7);
    let refusal = cdf::lookup(stream, b"", "PERSON", Key::Template(b"P-1"), "SURNAME").unwrap_err();
    assert_eq!((refusal.number, refusal.offset), (3, Some(0)));
}
