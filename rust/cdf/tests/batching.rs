//! A whole list of units at one go, through this crate.

use cdf::{Action, BatchRefusal, Builder, Id, Request, Root};

const K2: &[u8] = b"\xCD\xF1\x00\x2E\x00\x04\xCD\xF1\x00\x28\x01\x05\x06PERSON\xCD\xF1\x00\x0A\x00\x06\x00\x00\x00\x01\
    \xCD\xF1\x00\x11\x01\x08\x07SURNAME\xC3\x85s";
/// PERSON, a number, and SURNAME with a value.
const TEXT: &[u8] = b"\x06PERSON\0\0\0\x01\x07SURNAME\xC3\x85s";

fn person() -> Request {
    Request::new(Id::Template, Action::Create, 0..7)
}

fn key() -> Request {
    Request::new(Id::TemporaryKey, Action::None, 7..11)
}

fn surname() -> Request {
    Request::new(Id::Field, Action::Create, 11..22)
}

fn line(own: std::ops::Range<usize>) -> Request {
    Request::new(Id::Line, Action::None, own)
}

fn told<T: std::fmt::Debug>(said: Result<T, BatchRefusal>) -> (u64, Option<usize>) {
    let refused = said.unwrap_err();
    assert_eq!(refused.refusal.offset, None);
    (refused.refusal.number, refused.rank)
}

#[test]
fn k2_in_one_list() {
    let mut buffer = [0xEE; 46];
    let mut group = Builder::new(&mut buffer, Root::ErGroup).unwrap();
    group.batch(&[person(), key(), surname()], TEXT).unwrap();
    assert_eq!(group.finish().unwrap(), K2);
    assert_eq!(cdf::check(group.finish().unwrap()), Ok(4));
}

#[test]
fn all_or_none() {
    for room in 6..46 {
        let mut buffer = vec![0xEE; room];
        let mut group = Builder::new(&mut buffer, Root::ErGroup).unwrap();
        let rank = if room < 19 { 0 } else { 1 + usize::from(room >= 29) };
        assert_eq!(told(group.batch(&[person(), key(), surname()], TEXT)), (12, Some(rank)));
        assert_eq!(group.written(), 6);
        assert!(buffer[6..].iter().all(|&byte| byte == 0xEE));
    }
    let mut buffer = [0xEE; 60];
    let mut group = Builder::new(&mut buffer, Root::ErGroup).unwrap();
    assert_eq!(told(group.batch(&[person(), surname()], TEXT)), (7, Some(1)));
    assert_eq!(told(group.batch(&[person(), person(), key()], TEXT)), (10, Some(1)));
    // What was refused leaves a builder that goes on, with a list or without.
    group.batch(&[person()], TEXT).unwrap().temporary_key(1).unwrap().batch(&[surname()], TEXT).unwrap();
    assert_eq!(group.finish().unwrap(), K2);
    assert!(buffer[46..].iter().all(|&byte| byte == 0xEE));
}

#[test]
fn ranges_that_are_not_of_the_text() {
    let mut buffer = [0; 60];
    let mut group = Builder::new(&mut buffer, Root::FileGroup).unwrap();
    let length = TEXT.len();
    #[allow(clippy::reversed_empty_ranges)]
    for own in [2..1, length..length - 1, length..length + 1, length + 1..length + 1, 0..usize::MAX, usize::MAX..usize::MAX, usize::MAX..0]
    {
        assert_eq!(told(group.batch(&[line(0..3), line(own)], TEXT)), (9, Some(1)));
    }
    // Another rule is asked before it.
    assert_eq!(told(group.batch(&[Request::new(Id::Line, Action::Read, 2..9_999)], TEXT)), (8, Some(0)));
    assert_eq!(told(group.batch(&[Request::new(Id::Field, Action::Read, 2..9_999)], TEXT)), (7, Some(0)));
    group.batch(&[line(length..length), line(0..length), line(0..0)], TEXT).unwrap();
    assert_eq!(cdf::check(group.finish().unwrap()), Ok(4));
    group.batch(&[line(0..0)], b"").unwrap();
    assert_eq!(cdf::check(group.finish().unwrap()), Ok(5));
}

#[test]
fn how_many() {
    let mut buffer = vec![0; 65_535];
    let mut group = Builder::new(&mut buffer, Root::FileGroup).unwrap();
    group.batch(&[], TEXT).unwrap().batch(&[], b"").unwrap();
    assert_eq!(group.written(), 6);
    assert_eq!(told(group.batch(&[line(0..1); 513], TEXT)), (21, None));
    group.batch(&[line(0..1); 512], TEXT).unwrap().batch(&[line(0..1); 511], TEXT).unwrap();
    assert_eq!(cdf::check(group.finish().unwrap()), Ok(1_024));
    // The limit of a stream, at the last request.
    let mut list = vec![line(0..4_096); 14];
    let left = 65_535 - group.written() - 14 * 4_102;
    list.push(line(0..left - 6 + 1));
    let text = [b'x'; 4_097];
    assert_eq!(told(group.batch(&list, &text)), (13, Some(14)));
    list[14] = line(0..left - 6);
    group.batch(&list, &text).unwrap();
    assert_eq!(group.finish().unwrap().len(), 65_535);
}

#[test]
fn refusals_in_words() {
    let mut buffer = [0; 60];
    let mut group = Builder::new(&mut buffer, Root::ErGroup).unwrap();
    let refused = group.batch(&[person(), surname()], TEXT).unwrap_err();
    assert_eq!(refused.to_string(), "request 1, number 7: this unit may not stand here");
    let refused = group.batch(&[key(); 600], TEXT).unwrap_err();
    assert_eq!(refused.to_string(), "number 21: the list has more than 512 requests");
    assert_eq!(cdf::Refusal::from(refused).number, 21);
}
