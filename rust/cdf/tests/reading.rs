//! The reader on whole and on damaged bytes.

use cdf::{Action, Builder, Id, Reader, Refusal, Root};

/// A person and a relation of her to herself.
fn group() -> Vec<u8> {
    let mut buffer = [0; 300];
    let mut group = Builder::new(&mut buffer, Root::ErGroup).unwrap();
    group.template(Action::Create, "PERSON").unwrap().temporary_key(7).unwrap();
    group.field(Action::Update, "SURNAME", b"Lind").unwrap();
    group.ordered_relation(Action::Create, 5, 9).unwrap();
    group.entity_key("PERSON").unwrap().temporary_key(7).unwrap();
    group.relation_key(3).unwrap();
    group.finish().unwrap().to_vec()
}

/// A call, and behind it a group.
fn calls(group: &[u8]) -> Vec<u8> {
    let mut buffer = vec![0; 1000];
    let mut stream = Builder::new(&mut buffer, Root::Stream).unwrap();
    stream.call("MERGE").unwrap().parameter("MODE", b"\xFF").unwrap();
    stream.add_stream(group).unwrap().call("DONE").unwrap();
    stream.finish().unwrap().to_vec()
}

#[test]
fn units_say_what_was_built() {
    let stream = group();
    let units: Vec<_> = Reader::new(&stream).collect::<Result<_, _>>().unwrap();
    let ids: Vec<Id> = units.iter().map(|unit| unit.id()).collect();
    let due =
        [Id::ErGroup, Id::Template, Id::TemporaryKey, Id::Field, Id::OrderedRelation, Id::EntityKey, Id::TemporaryKey, Id::RelationKey];
    assert_eq!(ids, due);
    assert_eq!((units[1].name(), units[1].action(), units[1].value()), (Some("PERSON"), Action::Create, None));
    assert_eq!((units[2].number(), units[2].name()), (Some(7), None));
    assert_eq!((units[3].name(), units[3].value(), units[3].action()), (Some("SURNAME"), Some(&b"Lind"[..]), Action::Update));
    assert_eq!((units[4].number(), units[4].position()), (Some(5), Some(9)));
    assert_eq!((units[7].number(), units[7].position()), (Some(3), None));
    assert_eq!((units[0].bytes(), units[0].end()), (&stream[..], stream.len()));
    assert_eq!(units[1].own_end(), units[2].start());
    let told: Vec<_> = units.iter().map(|unit| (unit.depth(), unit.rank())).collect();
    assert_eq!(told, [(1, 0), (2, 0), (3, 0), (3, 1), (2, 1), (3, 0), (4, 0), (3, 1)]);
}

/// Depths are those of the listing, and ranks are what the units before tell, also of bytes that are refused further on.
#[test]
fn depths_and_ranks_are_those_of_all_units_before() {
    let whole = calls(&group());
    for damaged in [None, Some(whole.len() - 1), Some(whole.len() / 2)] {
        let mut stream = whole.clone();
        damaged.into_iter().for_each(|at| stream[at] = 0);
        let units: Vec<_> = Reader::new(&stream).map_while(Result::ok).collect();
        for (at, unit) in units.iter().enumerate() {
            let around = |other: &&cdf::Unit| other.start() < unit.start() && unit.start() < other.end();
            let outer: Vec<_> = units[..at].iter().filter(around).collect();
            let inside = outer.last().map_or(0, |outer| outer.start() + 1);
            let siblings = units[..at].iter().filter(|other| other.depth() == unit.depth() && other.start() >= inside);
            assert_eq!((unit.depth(), unit.rank()), (outer.len() + 1, siblings.count()), "{unit:?}");
        }
        if damaged.is_none() {
            let listed = cdf::listing(&stream);
            let depths = listed.lines().take(units.len()).map(|line| line.split(' ').nth(1).unwrap().to_string());
            assert!(depths.eq(units.iter().map(|unit| unit.depth().to_string())));
        }
    }
}

/// Of every front of a stream, and of every stream with one byte changed, the reader ends as the check does.
#[test]
fn damaged_bytes_end_as_the_check_says() {
    let whole = calls(&group());
    let mut tried: Vec<Vec<u8>> = (0..whole.len()).map(|length| whole[..length].to_vec()).collect();
    for at in 0..whole.len() {
        for byte in [0, 1, 0x41, 0xFF, whole[at] ^ 0x80] {
            let mut stream = whole.clone();
            stream[at] = byte;
            tried.push(stream);
        }
    }
    let mut refused = 0;
    for stream in &tried {
        let read: Vec<_> = Reader::new(stream).collect();
        match cdf::check(stream) {
            Ok(units) => assert!(read.len() == units && read.iter().all(Result::is_ok)),
            Err(refusal) => {
                refused += 1;
                let (last, before) = read.split_last().unwrap();
                assert_eq!(*last, Err(refusal));
                assert!(before.iter().all(Result::is_ok));
                assert_eq!(cdf::explain(stream).unwrap().refusal, refusal);
                let line = format!("refused {} at {}\n", refusal.number, refusal.offset.unwrap());
                assert_eq!(cdf::listing(stream), line);
            }
        }
    }
    assert!(refused > 500, "{refused}");
}

const NOTHING: Refusal = Refusal { number: 11, offset: None };

#[test]
fn skipping_taking_and_repeating() {
    let inner = group();
    let stream = calls(&inner);
    let mut reader = Reader::new(&stream);
    assert_eq!(reader.skip_unit(), Err(NOTHING));
    assert_eq!(reader.take_group(), Err(NOTHING));
    assert_eq!(reader.previous(), Err(NOTHING));
    assert_eq!(reader.next().unwrap().unwrap().id(), Id::Stream);
    assert_eq!(reader.take_group(), Err(NOTHING), "it is no group");
    let call = reader.next().unwrap().unwrap();
    assert_eq!((call.depth(), call.rank()), (2, 0));
    assert_eq!(reader.previous(), Ok(call));
    reader.skip_unit().unwrap();
    assert_eq!(reader.skip_unit(), Err(NOTHING), "it is passed already");
    assert_eq!(reader.previous(), Ok(call), "depth and rank too");
    let found = reader.next().unwrap().unwrap();
    assert_eq!((found.id(), found.depth(), found.rank()), (Id::ErGroup, 2, 1), "the call that was skipped is one");
    let taken = reader.take_group().unwrap();
    assert_eq!((taken, found.bytes()), (&inner[..], &inner[..]));
    let last = reader.next().unwrap().unwrap();
    assert_eq!((last.id(), last.name()), (Id::Call, Some("DONE")));
    assert_eq!((last.depth(), last.rank()), (2, 2), "and so is the group that was taken");
    assert!(reader.next().is_none());
    assert!(reader.next().is_none());
    // The group is a part of the stream, and not of the reader.
    assert_eq!(cdf::check(taken), Ok(8));
}

/// A stream of calls with parameters: a fault, a skip or a group may stand anywhere between units that are read together.
fn many_calls() -> Vec<u8> {
    let mut buffer = vec![0; 20_000];
    let mut stream = Builder::new(&mut buffer, Root::Stream).unwrap();
    for at in 0..90_usize {
        stream.call("MERGE").unwrap();
        for _ in 0..at % 4 {
            stream.parameter("MODE", &vec![b'x'; at % 5]).unwrap();
        }
        if at % 7 == 3 {
            stream.add_stream(&group()).unwrap();
        }
    }
    stream.finish().unwrap().to_vec()
}

/// However many units are read together, a call in between answers as it would right after the unit: the units that follow a skip are those
/// that do not lie in what was skipped.
#[test]
fn calls_between_units_do_not_depend_on_what_is_read_ahead() {
    let stream = many_calls();
    let all: Vec<_> = Reader::new(&stream).collect::<Result<_, _>>().unwrap();
    assert_eq!(Ok(all.len()), cdf::check(&stream));
    for first in 0..all.len() {
        for second in [0, 1, 2, 5, 31, 64] {
            let mut reader = Reader::new(&stream);
            let mut seen: Vec<_> = reader.by_ref().take(first + 1).map(Result::unwrap).collect();
            let last = all[first];
            assert_eq!(reader.previous(), Ok(last));
            let holds = matches!(last.id(), Id::Stream | Id::Call | Id::ErGroup | Id::Template | Id::OrderedRelation | Id::EntityKey);
            let from = match (second % 2, last.id()) {
                (0, Id::ErGroup) => {
                    assert_eq!(reader.take_group(), Ok(last.bytes()));
                    last.end()
                }
                (0, _) => {
                    assert_eq!(reader.take_group(), Err(NOTHING));
                    last.start() + 1
                }
                _ => {
                    assert_eq!(reader.skip_unit(), if holds { Ok(()) } else { Err(NOTHING) });
                    if holds {
                        last.end()
                    } else {
                        last.start() + 1
                    }
                }
            };
            assert_eq!(reader.previous(), Ok(last));
            let mut again = reader.clone();
            let rest: Vec<_> = all.iter().filter(|unit| unit.start() >= from).copied().collect();
            seen.extend(again.by_ref().take(second).map(Result::unwrap));
            let due: Vec<_> = all[..=first].iter().copied().chain(rest.iter().copied().take(second)).collect();
            assert_eq!(seen, due);
            assert_eq!(again.previous().ok().as_ref(), due.last());
            assert_eq!(again.map(Result::unwrap).count(), rest.len().saturating_sub(second));
            assert!(reader.map(Result::unwrap).eq(rest));
        }
    }
}

/// A fault is told once, right behind the units before it, and the last of these can still be asked for and skipped.
#[test]
fn a_fault_comes_behind_all_units_before_it() {
    let whole = many_calls();
    let all: Vec<_> = Reader::new(&whole).collect::<Result<_, _>>().unwrap();
    for (at, unit) in all.iter().enumerate().skip(1) {
        let mut stream = whole.clone();
        stream[unit.start() + 5] = 99;
        let mut reader = Reader::new(&stream);
        assert!(reader.by_ref().take(at).map(Result::unwrap).map(|unit| unit.start()).eq(all[..at].iter().map(|unit| unit.start())));
        let fault = Refusal { number: 6, offset: Some(unit.start()) };
        assert_eq!(reader.next(), Some(Err(fault)));
        assert_eq!((reader.next(), reader.next()), (None, None));
        let last = reader.previous().unwrap();
        assert_eq!((last.start(), last.depth(), last.rank()), (all[at - 1].start(), all[at - 1].depth(), all[at - 1].rank()));
        let inside = unit.start() < last.end() || last.own_end() == last.end() && last.id() == Id::Call;
        assert_eq!(reader.skip_unit().is_ok(), inside, "{last:?}");
        assert_eq!(reader.next(), None, "nothing comes after a refusal");
    }
}

#[test]
fn what_is_skipped_is_not_looked_at() {
    let mut stream = calls(&group());
    let at = stream.windows(4).position(|four| four == b"MODE").unwrap();
    stream[at] = b'!';
    assert_eq!(cdf::check(&stream).unwrap_err().number, 9);
    let mut reader = Reader::new(&stream);
    assert_eq!(reader.by_ref().take(2).filter(Result::is_ok).count(), 2);
    reader.skip_unit().unwrap();
    assert!(reader.all(|unit| unit.is_ok()));
}
