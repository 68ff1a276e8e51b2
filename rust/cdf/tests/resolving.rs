//! Which template each entity key means, through this crate.

use cdf::{Action, Builder, Root};

/// A group: templates by their name and temporary key, or relations by the names and keys of both ends; none is a relation key.
enum Child {
    Template(&'static str, u32),
    Stored(&'static str, &'static [u8]),
    Relation(Option<(&'static str, u32)>, Option<(&'static str, u32)>),
}
use Child::{Relation, Stored, Template};

fn group(children: &[Child]) -> Vec<u8> {
    let mut buffer = vec![0; 65_535];
    let mut group = Builder::new(&mut buffer, Root::ErGroup).unwrap();
    for child in children {
        match child {
            Template(name, key) => {
                group.template(Action::Delete, name).unwrap().temporary_key(*key).unwrap();
            }
            Stored(name, key) => {
                group.template(Action::Read, name).unwrap().template_key(key).unwrap();
            }
            Relation(source, target) => {
                group.relation(Action::Create, 7).unwrap();
                for end in [source, target] {
                    match end {
                        Some((name, key)) => group.entity_key(name).unwrap().temporary_key(*key).unwrap(),
                        None => group.relation_key(7).unwrap(),
                    };
                }
            }
        }
    }
    group.finish().unwrap().to_vec()
}

fn answer(children: &[Child]) -> Result<Vec<usize>, (u64, Option<usize>)> {
    cdf::resolve(&group(children)).map_err(|refusal| (refusal.number, refusal.offset))
}

#[test]
fn ranks_in_the_order_of_the_stream() {
    assert_eq!(answer(&[Template("A", 1)]), Ok(vec![]));
    assert_eq!(answer(&[Template("A", 1), Template("A", 2), Relation(Some(("A", 2)), Some(("A", 1)))]), Ok(vec![1, 0]));
    // Relations and templates with other keys count; A and AB are two names.
    let mixed =
        [Stored("A", b"\0\0\0\x01"), Template("AB", 1), Relation(None, Some(("AB", 1))), Template("A", 1), Relation(Some(("A", 1)), None)];
    assert_eq!(answer(&mixed), Ok(vec![1, 3]));
}

#[test]
fn refusals_in_their_order() {
    // A template of one letter has 18 bytes, and a relation's source stands ten behind its start.
    assert_eq!(answer(&[Template("A", 1), Template("A", 1)]), Err((19, Some(24))));
    assert_eq!(answer(&[Relation(Some(("A", 1)), None), Template("A", 1)]), Err((20, Some(16))));
    assert_eq!(answer(&[Stored("A", b"\0\0\0\x01"), Relation(Some(("A", 1)), None)]), Err((20, Some(34))));
    assert_eq!(answer(&[Relation(Some(("A", 2)), None), Template("A", 1), Template("A", 1)]), Err((19, Some(62))));
    let many = |count| (0..count).map(|key| Template("A", key)).collect::<Vec<_>>();
    assert_eq!(answer(&many(256)), Ok(vec![]));
    assert_eq!(answer(&many(257)), Err((18, None)));
}

#[test]
fn other_streams() {
    let mut buffer = [0; 200];
    let mut stream = Builder::new(&mut buffer, Root::Stream).unwrap();
    stream.call("STORE").unwrap().er_group().unwrap().template(Action::Create, "A").unwrap().temporary_key(1).unwrap();
    let refusal = cdf::resolve(stream.finish().unwrap()).unwrap_err();
    assert_eq!((refusal.number, refusal.offset), (7, None));
    // The check's 7 speaks of a byte.
    let mut doubled = group(&[Template("A", 1)]);
    doubled[11] = 4;
    let refusal = cdf::resolve(&doubled).unwrap_err();
    assert_eq!((refusal.number, refusal.offset), (7, Some(6)));
    for bytes in [&b""[..], &[0; 70_000]] {
        let refusal = cdf::resolve(bytes).unwrap_err();
        assert_eq!(Some(refusal), cdf::check(bytes).err());
    }
}

#[test]
fn as_many_keys_as_a_stream_holds() {
    let mut children = vec![Template("A", 1)];
    children.extend((0..1_424).map(|_| Relation(Some(("A", 1)), Some(("A", 1)))));
    let stream = group(&children);
    assert!(stream.len() > 65_500);
    assert_eq!(cdf::resolve(&stream), Ok(vec![0; 2_848]));
}
