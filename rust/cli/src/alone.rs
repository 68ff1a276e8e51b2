//! Units among bytes that were dropped: those whose first six bytes, action and own data are right, whatever is wrong around or in them.

use cdf::{Id, Reader, NAME_MOST, VALUE_MOST};

use crate::units::{head, whole, Units};

/// A unit that is right by itself.
pub struct Alone {
    /// Where it begins.
    pub start: usize,
    /// Where it ends, by its length.
    pub end: usize,
    /// What it is.
    pub id: Id,
    /// Kind and name or number.
    pub name: String,
    /// That, and the value.
    pub says: String,
}

/// A unit without an action, or with 1, and with what it holds.
fn unit(id: u8, action: u8, data: &[u8]) -> Vec<u8> {
    let length = (6 + data.len()) as u16;
    [&[0xCD, 0xF1], &length.to_be_bytes()[..], &[action, id], data].concat()
}

/// The unit that begins at a byte, if it is one of an E/R data group and right by itself. The archive is asked: its reader hands out the
/// unit where such a unit may stand.
pub fn alone(bytes: &[u8], at: usize) -> Option<Alone> {
    let prefix = bytes.get(at..at + 6)?;
    let id = Id::from_number(u64::from(prefix[5]))?;
    let stated = usize::from(prefix[2]) * 256 + usize::from(prefix[3]);
    // Of a unit that holds others only its own data matters, and that is short. Others are whole, or not there.
    let length = match id {
        Id::Template | Id::Relation | Id::OrderedRelation | Id::EntityKey => stated.min(bytes.len() - at).min(6 + 1 + NAME_MOST),
        Id::TemporaryKey | Id::TemplateKey | Id::Field | Id::RelationKey => stated,
        _ => return None,
    };
    if !(6..=6 + 1 + NAME_MOST + VALUE_MOST).contains(&length) {
        return None;
    }
    let mut own = bytes.get(at..at + length)?.to_vec();
    own[2..4].copy_from_slice(&(length as u16).to_be_bytes());
    let key = unit(6, 0, &[0; 4]);
    let around = match id {
        Id::TemporaryKey | Id::TemplateKey => unit(5, 1, &[b"\x01A", &own[..]].concat()),
        Id::Field => unit(5, 1, &[b"\x01A", &key[..], &own[..]].concat()),
        Id::EntityKey | Id::RelationKey => unit(9, 1, &[&[0; 4], &own[..]].concat()),
        _ => own.clone(),
    };
    let stream = unit(4, 0, &around);
    let start = stream.len() - own.len();
    let found = Reader::new(&stream).map_while(Result::ok).find(|unit| unit.start() == start)?;
    Some(Alone { start: at, end: at + stated, id, name: head(&found), says: if id == Id::Field { whole(&found) } else { head(&found) } })
}

/// The unit that begins at a byte as a person finds it, if it is whole: the E/R data group of it alone is accepted.
pub fn whole_at(bytes: &[u8], at: usize) -> Option<String> {
    let prefix = bytes.get(at..at + 6)?;
    let length = usize::from(prefix[2]) * 256 + usize::from(prefix[3]);
    let group = unit(4, 0, bytes.get(at..at + length).filter(|own| own.len() <= 65_529)?);
    cdf::check(&group).ok()?;
    let units = Units::of(&group);
    units.at(6).map(|unit| units.found_by(unit))
}

#[cfg(test)]
mod tests {
    use super::{alone, unit, whole_at};

    #[test]
    fn units_of_each_kind_are_right_by_themselves() {
        let (key, name) = (unit(6, 0, &[0, 0, 0, 7]), b"\x06PERSON");
        let person = unit(5, 1, &[&name[..], &key].concat());
        let all = [
            (person.clone(), "template PERSON"),
            (key.clone(), "temporary key 7"),
            (unit(7, 0, b"x"), "template key 'x'"),
            (unit(8, 1, b"\x01AB"), "field A 'B'"),
            (unit(9, 1, &[0, 0, 0, 3]), "relation 3"),
            (unit(10, 1, &[0, 0, 0, 3, 0, 0, 0, 4]), "ordered relation 3 at position 4"),
            (unit(11, 0, &[&name[..], &key].concat()), "entity key PERSON"),
            (unit(12, 0, &[0, 0, 0, 9]), "relation key 9"),
        ];
        for (bytes, says) in all {
            assert_eq!(alone(&bytes, 0).map(|unit| unit.says).as_deref(), Some(says));
            assert!(alone(&[&bytes[..5], &[0], &bytes[6..]].concat(), 0).is_none());
        }
        // A template of which the end is lost; one whose name is not whole; another's action.
        assert!(alone(&person[..14], 0).is_some() && whole_at(&person[..14], 0).is_none());
        assert!(alone(&person[..10], 0).is_none() && alone(&unit(9, 3, &[0; 4]), 0).is_none());
        assert_eq!(whole_at(&person, 0).as_deref(), Some("template PERSON with the temporary key 7"));
        assert!(whole_at(&key, 0).is_none());
    }
}
