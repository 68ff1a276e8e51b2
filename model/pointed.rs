//! Which byte a 9 names, and that the model names the first one that breaks the rule.

use cdf_model::check::check;
use cdf_model::explain::Explanation;
use cdf_model::random::Random;
use cdf_model::rules::{kind, opens, Part, Refusal, MARK, NAME_LIMIT, PREFIX, VALUE_LIMIT};
use cdf_model::streams::gone_on;

/// The bytes that 9 may name, in the order of `BYTES`.
#[derive(Clone, Copy, PartialEq)]
pub enum Byte {
    NoCount,
    Count,
    CountPast,
    First,
    Later,
    Nested,
    NameAndValue,
    Value,
    FieldValue,
    NoNumber,
    CutShort,
    SecondCut,
    TooLong,
}

/// All of them must have been named.
pub const BYTES: [&str; 13] = [
    "no count byte: the unit's end",
    "a count of 0 or over 32: its byte",
    "a count past the unit: its byte",
    "a name's first byte",
    "a later byte of a name",
    "a later byte of a name: a nested unit's mark",
    "a byte of a name with too long a value behind it",
    "byte 4,097 of a value",
    "byte 4,097 of a value behind a name",
    "no number: the unit's end",
    "a number cut short: its first byte",
    "the second number cut short: the first byte of both",
    "a number too long: its first byte",
];

/// The refused unit, up to its end.
fn refused<'a>(stream: &'a [u8], told: &Explanation) -> &'a [u8] {
    let unit = &stream[told.at as usize..];
    &unit[..usize::from(unit[2]) * 256 + usize::from(unit[3])]
}

/// Which byte a 9 named, by where it stands.
pub fn which(stream: &[u8], told: &Explanation) -> Byte {
    let unit = refused(stream, told);
    let (id, data) = (u64::from(unit[5]), &unit[PREFIX..]);
    let before = (told.offset - told.at) as usize - PREFIX;
    match (kind(id).unwrap().own, data.first()) {
        ([Part::Name, ..], None) => Byte::NoCount,
        ([Part::Name, more @ ..], Some(count)) => {
            let count = usize::from(*count);
            match before {
                0 if (1..=NAME_LIMIT).contains(&count) => Byte::CountPast,
                0 => Byte::Count,
                _ if before > count => Byte::FieldValue,
                _ if !more.is_empty() && data.len() > 1 + count + VALUE_LIMIT => Byte::NameAndValue,
                1 => Byte::First,
                _ if opens(id) && data[before..].starts_with(&MARK) => Byte::Nested,
                _ => Byte::Later,
            }
        }
        ([Part::Value], _) => Byte::Value,
        (_, None) => Byte::NoNumber,
        (_, Some(_)) if data.len() < 4 => Byte::CutShort,
        (numbers, Some(_)) if data.len() < 4 * numbers.len() => Byte::SecondCut,
        _ => Byte::TooLong,
    }
}

/// What a 9 does not keep of this: the byte stands in the unit behind its prefix, or at its end; whatever stands behind the
/// byte, it is named again; and without it, or with letters from it on, all is right.
pub fn broken(stream: &[u8], told: &Explanation, random: &mut Random) -> Option<&'static str> {
    let (at, offset) = (told.at as usize, told.offset as usize);
    let unit = refused(stream, told);
    if offset < at + PREFIX || at + unit.len() < offset {
        return Some("9 names a byte of the unit behind its prefix, or its end");
    }
    let again = |tried: &[u8]| check(tried) == Err(Refusal { number: 9, offset: told.offset });
    for (letters, one_in) in [(true, 1), (true, 3), (false, 1), (false, 3)] {
        let mut tried = stream.to_vec();
        for byte in tried.iter_mut().skip(offset + 1) {
            if random.one_in(one_in) {
                *byte = if letters { b'A' } else { random.byte() };
            }
        }
        if !again(&tried) {
            return Some("nothing behind the byte that 9 names mends it");
        }
    }
    // The unit's front of so many bytes, and nothing behind it.
    let cut = |size: usize| {
        let mut front = unit[..size].to_vec();
        front[2..4].copy_from_slice(&(size as u16).to_be_bytes());
        gone_on(&stream[..at], &told.open, &front)
    };
    match which(stream, told) {
        Byte::First | Byte::Later | Byte::Nested | Byte::NameAndValue => {
            let end = at + PREFIX + 1 + usize::from(unit[PREFIX]);
            let mut tried = stream.to_vec();
            tried.iter_mut().take(end).skip(offset).for_each(|byte| *byte = b'A');
            let wrong = matches!(check(&tried), Err(Refusal { number: 9, offset }) if offset < end as u64);
            wrong.then_some("letters from the byte on that 9 names make the name right")
        }
        Byte::Value | Byte::FieldValue => {
            let wrong = matches!(check(&cut(offset - at)), Err(Refusal { number: 9, .. }));
            let right = offset == at + unit.len() || !again(&cut(offset - at + 1));
            (wrong || right).then_some("a value is right up to the byte that 9 names, and wrong with it")
        }
        Byte::NoNumber | Byte::CutShort | Byte::SecondCut | Byte::TooLong => {
            (offset != at + PREFIX).then_some("9 names the first byte of numbers")
        }
        Byte::NoCount | Byte::Count | Byte::CountPast => None,
    }
}
