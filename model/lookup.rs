//! Which value counts (document 02, d), from the bytes of two streams and their unit lists.

use crate::rules::{Refusal, Unit, PREFIX};
use crate::units::list;

/// What is looked for. Names have their count byte; nothing here need be right.
#[derive(Clone, Default, PartialEq, Debug)]
pub struct Asked {
    pub template: Vec<u8>,
    pub key_id: u64,
    pub key: Vec<u8>,
    pub field: Vec<u8>,
}

/// Beside any number but 0 the stream, the start and the length are 0.
#[derive(Default, PartialEq, Debug)]
pub struct Found {
    pub number: u64,
    pub offset: u64,
    /// In which stream, 1 or 2, and where in it: start and length.
    pub which: u64,
    pub part: (u64, u64),
}

pub fn lookup(first: &[u8], second: &[u8], asked: &Asked) -> Found {
    let refused = |number, offset| Found { number, offset, ..Found::default() };
    let (one, other) = (list(first), list(second));
    if let Some(Refusal { number, offset }) = one.fault.or(other.fault) {
        return refused(number, offset);
    }
    if one.units[0].id != 4 || other.units[0].id != 4 {
        return refused(7, 0);
    }
    for (which, stream, units) in [(1, first, one.units), (2, second, other.units)] {
        if let Some(part) = value(stream, &units, asked) {
            return Found { number: 0, offset: 0, which, part };
        }
    }
    refused(15, 0)
}

/// The value in an accepted E/R group.
fn value(stream: &[u8], units: &[Unit], asked: &Asked) -> Option<(u64, u64)> {
    let bytes = |start: u64, end: u64| &stream[start as usize..end as usize];
    let named = |unit: &Unit, name: &[u8]| bytes(unit.start + PREFIX as u64, unit.own) == name;
    // The first key of a template is the unit listed after it. All of a key after its prefix is its number or value.
    let is_key = |unit: &Unit| unit.id == asked.key_id && bytes(unit.start + PREFIX as u64, unit.end) == asked.key;
    let is_asked = |pair: &&[Unit]| pair[0].id == 5 && named(&pair[0], &asked.template) && is_key(&pair[1]);
    let template = units.windows(2).find(is_asked)?[0];
    let inside = |unit: &&Unit| template.start < unit.start && unit.end <= template.end;
    let field = units.iter().filter(inside).find(|unit| unit.id == 8 && named(unit, &asked.field))?;
    Some((field.own, field.end - field.own))
}
