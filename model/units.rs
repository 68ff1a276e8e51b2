//! The unit list of demand 3, from the bytes alone (document 01, Check and reader). It keeps no open units: what is open
//! and what a unit has had is looked up in the list each time.

use crate::check::{follows, least};
use crate::rules::{is_root, opens, unit_at, Around, Handed, Refusal, Unit};

pub struct List {
    pub units: Vec<Unit>,
    pub fault: Option<Refusal>,
}

pub fn list(stream: &[u8]) -> List {
    let mut units = Vec::new();
    loop {
        match following(stream, &units) {
            Ok(Some(unit)) => units.push(unit),
            Ok(None) => break List { units, fault: None },
            Err(fault) => {
                let fault = Some(fault);
                break List { units, fault };
            }
        }
    }
}

/// Where the unit after these stands or would stand.
pub fn position(units: &[Unit]) -> u64 {
    match units.last() {
        None => 0,
        Some(last) if opens(last.id) => last.own,
        Some(last) => last.end,
    }
}

/// The unit that is listed after these, or none if the list is whole, or the fault.
fn following(stream: &[u8], units: &[Unit]) -> Result<Option<Unit>, Refusal> {
    let position = position(units);
    if units.is_empty() {
        return unit_at(stream, position, stream.len() as u64, Around::Root(&is_root)).map(Some);
    }
    let outer = |index: &usize| opens(units[*index].id);
    let closing = |index: &usize| units[*index].end == position;
    for index in (0..units.len()).rev().filter(outer).filter(closing) {
        if had(units, index).len() < least(units[index].id) {
            return Err(Refusal { number: 10, offset: units[index].start });
        }
    }
    let open = |index: &usize| units[*index].end > position;
    match (0..units.len()).rev().filter(outer).find(open) {
        None => Ok(None),
        Some(index) => {
            let had = had(units, index);
            let admits = |id| follows(units[index].id, &had, id);
            unit_at(stream, position, units[index].end, Around::Admits(&admits)).map(Some)
        }
    }
}

/// The ids of the listed units directly inside a listed one: the first starts at its own end, each other at the end of
/// the one before.
pub fn had(units: &[Unit], index: usize) -> Vec<u64> {
    let mut at = units[index].own;
    let mut ids = Vec::new();
    for nested in &units[index + 1..] {
        if nested.start == at && at < units[index].end {
            ids.push(nested.id);
            at = nested.end;
        }
    }
    ids
}

/// How deep a unit lies, by the units listed before it.
pub fn depth(before: &[Unit], unit: &Unit) -> usize {
    1 + before.iter().filter(|outer| opens(outer.id) && outer.end > unit.start).count()
}

/// How many siblings stand before a unit, by the units listed before it: those that the innermost one around it has had.
pub fn rank(before: &[Unit], unit: &Unit) -> usize {
    let around = before.iter().rposition(|outer| opens(outer.id) && outer.end > unit.start);
    around.map_or(0, |index| had(before, index).len())
}

/// The listed units with depth and rank (document 02, g).
pub fn handed(units: &[Unit]) -> Vec<Handed> {
    let one = |(index, unit): (usize, &Unit)| {
        let before = &units[..index];
        Handed { unit: *unit, depth: depth(before, unit) as u64, rank: rank(before, unit) as u64 }
    };
    units.iter().enumerate().map(one).collect()
}
