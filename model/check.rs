//! The check, one level down for each unit that admits others, and the text of the listing program.

use crate::rules::{is_root, opens, unit_at, Around, Refusal, Unit};
use crate::units::{depth, list};
use std::fmt::Write;

/// How many units the stream has, or the first rule that it breaks.
pub fn check(stream: &[u8]) -> Result<u64, Refusal> {
    let root = unit_at(stream, 0, stream.len() as u64, Around::Root(&is_root))?;
    count(stream, root)
}

/// How many units this one is with all that are nested in it.
fn count(stream: &[u8], unit: Unit) -> Result<u64, Refusal> {
    if !opens(unit.id) {
        return Ok(1);
    }
    let mut had = Vec::new();
    let mut units = 1;
    let mut at = unit.own;
    while at < unit.end {
        let admits = |id| follows(unit.id, &had, id);
        let nested = unit_at(stream, at, unit.end, Around::Admits(&admits))?;
        units += count(stream, nested)?;
        had.push(nested.id);
        at = nested.end;
    }
    if had.len() < least(unit.id) {
        return Err(Refusal { number: 10, offset: unit.start });
    }
    Ok(units)
}

/// Whether a unit admits a nested one after those that it has had, by the table's last column, and for keys by document
/// 02, c: a temporary key is the only one, and one of kind 7 has none but its like before it.
pub fn follows(id: u64, had: &[u64], nested: u64) -> bool {
    match id {
        1 => nested == 2 || (matches!(nested, 4 | 13) && had.last() == Some(&2)),
        2 => nested == 3,
        4 => matches!(nested, 5 | 9 | 10),
        5 if nested == 8 => !had.is_empty(),
        5 | 11 if nested == 6 => had.is_empty(),
        5 | 11 if nested == 7 => had.iter().all(|id| *id == 7),
        9 | 10 => matches!(nested, 11 | 12) && had.len() < 2,
        _ => id == 13 && nested == 14,
    }
}

/// How many nested units make a unit complete. What it admits first is always of the kind that it needs.
pub fn least(id: u64) -> usize {
    match id {
        2 => 0,
        9 | 10 => 2,
        _ => 1,
    }
}

/// What the listing program writes.
pub fn listing(stream: &[u8]) -> String {
    let mut text = String::new();
    match check(stream) {
        Err(Refusal { number, offset }) => writeln!(text, "refused {number} at {offset}"),
        Ok(units) => {
            let listed = list(stream).units;
            for (index, unit) in listed.iter().enumerate() {
                let depth = depth(&listed[..index], unit);
                let length = unit.end - unit.start;
                let (start, id, action) = (unit.start, unit.id, unit.action);
                writeln!(text, "{start} {depth} {id} {action} {length}").unwrap();
            }
            writeln!(text, "ok {units}")
        }
    }
    .unwrap();
    text
}
