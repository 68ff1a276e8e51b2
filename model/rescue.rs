//! What can be rescued of a broken E/R group (document 02, f).

use crate::cases::unit;
use crate::check::check;
use crate::reader::{call, Call, Open, Place};
use crate::rules::{Had, Unit, LIMIT, MARK, PREFIX};

/// The most runs that are told.
const RUNS: usize = 64;

/// Beside any number but 0 there is no group, and no run.
#[derive(Clone, Default, PartialEq, Debug)]
pub struct Rescued {
    pub number: u64,
    pub group: Vec<u8>,
    /// Of each run of dropped bytes the first, and the byte after the last.
    pub runs: Vec<(u64, u64)>,
}

/// Into room for so many bytes.
pub fn rescue(bytes: &[u8], room: u64) -> Rescued {
    let refused = |number| Rescued { number, ..Rescued::default() };
    if bytes.len() < PREFIX {
        return refused(3);
    }
    let (mut kept, mut runs) = (Vec::new(), Vec::<(u64, u64)>::new());
    let mut at = PREFIX;
    while at < bytes.len() {
        if let Some(unit) = standing(bytes, at) {
            kept.extend(unit);
            at += unit.len();
            continue;
        }
        match runs.last_mut() {
            Some(run) if run.1 == at as u64 => run.1 += 1,
            _ => runs.push((at as u64, at as u64 + 1)),
        }
        at += 1;
    }
    let length = (PREFIX + kept.len()) as u64;
    match kept.is_empty() {
        true => refused(16),
        _ if runs.len() > RUNS => refused(17),
        _ if length > LIMIT => refused(13),
        _ if length > room => refused(12),
        _ => Rescued { number: 0, group: unit(4, &[&kept]), runs },
    }
}

/// The unit that stands whole at the offset, if it may stand in an E/R group: if the group is accepted that holds it alone. No
/// group holds one of more than 65,529 bytes, but the rules of such a unit do not ask that: the reader judges it.
fn standing(bytes: &[u8], at: usize) -> Option<&[u8]> {
    let rest = &bytes[at..];
    // The rules refuse any other bytes too. This saves a group around each of them.
    if !rest.starts_with(&MARK) {
        return None;
    }
    let length = usize::from(*rest.get(2)?) * 256 + usize::from(*rest.get(3)?);
    let alone = rest.get(..length)?;
    let accepted = match (PREFIX + length) as u64 <= LIMIT {
        true => check(&unit(4, &[alone])).is_ok(),
        false => read(bytes, at).is_some(),
    };
    accepted.then_some(alone)
}

/// The end of the unit at the offset if the reader reads it whole, from a place in an E/R group that has had units. A place
/// says nothing of the bytes before it.
pub fn read(bytes: &[u8], at: usize) -> Option<usize> {
    let group = Open { id: 4, had: Had::Units, start: 0, end: bytes.len() as u64, rank: 0 };
    let last = Unit { id: 4, action: 0, start: 0, own: PREFIX as u64, end: PREFIX as u64 };
    let place = Place { position: at as u64, open: vec![group], last, last_rank: 0, fresh: false };
    let mut reply = call(Call::Next, bytes, &place);
    let end = reply.handed.unit.end;
    while reply.number == 0 && reply.place.position < end {
        reply = call(Call::Next, bytes, &reply.place);
    }
    // The units that end there close. What comes behind them may be anything: the group is complete, so it gets no 10.
    let whole = reply.number == 0 && call(Call::Next, bytes, &reply.place).number != 10;
    whole.then_some(end as usize)
}
