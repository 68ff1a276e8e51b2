//! The builder (document 01, Builder). Each call gives the number and, beside a 0, the new place.

use crate::check::check;
use crate::reader::six_on;
use crate::rules::{
    admits_kind, after, complete, is_group, is_root, kind, opens, own_length, possible, Had, Unit, LIMIT, MARK, PREFIX,
};
use crate::units::list;

/// An open unit. The id is 0 where a caller's numbers tell none.
#[derive(Clone, Copy, PartialEq, Debug)]
pub struct Open {
    pub id: u64,
    pub had: Had,
    pub start: u64,
}

#[derive(Clone, Default, PartialEq, Debug)]
pub struct Place {
    pub written: u64,
    /// From the root inwards.
    pub open: Vec<Open>,
}

/// What a NEXT is asked to write.
#[derive(Clone, PartialEq, Debug)]
pub struct Request {
    pub id: u64,
    pub action: u64,
    pub data: Vec<u8>,
}

/// What builds these bytes, or as much of them as is right: the root first.
pub fn requests(stream: &[u8]) -> Vec<Request> {
    let asked = |unit: &Unit| {
        let end = if opens(unit.id) { unit.own } else { unit.end };
        let data = stream[unit.start as usize + PREFIX..end as usize].to_vec();
        Request { id: unit.id, action: unit.action, data }
    };
    list(stream).units.iter().map(asked).collect()
}

/// The clauses of the rule by which a builder's place fits, in its order.
pub const CLAUSES: [&str; 9] = [
    "written <= buffer",
    "written <= 65,535",
    "outermost unit: starts at 0",
    "other units: start a prefix further inside",
    "innermost prefix is written",
    "from one to five open units",
    "outermost unit: kind of a root",
    "every state possible, none skipped",
    "other units: of a kind admitted around them",
];

impl Place {
    /// The clauses that do not hold for a buffer of so many bytes, one bit each.
    pub fn missed(&self, buffer: u64) -> u32 {
        let open = &self.open;
        let (Some(outermost), Some(innermost)) = (open.first(), open.last()) else {
            return 1 << 5;
        };
        let had_possible = |unit: &Open| unit.had != Had::Skipped && possible(unit.id).contains(&unit.had);
        let pairs = || open.windows(2).map(|pair| (pair[0], pair[1]));
        let holds = [
            self.written <= buffer,
            self.written <= LIMIT,
            outermost.start == 0,
            pairs().all(|(outer, inner)| six_on(outer.start, inner.start)),
            six_on(innermost.start, self.written),
            open.len() <= 5,
            is_root(outermost.id),
            open.iter().all(had_possible),
            pairs().all(|(outer, inner)| admits_kind(outer.id, inner.id) && opens(inner.id)),
        ];
        let bits = holds.iter().zip(0..).filter(|(holds, _)| !**holds);
        bits.map(|(_, bit)| 1 << bit).sum()
    }

    /// What is open once a unit has joined the innermost one that admits it; 7 if none does, 10 if one inside that is
    /// incomplete.
    fn joined(&self, id: u64) -> Result<Vec<Open>, u64> {
        let admits = |unit: &Open| after(unit.id, unit.had, id).is_some();
        let index = self.open.iter().rposition(admits).ok_or(7_u64)?;
        let (left, closed) = self.open.split_at(index + 1);
        if closed.iter().any(|unit| !complete(unit.id, unit.had)) {
            return Err(10);
        }
        let mut left = left.to_vec();
        left[index].had = after(left[index].id, left[index].had, id).unwrap();
        Ok(left)
    }

    /// 13 or 12 if so many bytes more have no room; else how many are then written.
    fn grown(&self, more: usize, buffer: &[u8]) -> Result<u64, u64> {
        let written = self.written + more as u64;
        match written {
            _ if written > LIMIT => Err(13),
            _ if written > buffer.len() as u64 => Err(12),
            _ => Ok(written),
        }
    }

    fn write_lengths(&self, buffer: &mut [u8]) {
        for unit in &self.open {
            let at = unit.start as usize;
            put_length(&mut buffer[at..], self.written - unit.start);
        }
    }
}

fn put_length(unit: &mut [u8], length: u64) {
    unit[2] = (length / 256) as u8;
    unit[3] = (length % 256) as u8;
}

/// Writes prefix and data at the front of the buffer's part that begins at the writing place.
fn put_unit(tail: &mut [u8], id: u64, action: u64, data: &[u8]) {
    tail[..2].copy_from_slice(&MARK);
    put_length(tail, (PREFIX + data.len()) as u64);
    tail[4] = action as u8;
    tail[5] = id as u8;
    tail[PREFIX..PREFIX + data.len()].copy_from_slice(data);
}

fn opened(id: u64, start: u64) -> Open {
    Open { id, had: Had::Nothing, start }
}

pub fn start(buffer: &mut [u8], root: u64) -> Result<Place, u64> {
    if kind(root).is_none() {
        return Err(6);
    }
    if !is_root(root) {
        return Err(7);
    }
    if buffer.len() < PREFIX {
        return Err(12);
    }
    put_unit(buffer, root, 0, &[]);
    Ok(Place { written: PREFIX as u64, open: vec![opened(root, 0)] })
}

pub fn next(buffer: &mut [u8], place: &Place, request: &Request) -> Result<Place, u64> {
    let Request { id, action, data } = request;
    if place.missed(buffer.len() as u64) != 0 {
        return Err(2);
    }
    let kind = kind(*id).ok_or(6_u64)?;
    let mut open = place.joined(*id)?;
    if !kind.actions.contains(action) {
        return Err(8);
    }
    // Nothing may follow a name or fixed numbers but a value.
    let own = own_length(kind, data).map_err(|_| 9_u64)?;
    if opens(*id) && own != data.len() {
        return Err(9);
    }
    let written = place.grown(PREFIX + data.len(), buffer)?;
    put_unit(&mut buffer[place.written as usize..], *id, *action, data);
    if opens(*id) {
        open.push(opened(*id, place.written));
    }
    let place = Place { written, open };
    place.write_lengths(buffer);
    Ok(place)
}

pub fn add_stream(buffer: &mut [u8], place: &Place, group: &[u8]) -> Result<Place, u64> {
    if place.missed(buffer.len() as u64) != 0 {
        return Err(2);
    }
    if check(group).is_err() || !is_group(u64::from(group[5])) {
        return Err(14);
    }
    let open = place.joined(u64::from(group[5]))?;
    let written = place.grown(group.len(), buffer)?;
    buffer[place.written as usize..written as usize].copy_from_slice(group);
    let place = Place { written, open };
    place.write_lengths(buffer);
    Ok(place)
}

/// The length of the stream.
pub fn finish(buffer: &[u8], place: &Place) -> Result<u64, u64> {
    if place.missed(buffer.len() as u64) != 0 {
        return Err(2);
    }
    match place.open.iter().all(|unit| complete(unit.id, unit.had)) {
        true => Ok(place.written),
        false => Err(10),
    }
}
