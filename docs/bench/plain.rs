//! A plain check, reader, explanation and replay: what the proved ones are measured against. Their state is mutable and
//! their own, so no call tests it again. The proved NEXT must: its place is the caller's.

use crate::archive::ENTRY;
use crate::rules::{
    action_allowed, before_wrong, opens, own_data, prefix, root, root_kind, Handed, Prefix, Progress, Stop, Unit,
    RANGES,
};

struct Open {
    progress: Progress,
    start: usize,
    end: usize,
}

impl Open {
    fn new(unit: &Unit) -> Open {
        Open { progress: Progress::new(unit.id), start: unit.start, end: unit.end }
    }
}

/// Rules 3 to 9 for the unit at `start`, nested in `open`, which has then had it.
#[inline(always)]
fn nested<const BY: bool>(stream: &[u8], start: usize, open: &mut Open) -> Result<Unit, Stop> {
    let stop = |number| Stop { number, offset: start };
    let rest = &stream[start..open.end];
    let Prefix { length, action, id } = prefix(rest, false).map_err(stop)?;
    if !open.progress.admits(id) {
        return Err(stop(7));
    }
    if !action_allowed(id, action) {
        return Err(stop(8));
    }
    let data = &rest[6..length];
    let wrong = || Stop { number: 9, offset: start + 6 + before_wrong(id, data) };
    let taken = own_data::<BY>(id, data).ok_or_else(wrong)?;
    open.progress.add(id);
    Ok(Unit { id, action, start, own: start + 6 + taken, end: start + length })
}

#[inline(never)]
fn nested_out_of_line(stream: &[u8], start: usize, open: &mut Open) -> Result<Unit, Stop> {
    nested::<RANGES>(stream, start, open)
}

/// Whether the code for one unit (NEXT, or in the check the rules of a nested unit) is inlined into the loop or stays a
/// call. What it calls is always inlined into it: left to itself the compiler keeps `own_data` as a call here.
pub const INLINED: bool = false;
pub const OUT_OF_LINE: bool = true;

/// The number of units of an accepted stream, or its first fault.
pub fn check<const CALLS: bool>(stream: &[u8]) -> Result<usize, Stop> {
    let root = root(stream)?;
    inside::<CALLS>(stream, Open::new(&root), root.own)
}

/// Counts an open unit with all that is nested in it from `at` on.
fn inside<const CALLS: bool>(stream: &[u8], mut open: Open, mut at: usize) -> Result<usize, Stop> {
    let mut units = 1;
    while at < open.end {
        let unit =
            if CALLS { nested_out_of_line(stream, at, &mut open)? } else { nested::<RANGES>(stream, at, &mut open)? };
        units += if opens(unit.id) { inside::<CALLS>(stream, Open::new(&unit), unit.own)? } else { 1 };
        at = unit.end;
    }
    if open.progress.complete() {
        Ok(units)
    } else {
        Err(Stop { number: 10, offset: open.start })
    }
}

/// Where the unit at `start` ends, if the rules accept it in an E/R group around all the bytes.
#[inline(always)]
pub fn in_group<const CALLS: bool>(bytes: &[u8], start: usize) -> Option<usize> {
    let group = &mut Open { progress: Progress::new(4), start: 0, end: bytes.len() };
    let unit =
        if CALLS { nested_out_of_line(bytes, start, group) } else { nested::<RANGES>(bytes, start, group) }.ok()?;
    // All that a group admits admit others.
    inside::<CALLS>(bytes, Open::new(&unit), unit.own).ok()?;
    Some(unit.end)
}

/// FIRST, then NEXT until one of them gives a number other than 0.
pub struct Reader<'a> {
    stream: &'a [u8],
    position: usize,
    open: Vec<Open>,
}

impl<'a> Reader<'a> {
    pub fn first(stream: &'a [u8]) -> Result<(Reader<'a>, Handed), Stop> {
        let unit = root(stream)?;
        let open = vec![Open::new(&unit)];
        Ok((Reader { stream, position: unit.own, open }, Handed { unit, depth: 1, rank: 0 }))
    }

    #[inline(always)]
    pub fn next(&mut self) -> Result<Handed, Stop> {
        self.next_by::<RANGES>()
    }

    #[inline(always)]
    fn next_by<const BY: bool>(&mut self) -> Result<Handed, Stop> {
        while let Some(open) = self.open.last() {
            if open.end != self.position {
                break;
            }
            if !open.progress.complete() {
                return Err(Stop { number: 10, offset: open.start });
            }
            self.open.pop();
        }
        let depth = self.open.len() + 1;
        let Some(open) = self.open.last_mut() else {
            return Err(Stop { number: 1, offset: 0 });
        };
        let rank = open.progress.nested();
        let unit = nested::<BY>(self.stream, self.position, open)?;
        if opens(unit.id) {
            self.open.push(Open::new(&unit));
            self.position = unit.own;
        } else {
            self.position = unit.end;
        }
        Ok(Handed { unit, depth, rank })
    }

    #[inline(never)]
    pub fn next_out_of_line(&mut self) -> Result<Handed, Stop> {
        self.next()
    }
}

/// The fold of a walk takes in every unit handed out, with depth and rank, and then what stopped it.
pub fn fold_unit(fold: u64, handed: &Handed) -> u64 {
    let Handed { unit, depth, rank } = handed;
    fold.rotate_left(5)
        ^ unit.start as u64
        ^ (unit.own as u64) << 16
        ^ (unit.end as u64) << 32
        ^ (unit.id as u64) << 48
        ^ (unit.action as u64) << 56
        ^ (*depth as u64) << 52
        ^ (*rank as u64) << 8
}

pub fn fold_stop(fold: u64, stop: &Stop) -> u64 {
    fold ^ (stop.number as u64) << 57 ^ (stop.offset as u64) << 3
}

/// FIRST and all NEXTs, folded.
pub fn walk<const CALLS: bool, const BY: bool>(stream: &[u8]) -> u64 {
    let (mut reader, root) = match Reader::first(stream) {
        Ok(begun) => begun,
        Err(stop) => return fold_stop(0, &stop),
    };
    let mut fold = fold_unit(0, &root);
    loop {
        match if CALLS { reader.next_out_of_line() } else { reader.next_by::<BY>() } {
            Ok(handed) => fold = fold_unit(fold, &handed),
            Err(stop) => return fold_stop(fold, &stop),
        }
    }
}

/// Why a stream is refused: the check's number, and into `answer`, in the order of `cdf_explain`, its offset, the units
/// open there and the ids that the innermost admits.
#[inline(always)]
pub fn explain<const CALLS: bool>(stream: &[u8], answer: &mut [u64; 25]) -> u64 {
    *answer = [0; 25];
    let (stop, open) = match Reader::first(stream) {
        Err(stop) => (stop, Vec::new()),
        Ok((mut reader, _)) => loop {
            if let Err(stop) = if CALLS { reader.next_out_of_line() } else { reader.next() } {
                break (stop, reader.open);
            }
        },
    };
    if stop.number == 1 {
        return 0;
    }
    answer[0] = stop.offset as u64;
    answer[1] = open.len() as u64;
    for (pair, open) in answer[2..10].chunks_exact_mut(2).zip(&open) {
        pair.copy_from_slice(&[open.progress.id() as u64, open.start as u64]);
    }
    let mut ids = 0;
    for id in 1..=14 {
        if open.last().map_or(root_kind(id), |open| open.progress.admits(id)) {
            answer[11 + ids] = id as u64;
            ids += 1;
        }
    }
    answer[10] = ids as u64;
    stop.number as u64
}

fn entry(answer: &Result<Handed, Stop>) -> [u64; ENTRY] {
    match *answer {
        Ok(Handed { unit: Unit { id, action, start, own, end }, depth, rank }) => {
            let [start, own, end, depth, rank] = [start, own, end, depth, rank].map(|number| number as u64);
            [0, 0, 0, 0, id as u64, action as u64, start, own, end, depth, rank]
        }
        Err(Stop { number, offset }) => [number as u64, offset as u64, 0, 0, 0, 0, 0, 0, 0, 0, 0],
    }
}

/// A run of starts (1) and NEXTs (2) into a log of eleven numbers a call; another code ends it. How many were made.
#[inline(always)]
pub fn replay<const CALLS: bool>(stream: &[u8], calls: &[u8], log: &mut [u64]) -> usize {
    let mut reader = None;
    for (made, (call, into)) in calls.iter().zip(log.chunks_exact_mut(ENTRY)).enumerate() {
        let answer = match (call, &mut reader) {
            (1, _) => match Reader::first(stream) {
                Ok((begun, root)) => {
                    reader = Some(begun);
                    Ok(root)
                }
                Err(stop) => {
                    reader = None;
                    Err(stop)
                }
            },
            (2, Some(reader)) if CALLS => reader.next_out_of_line(),
            (2, Some(reader)) => reader.next(),
            (2, None) => Err(Stop { number: 11, offset: 0 }),
            _ => return made,
        };
        into.copy_from_slice(&entry(&answer));
    }
    calls.len()
}
