//! A plain resolving: what the proved one is measured against. It trusts a stream that its check has accepted, and keeps the
//! templates in a table of the same size.

use crate::plain::check;

const TEMPLATES: usize = 256;

/// Start, own end and rank of a template with a temporary key. Its key's number stands six bytes behind its own end.
#[derive(Clone, Copy, Default)]
struct Template {
    start: usize,
    own: usize,
    rank: u64,
}

/// The templates so far, as many as there is room for; and how many there are.
struct Table {
    templates: [Template; TEMPLATES],
    count: usize,
}

/// Where the unit at `start` ends.
#[inline(always)]
fn end(stream: &[u8], start: usize) -> usize {
    start + u16::from_be_bytes([stream[start + 2], stream[start + 3]]) as usize
}

/// Where the name ends of the template or entity key at `start`, if its key is a temporary one.
#[inline(always)]
fn temporary(stream: &[u8], start: usize) -> Option<usize> {
    let own = start + 7 + stream[start + 6] as usize;
    (stream[own + 5] == 6).then_some(own)
}

/// The rank of the first template that has the number and the name of this unit.
#[inline(always)]
fn find(stream: &[u8], table: &Table, start: usize, own: usize) -> Option<u64> {
    let (number, name) = (&stream[own + 6..own + 10], &stream[start + 6..own]);
    let same = |template: &&Template| {
        stream[template.own + 6..template.own + 10] == *number && stream[template.start + 6..template.own] == *name
    };
    table.templates[..table.count.min(TEMPLATES)].iter().find(same).map(|template| template.rank)
}

#[inline(never)]
fn find_out_of_line(stream: &[u8], table: &Table, start: usize, own: usize) -> Option<u64> {
    find(stream, table, start, own)
}

/// What a pass over an accepted E/R group finds: the first doubled template, the first key without one, and how many keys.
#[derive(Default)]
struct Pass {
    doubled: Option<usize>,
    alone: Option<usize>,
    keys: usize,
}

/// From unit to unit by their lengths. `found` is given the rank for each key that has a template.
#[inline(always)]
fn pass<const CALLS: bool>(stream: &[u8], table: &mut Table, mut found: impl FnMut(usize, u64)) -> Pass {
    let find = |table: &Table, start, own| {
        if CALLS {
            find_out_of_line(stream, table, start, own)
        } else {
            find(stream, table, start, own)
        }
    };
    let mut told = Pass::default();
    let (mut at, mut rank) = (6, 0);
    while at < stream.len() {
        let behind = end(stream, at);
        let id = stream[at + 5];
        if id == 5 {
            if let Some(own) = temporary(stream, at) {
                if told.doubled.is_none() && find(table, at, own).is_some() {
                    told.doubled = Some(at);
                }
                if table.count < TEMPLATES {
                    table.templates[table.count] = Template { start: at, own, rank };
                }
                table.count += 1;
            }
        } else {
            let mut side = at + if id == 9 { 10 } else { 14 };
            while side < behind {
                let next = end(stream, side);
                if stream[side + 5] == 11 {
                    if let Some(own) = temporary(stream, side) {
                        match find(table, side, own) {
                            Some(rank) => {
                                found(told.keys, rank);
                                told.keys += 1;
                            }
                            None if told.alone.is_none() => told.alone = Some(side),
                            None => {}
                        }
                    }
                }
                side = next;
            }
        }
        rank += 1;
        at = behind;
    }
    told
}

/// The number, and into `answer`, in the order of `cdf_resolve`, its offset and how many ranks were written to the list. One
/// pass decides, and a second writes, since a refusal leaves the list.
#[inline(always)]
pub fn resolve<const CALLS: bool>(stream: &[u8], list: &mut [u64], answer: &mut [u64; 2]) -> u64 {
    *answer = [0; 2];
    if let Err(stop) = check::<CALLS>(stream) {
        answer[0] = stop.offset as u64;
        return stop.number as u64;
    }
    if stream[5] != 4 {
        return 7;
    }
    let mut table = Table { templates: [Template::default(); TEMPLATES], count: 0 };
    let told = pass::<CALLS>(stream, &mut table, |_, _| ());
    if table.count > TEMPLATES {
        return 18;
    }
    if let Some(offset) = told.doubled {
        answer[0] = offset as u64;
        return 19;
    }
    if let Some(offset) = told.alone {
        answer[0] = offset as u64;
        return 20;
    }
    if told.keys > list.len() {
        return 12;
    }
    table.count = 0;
    pass::<CALLS>(stream, &mut table, |key, rank| list[key] = rank);
    answer[1] = told.keys as u64;
    0
}
