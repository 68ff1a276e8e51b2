//! The reader with places (document 01, Check and reader; document 02, g).

use crate::rules::{
    admits_kind, after, complete, is_group, is_root, opens, possible, unit_at, Around, Had, Handed, Unit,
};

/// An open unit. The id is 0 where a caller's numbers tell none.
#[derive(Clone, Copy, PartialEq, Debug)]
pub struct Open {
    pub id: u64,
    pub had: Had,
    pub start: u64,
    pub end: u64,
    pub rank: u64,
}

#[derive(Clone, Default, PartialEq, Debug)]
pub struct Place {
    pub position: u64,
    /// From the root inwards.
    pub open: Vec<Open>,
    pub last: Unit,
    pub last_rank: u64,
    /// Whether the last unit may still be skipped.
    pub fresh: bool,
}

#[derive(Clone, Copy, PartialEq, Debug)]
pub enum Call {
    First,
    Next,
    Skip,
    GetStream,
    Previous,
    AbnormalEnd,
}

pub struct Reply {
    pub number: u64,
    pub offset: u64,
    pub handed: Handed,
    /// Start and length.
    pub part: (u64, u64),
    pub place: Place,
}

/// The clauses of the rule by which a place fits, in its order.
pub const CLAUSES: [&str; 21] = [
    "from one to five open units",
    "outermost unit: kind of a root",
    "other units: a parent of a kind admitted around it",
    "outermost unit: starts at 0",
    "other units: start a prefix further inside",
    "ends do not grow inwards",
    "outermost unit: ends at n",
    "every state possible",
    "innermost start + 6 <= position",
    "position <= innermost end",
    "last start + 6 <= own end",
    "own end <= end",
    "end <= n",
    "skippable: the last id is the innermost's",
    "skippable: the last start is the innermost's",
    "skippable: the last end is the innermost's",
    "skippable: it has had nothing",
    "skippable: the position is its own end",
    "rank of the innermost unit: at most a sixth of the position",
    "ranks of the other units: at most a sixth of the position",
    "rank of the last unit: at most a sixth of the position",
];

/// Whether `more` is at least 6 after `start`, in numbers without a bound.
pub fn six_on(start: u64, more: u64) -> bool {
    u128::from(start) + 6 <= u128::from(more)
}

impl Place {
    /// Whether a rank is at most a sixth of the position, in numbers without a bound.
    pub fn bears(&self, rank: u64) -> bool {
        u128::from(rank) * 6 <= u128::from(self.position)
    }

    /// The last unit with its depth and rank. It is the innermost open one if it starts where that does.
    fn handed(&self) -> Handed {
        let inside = self.open.last().is_none_or(|innermost| innermost.start != self.last.start);
        Handed { unit: self.last, depth: self.open.len() as u64 + u64::from(inside), rank: self.last_rank }
    }

    /// The clauses that do not hold for n bytes, one bit each.
    pub fn missed(&self, n: u64) -> u32 {
        let (open, last) = (&self.open, &self.last);
        let (Some(outermost), Some(innermost)) = (open.first(), open.last()) else {
            return 1;
        };
        let each = |holds: &dyn Fn(&Open, &Open) -> bool| open.windows(2).all(|pair| holds(&pair[0], &pair[1]));
        let holds = [
            open.len() <= 5,
            is_root(outermost.id),
            each(&|outer, inner| admits_kind(outer.id, inner.id) && opens(inner.id)),
            outermost.start == 0,
            each(&|outer, inner| six_on(outer.start, inner.start)),
            each(&|outer, inner| inner.end <= outer.end),
            outermost.end == n,
            open.iter().all(|unit| possible(unit.id).contains(&unit.had)),
            six_on(innermost.start, self.position),
            self.position <= innermost.end,
            six_on(last.start, last.own),
            last.own <= last.end,
            last.end <= n,
            !self.fresh || last.id == innermost.id,
            !self.fresh || last.start == innermost.start,
            !self.fresh || last.end == innermost.end,
            !self.fresh || innermost.had == Had::Nothing,
            !self.fresh || self.position == last.own,
            self.bears(innermost.rank),
            open[..open.len() - 1].iter().all(|outer| self.bears(outer.rank)),
            self.bears(self.last_rank),
        ];
        let bits = holds.iter().zip(0..).filter(|(holds, _)| !**holds);
        bits.map(|(_, bit)| 1 << bit).sum()
    }

    fn fits(&self, stream: &[u8]) -> bool {
        self.missed(stream.len() as u64) == 0
    }
}

fn refuse(number: u64, offset: u64, place: Place) -> Reply {
    Reply { number, offset, handed: Handed::default(), part: (0, 0), place }
}

/// Opens a unit that has been found if it admits others, and hands it out.
fn hand_out(mut place: Place, unit: Unit, rank: u64) -> Reply {
    place.fresh = opens(unit.id);
    place.position = unit.end;
    if place.fresh {
        place.position = unit.own;
        place.open.push(Open { id: unit.id, had: Had::Nothing, start: unit.start, end: unit.end, rank });
    }
    (place.last, place.last_rank) = (unit, rank);
    Reply { handed: place.handed(), ..refuse(0, 0, place) }
}

fn first(stream: &[u8]) -> Reply {
    match unit_at(stream, 0, stream.len() as u64, Around::Root(&is_root)) {
        Ok(root) => hand_out(Place::default(), root, 0),
        Err(refusal) => refuse(refusal.number, refusal.offset, Place::default()),
    }
}

fn next(stream: &[u8], place: &Place) -> Reply {
    let mut left = place.clone();
    // While nothing has closed: the last unit is what holds the next one, and that is its first, or it stands right before it.
    let holds = place.open.last().is_some_and(|innermost| innermost.start == place.last.start);
    let mut rank = if holds { 0 } else { place.last_rank + 1 };
    while let Some(innermost) = left.open.last().copied() {
        if innermost.end == place.position {
            if !complete(innermost.id, innermost.had) {
                return refuse(10, innermost.start, place.clone());
            }
            // The unit that closes last stands right before the next one.
            rank = innermost.rank + 1;
            left.open.pop();
            continue;
        }
        let admits = |id| after(innermost.id, innermost.had, id).is_some();
        let around = Around::Admits(&admits);
        return match unit_at(stream, place.position, innermost.end, around) {
            Err(refusal) => refuse(refusal.number, refusal.offset, place.clone()),
            Ok(unit) => {
                let had = after(innermost.id, innermost.had, unit.id);
                left.open.last_mut().unwrap().had = had.unwrap();
                hand_out(left, unit, rank)
            }
        };
    }
    refuse(1, 0, place.clone())
}

/// The place after its last unit, the innermost open one, was skipped or taken.
fn skipped(place: &Place) -> Place {
    let mut place = place.clone();
    place.position = place.last.end;
    place.fresh = false;
    place.open.last_mut().unwrap().had = Had::Skipped;
    place
}

pub fn call(call: Call, stream: &[u8], place: &Place) -> Reply {
    let last = place.last;
    let nothing_to_do = place.open.is_empty()
        || match call {
            Call::Skip => !place.fresh || !opens(last.id),
            Call::GetStream => !place.fresh || !is_group(last.id),
            _ => false,
        };
    match call {
        Call::First => first(stream),
        Call::AbnormalEnd => refuse(0, 0, Place::default()),
        _ if nothing_to_do => refuse(11, 0, place.clone()),
        _ if !place.fits(stream) => refuse(2, 0, place.clone()),
        Call::Next => next(stream, place),
        Call::Skip => refuse(0, 0, skipped(place)),
        Call::GetStream => Reply { part: (last.start, last.end - last.start), ..refuse(0, 0, skipped(place)) },
        Call::Previous => Reply { handed: place.handed(), ..refuse(0, 0, place.clone()) },
    }
}
