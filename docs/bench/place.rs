//! The reader at any place, in plain Rust: which places fit, and what each call answers there. The plain reader that is timed makes its
//! own places and trusts them; this one is for the answers at places that a caller made. It is written from sections 3 and 7 of
//! docs/FORMAT.md, and keeps no more of a place than its count reaches.

use crate::archive::{Answer, Place};
use crate::rules::{action_allowed, before_wrong, opens, own_data, prefix, Prefix, RANGES};

#[derive(Clone, Copy, Debug, PartialEq)]
struct Open {
    state: u64,
    start: u64,
    end: u64,
    rank: u64,
}

/// What the numbers of a place say.
#[derive(Clone, Debug, PartialEq)]
pub struct Spot {
    position: u64,
    /// From the root inwards.
    open: Vec<Open>,
    /// Id, action, start, own end and end.
    last: [u64; 5],
    last_rank: u64,
    /// Whether the last unit may still be skipped.
    fresh: bool,
}

#[derive(Clone, Copy, Debug, PartialEq)]
pub enum Call {
    Next,
    Skip,
    GetStream,
    Previous,
}

/// The first and the last state of each kind that admits others, and its id.
const KINDS: [(u64, u64, u64); 8] =
    [(1, 4, 1), (5, 7, 4), (8, 10, 13), (11, 13, 2), (14, 18, 5), (19, 22, 9), (23, 26, 10), (27, 30, 11)];

/// 0 of a number that is no state.
fn id_of(state: u64) -> u64 {
    KINDS.iter().find(|(first, last, _)| (*first..=*last).contains(&state)).map_or(0, |kind| kind.2)
}

/// The states of a unit that has had nothing, and of one that was skipped; zeros where an id's units admit none.
fn ends_of(id: u64) -> (u64, u64) {
    KINDS.iter().find(|kind| kind.2 == id).map_or((0, 0), |kind| (kind.0, kind.1))
}

fn complete(state: u64) -> bool {
    !matches!(state, 1 | 5 | 8 | 14 | 19 | 20 | 23 | 24 | 27)
}

/// The state after one more unit; none if that one may not stand there.
fn after(state: u64, id: u8) -> Option<u64> {
    match (state, id) {
        (1..=3, 2) => Some(2),
        (2, 4 | 13) => Some(3),
        (5 | 6, 5 | 9 | 10) => Some(6),
        (8 | 9, 14) => Some(9),
        (11 | 12, 3) => Some(12),
        (14, 6) => Some(15),
        (14 | 16, 7) => Some(16),
        (15..=17, 8) => Some(17),
        (19 | 20 | 23 | 24, 11 | 12) => Some(state + 1),
        (27, 6) => Some(28),
        (27 | 29, 7) => Some(29),
        _ => None,
    }
}

/// Whether units of one id admit some of another that admit others themselves.
fn around(outer: u64, inner: u64) -> bool {
    matches!((outer, inner), (1, 2 | 4 | 13) | (4, 5 | 9 | 10) | (9 | 10, 11))
}

/// Whether one number is at least six above another.
fn six_above(low: u64, high: u64) -> bool {
    high >= 6 && low <= high - 6
}

/// How many rules a place must keep to fit.
pub const RULES: usize = 10;

impl Spot {
    pub fn new(numbers: &Place) -> Spot {
        // The innermost unit is in the first slot, the others from the root inwards in the next ones. There are four.
        let count = numbers[1].min(6) as usize;
        let open = (1..=count).map(|level| if level == count { 0 } else { level });
        let open = open.map(|slot| match slot {
            0..=3 => {
                let at = 2 + 3 * slot;
                Open { state: numbers[at], start: numbers[at + 1], end: numbers[at + 2], rank: numbers[20 + slot] }
            }
            _ => Open { state: 0, start: 0, end: 0, rank: 0 },
        });
        Spot {
            position: numbers[0],
            open: open.collect(),
            last: std::array::from_fn(|at| numbers[14 + at]),
            last_rank: numbers[24],
            fresh: numbers[19] != 0,
        }
    }

    /// The rules of section 7.3 that the place does not keep for n bytes, in their order from 1 on.
    pub fn broken(&self, n: u64) -> Vec<usize> {
        let (Some(root), Some(innermost)) = (self.open.first(), self.open.last()) else {
            return vec![1];
        };
        let [id, _, start, own, end] = self.last;
        let each = |holds: &dyn Fn(&Open, &Open) -> bool| self.open.windows(2).all(|pair| holds(&pair[0], &pair[1]));
        let bears = |rank: u64| rank.checked_mul(6).is_some_and(|six| six <= self.position);
        let is_innermost = (id, start, end) == (id_of(innermost.state), innermost.start, innermost.end);
        let keeps: [bool; RULES] = [
            self.open.len() <= 5,
            (1..=10).contains(&root.state),
            each(&|outer, inner| around(id_of(outer.state), id_of(inner.state))),
            root.start == 0 && each(&|outer, inner| six_above(outer.start, inner.start)),
            root.end == n && each(&|outer, inner| inner.end <= outer.end),
            self.open.iter().all(|unit| (1..=30).contains(&unit.state)),
            six_above(innermost.start, self.position) && self.position <= innermost.end,
            six_above(start, own) && own <= end && end <= n,
            !self.fresh || is_innermost && innermost.state == ends_of(id).0 && self.position == own,
            bears(self.last_rank) && self.open.iter().all(|unit| bears(unit.rank)),
        ];
        (1..=RULES).filter(|rule| !keeps[rule - 1]).collect()
    }

    /// The call's number, its answer, and the new place beside a 0.
    pub fn call(&self, call: Call, stream: &[u8]) -> (u64, Answer, Spot) {
        let refused = |number| (number, [0; 10], self.clone());
        let [id, _, start, _, end] = self.last;
        let nothing = match call {
            Call::Next | Call::Previous => false,
            Call::Skip => !self.fresh || ends_of(id).0 == 0,
            Call::GetStream => !self.fresh || !matches!(id, 4 | 13),
        };
        if self.open.is_empty() || nothing {
            return refused(11);
        }
        if !self.broken(stream.len() as u64).is_empty() {
            return refused(2);
        }
        match call {
            Call::Next => match self.next(stream) {
                Ok(spot) => (0, spot.handed(), spot),
                Err((number, offset)) => (number, [offset, 0, 0, 0, 0, 0, 0, 0, 0, 0], self.clone()),
            },
            Call::Previous => (0, self.handed(), self.clone()),
            Call::Skip => (0, [0; 10], self.skipped()),
            Call::GetStream => (0, [0, 0, 0, 0, 0, 0, start, end - start, 0, 0], self.skipped()),
        }
    }

    /// Many units in a call, by NEXT alone, as many as there is room for: the number, the offset, the units and the new place.
    pub fn units(&self, stream: &[u8], room: usize) -> (u64, u64, Vec<[u64; 7]>, Spot) {
        let (mut spot, mut units) = (self.clone(), Vec::new());
        loop {
            let (number, answer, next) = spot.call(Call::Next, stream);
            // 11 and 2 come first, and the others where there is room; beside units what stops them is not told.
            match number {
                0 if units.len() < room => (),
                2 | 11 => return (number, 0, units, spot),
                0 => return (0, 0, units, spot),
                _ if units.is_empty() && room > 0 => return (number, answer[0], units, spot),
                _ => return (0, 0, units, spot),
            }
            let [_, id, action, start, own, end, _, _, depth, rank] = answer;
            units.push([id, action, start, own, end, depth, rank]);
            spot = next;
        }
    }

    /// The last unit, as it is handed out.
    fn handed(&self) -> Answer {
        let [id, action, start, own, end] = self.last;
        let is_innermost = self.open.last().is_some_and(|open| open.start == start);
        let depth = self.open.len() as u64 + u64::from(!is_innermost);
        [0, id, action, start, own, end, 0, 0, depth, self.last_rank]
    }

    fn skipped(&self) -> Spot {
        let mut spot = Spot { position: self.last[4], fresh: false, ..self.clone() };
        spot.open.last_mut().expect("a place that fits has an open unit").state = ends_of(self.last[0]).1;
        spot
    }

    /// The place behind the next unit, or the number with its offset.
    fn next(&self, stream: &[u8]) -> Result<Spot, (u64, u64)> {
        let mut spot = self.clone();
        let first = self.open.last().is_some_and(|open| open.start == self.last[2]);
        let mut rank = if first { 0 } else { self.last_rank + 1 };
        while let Some(closing) = spot.open.pop_if(|open| open.end == self.position) {
            if !complete(closing.state) {
                return Err((10, closing.start));
            }
            rank = closing.rank + 1;
        }
        let open = spot.open.last_mut().ok_or((1, 0))?;
        let rest = &stream[self.position as usize..open.end as usize];
        let stop = |number: u8| (u64::from(number), self.position);
        let Prefix { length, action, id } = prefix(rest, false).map_err(stop)?;
        open.state = after(open.state, id).ok_or(stop(7))?;
        if !action_allowed(id, action) {
            return Err(stop(8));
        }
        let data = &rest[6..length];
        let wrong = || (9, self.position + 6 + before_wrong(id, data) as u64);
        let taken = own_data::<RANGES>(id, data).ok_or_else(wrong)?;
        let (own, end) = (self.position + 6 + taken as u64, self.position + length as u64);
        spot.last = [u64::from(id), u64::from(action), self.position, own, end];
        spot.last_rank = rank;
        (spot.fresh, spot.position) = if opens(id) { (true, own) } else { (false, end) };
        if spot.fresh {
            spot.open.push(Open { state: ends_of(u64::from(id)).0, start: self.position, end, rank });
        }
        Ok(spot)
    }
}
