//! The reader that is driven by a table (document 02, h): start, NEXT and SKIP. The table is worked out from the productions of the
//! grammar (document 01, One unit, with 02, c); no entry is written by hand.

use crate::numbers::{state, state_number};
use crate::reader::{Call, Open, Place, Reply};
use crate::rules::{is_root, opens, unit_at, Around, Had, Handed, Refusal, Unit};
use std::cell::Cell;
use std::sync::OnceLock;

/// Which lists of units may stand in a unit.
#[derive(Clone, Debug)]
enum Order {
    /// None, not even the empty one.
    Never,
    /// The empty one.
    Done,
    One(u64),
    Then(Box<Order>, Box<Order>),
    Either(Box<Order>, Box<Order>),
    /// Any number of them, one after the other.
    Any(Box<Order>),
}
use Order::{Any, Done, Either, Never, One, Then};

fn then(first: Order, second: Order) -> Order {
    match (first, second) {
        (Never, _) | (_, Never) => Never,
        (Done, second) => second,
        (first, second) => Then(Box::new(first), Box::new(second)),
    }
}

fn either(one: Order, other: Order) -> Order {
    match (one, other) {
        (Never, order) | (order, Never) => order,
        (one, other) => Either(Box::new(one), Box::new(other)),
    }
}

fn some(order: Order) -> Order {
    then(order.clone(), Any(Box::new(order)))
}

impl Order {
    /// Whether nothing more has to come.
    fn ends(&self) -> bool {
        match self {
            Never | One(_) => false,
            Done | Any(_) => true,
            Then(first, second) => first.ends() && second.ends(),
            Either(one, other) => one.ends() || other.ends(),
        }
    }

    /// What may come behind a unit of this id.
    fn behind(&self, id: u64) -> Order {
        match self {
            Never | Done => Never,
            One(unit) => [Never, Done][usize::from(*unit == id)].clone(),
            Then(first, second) => {
                let rest = then(first.behind(id), *second.clone());
                if first.ends() {
                    either(rest, second.behind(id))
                } else {
                    rest
                }
            }
            Either(one, other) => either(one.behind(id), other.behind(id)),
            Any(order) => then(order.behind(id), self.clone()),
        }
    }
}

/// What a unit of this id holds.
fn production(id: u64) -> Order {
    let keys = || either(One(6), some(One(7)));
    let end = || either(One(11), One(12));
    match id {
        1 => some(then(One(2), either(Done, either(One(4), One(13))))),
        2 => Any(Box::new(One(3))),
        4 => some(either(One(5), either(One(9), One(10)))),
        5 => then(keys(), Any(Box::new(One(8)))),
        9 | 10 => then(end(), end()),
        11 => keys(),
        13 => some(One(14)),
        _ => Done,
    }
}

/// What a unit of this id has had that holds these.
fn had(id: u64, units: &[u64]) -> Had {
    match (id, units) {
        (_, []) => Had::Nothing,
        (1, [.., 2]) => Had::Call,
        (1, _) => Had::Group,
        (5 | 11, [.., 8]) => Had::Fields,
        (5 | 11, [.., 6]) => Had::Temporary,
        (5 | 11, _) => Had::Keys,
        (9 | 10, [_]) => Had::One,
        (9 | 10, _) => Had::Two,
        _ => Had::Units,
    }
}

pub struct Table {
    /// By row and id: the state that follows, or 0. Row 0 stands before the root.
    pub next: [[u64; 15]; 31],
    /// Whether a unit in this state may end.
    pub ends: [bool; 31],
}

/// Goes through all lists of up to four units that begin one of the productions. Two after which a unit is in the same state have to
/// agree on what follows, or the states would not be enough.
fn worked_out() -> Table {
    let mut rows: [Option<([u64; 15], bool)>; 31] = [None; 31];
    rows[0] = Some(([0; 15], false));
    for id in (1..=14).filter(|id| opens(*id)) {
        if let (Some((root, _)), true) = (&mut rows[0], is_root(id)) {
            root[id as usize] = state_number(id, Had::Nothing);
        }
        rows[state_number(id, Had::Skipped) as usize] = Some(([0; 15], true));
        let mut left = vec![(vec![], production(id))];
        while let Some((units, order)) = left.pop() {
            let mut row = [0; 15];
            for nested in 1..=14 {
                let rest = order.behind(nested);
                if !matches!(rest, Never) {
                    let units = [&units[..], &[nested]].concat();
                    row[nested as usize] = state_number(id, had(id, &units));
                    left.extend((units.len() <= 4).then_some((units, rest)));
                }
            }
            let row = (row, order.ends());
            let before = rows[state_number(id, had(id, &units)) as usize].replace(row);
            assert!(before.is_none_or(|before| before == row), "{id} with {units:?}");
        }
    }
    let rows = rows.map(|row| row.expect("each state is met"));
    Table { next: rows.map(|row| row.0), ends: rows.map(|row| row.1) }
}

pub fn table() -> &'static Table {
    static TABLE: OnceLock<Table> = OnceLock::new();
    TABLE.get_or_init(worked_out)
}

/// What a call answers, and the row and the id of the entry that was looked at, if one was.
pub struct Tabled {
    pub reply: Reply,
    pub asked: Option<(u64, u64)>,
}

/// A place whose open units are told by states.
struct Stack {
    /// State, start, end and rank of each, from the root inwards.
    open: Vec<[u64; 4]>,
    last: Unit,
    last_rank: u64,
    position: u64,
    fresh: bool,
}

impl Stack {
    fn of(place: &Place) -> Stack {
        let one = |unit: &Open| [state_number(unit.id, unit.had), unit.start, unit.end, unit.rank];
        let Place { position, last, last_rank, fresh, .. } = *place;
        Stack { open: place.open.iter().map(one).collect(), last, last_rank, position, fresh }
    }

    fn place(&self) -> Place {
        let one = |&[number, start, end, rank]: &[u64; 4]| {
            let (id, had) = state(number);
            Open { id, had, start, end, rank }
        };
        let Stack { position, last, last_rank, fresh, .. } = *self;
        Place { position, open: self.open.iter().map(one).collect(), last, last_rank, fresh }
    }

    /// The unit at the position, judged by the row of what it stands in: `None` before the root.
    fn judged(&self, stream: &[u8], around: Option<[u64; 4]>) -> (Result<Unit, Refusal>, Option<(u64, u64)>) {
        let [row, _, end, _] = around.unwrap_or([0, 0, stream.len() as u64, 0]);
        let asked = Cell::new(None);
        let look = |id| {
            asked.set(Some((row, id)));
            table().next[row as usize][id as usize] != 0
        };
        let around = if around.is_none() { Around::Root(&look) } else { Around::Admits(&look) };
        (unit_at(stream, self.position, end, around), asked.get())
    }

    /// After a unit that was admitted: the row that decided has the state of the unit around it, or of the root itself.
    fn with(mut self, unit: Unit, rank: u64, asked: (u64, u64)) -> Stack {
        let entry = table().next[asked.0 as usize][asked.1 as usize];
        let (mut first, top) = (entry, self.open.last_mut());
        if let Some(top) = top {
            top[0] = entry;
            first = state_number(unit.id, Had::Nothing);
        }
        self.fresh = first != 0;
        self.position = if self.fresh { unit.own } else { unit.end };
        self.open.extend(self.fresh.then_some([first, unit.start, unit.end, rank]));
        Stack { last: unit, last_rank: rank, ..self }
    }
}

fn answered(number: u64, offset: u64, handed: Handed, place: Place) -> Reply {
    Reply { number, offset, handed, part: (0, 0), place }
}

fn step(stream: &[u8], place: &Place, start: bool) -> Tabled {
    let mut stack = Stack::of(place);
    let mut closed = None;
    let refused =
        |number, offset, asked| Tabled { reply: answered(number, offset, Handed::default(), place.clone()), asked };
    while let Some([row, begin, _, rank]) = stack.open.pop_if(|[_, _, end, _]| *end == place.position) {
        if !table().ends[row as usize] {
            return refused(10, begin, None);
        }
        closed = Some(rank);
    }
    let around = stack.open.last().copied();
    if around.is_none() && !start {
        return refused(1, 0, None);
    }
    let inside = place.open.last().is_none_or(|unit| unit.start == place.last.start);
    let rank = match closed {
        Some(rank) => rank + 1,
        None if inside => 0,
        None => place.last_rank + 1,
    };
    let (found, asked) = stack.judged(stream, around);
    match found {
        Err(refusal) => refused(refusal.number, refusal.offset, asked),
        Ok(unit) => {
            let depth = stack.open.len() as u64 + 1;
            let stack = stack.with(unit, rank, asked.expect("an admitted unit was looked up"));
            Tabled { reply: answered(0, 0, Handed { unit, depth, rank }, stack.place()), asked }
        }
    }
}

/// Of the calls only these three.
pub fn call(call: Call, stream: &[u8], place: &Place) -> Tabled {
    let plain = |number, place| Tabled { reply: answered(number, 0, Handed::default(), place), asked: None };
    let idle = place.open.is_empty() || (call == Call::Skip && !(place.fresh && opens(place.last.id)));
    match call {
        Call::First => step(stream, &Place::default(), true),
        Call::Next | Call::Skip if idle => plain(11, place.clone()),
        Call::Next | Call::Skip if place.missed(stream.len() as u64) != 0 => plain(2, place.clone()),
        Call::Next => step(stream, place, false),
        Call::Skip => {
            let mut stack = Stack::of(place);
            (stack.position, stack.fresh) = (stack.last.end, false);
            let innermost = stack.open.last_mut().expect("a unit is open");
            innermost[0] = state_number(state(innermost[0]).0, Had::Skipped);
            plain(0, stack.place())
        }
        _ => unreachable!("no call of the table reader"),
    }
}
