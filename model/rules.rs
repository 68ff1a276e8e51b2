//! The rules of one unit (document 01, One unit; document 02, b and c): ids, actions, own data, and what may be nested in
//! what.

pub const MARK: [u8; 2] = [0xCD, 0xF1];
pub const PREFIX: usize = 6;
/// The most bytes that a stream, a value and a name may have.
pub const LIMIT: u64 = 65_535;
pub const VALUE_LIMIT: usize = 4_096;
pub const NAME_LIMIT: usize = 32;

#[derive(Clone, Copy, PartialEq)]
pub enum Part {
    Name,
    Number,
    Value,
}
use Part::{Name, Number, Value};

/// A row of the table of units.
pub struct Kind {
    pub actions: &'static [u64],
    pub own: &'static [Part],
    pub admits: &'static [u64],
}

const fn kind_of(actions: &'static [u64], own: &'static [Part], admits: &'static [u64]) -> Kind {
    Kind { actions, own, admits }
}

/// The kinds of the ids 1 to 14.
const KINDS: [Kind; 14] = [
    kind_of(&[0], &[], &[2, 4, 13]),
    kind_of(&[0], &[Name], &[3]),
    kind_of(&[0], &[Name, Value], &[]),
    kind_of(&[0], &[], &[5, 9, 10]),
    kind_of(&[1, 2, 3, 4], &[Name], &[6, 7, 8]),
    kind_of(&[0], &[Number], &[]),
    kind_of(&[0], &[Value], &[]),
    kind_of(&[1, 2, 3, 4], &[Name, Value], &[]),
    kind_of(&[1, 2, 4], &[Number], &[11, 12]),
    kind_of(&[1, 3], &[Number, Number], &[11, 12]),
    kind_of(&[0], &[Name], &[6, 7]),
    kind_of(&[0], &[Number], &[]),
    kind_of(&[0], &[], &[14]),
    kind_of(&[0], &[Value], &[]),
];

pub fn kind(id: u64) -> Option<&'static Kind> {
    let row = usize::try_from(id).ok()?.checked_sub(1)?;
    KINDS.get(row)
}

/// Whether units of this id admit others.
pub fn opens(id: u64) -> bool {
    kind(id).is_some_and(|kind| !kind.admits.is_empty())
}

pub fn is_root(id: u64) -> bool {
    matches!(id, 1 | 4 | 13)
}

pub fn is_group(id: u64) -> bool {
    matches!(id, 4 | 13)
}

/// Whether units of this id admit some of the other, whatever they have had.
pub fn admits_kind(id: u64, nested: u64) -> bool {
    kind(id).is_some_and(|kind| kind.admits.contains(&nested))
}

/// What an open unit has had.
#[derive(Clone, Copy, PartialEq, Debug)]
pub enum Had {
    Nothing,
    /// Of an EDMM stream: what came last.
    Call,
    Group,
    /// Of a call or a group: one or more of what it admits.
    Units,
    /// Of a template or an entity key: a temporary key, the only one then; one or more template keys.
    Temporary,
    Keys,
    /// Of a template: fields, after keys of either kind.
    Fields,
    /// Of a relation: the source; source and target.
    One,
    Two,
    Skipped,
}

/// What a unit of this id may have had.
pub fn possible(id: u64) -> &'static [Had] {
    match id {
        1 => &[Had::Nothing, Had::Call, Had::Group, Had::Skipped],
        2 | 4 | 13 => &[Had::Nothing, Had::Units, Had::Skipped],
        5 => &[Had::Nothing, Had::Temporary, Had::Keys, Had::Fields, Had::Skipped],
        9 | 10 => &[Had::Nothing, Had::One, Had::Two, Had::Skipped],
        11 => &[Had::Nothing, Had::Temporary, Had::Keys, Had::Skipped],
        _ => &[],
    }
}

/// What a unit has had after one more, if it admits that one.
pub fn after(id: u64, had: Had, nested: u64) -> Option<Had> {
    use Had::*;
    match (id, had, nested) {
        (1, Nothing | Call | Group, 2) => Some(Call),
        (1, Call, 4 | 13) => Some(Group),
        (2, Nothing | Units, 3) => Some(Units),
        (4, Nothing | Units, 5 | 9 | 10) => Some(Units),
        (5 | 11, Nothing, 6) => Some(Temporary),
        (5 | 11, Nothing | Keys, 7) => Some(Keys),
        (5, Temporary | Keys | Fields, 8) => Some(Fields),
        (9 | 10, Nothing, 11 | 12) => Some(One),
        (9 | 10, One, 11 | 12) => Some(Two),
        (13, Nothing | Units, 14) => Some(Units),
        _ => None,
    }
}

pub fn complete(id: u64, had: Had) -> bool {
    match id {
        2 => true,
        9 | 10 => matches!(had, Had::Two | Had::Skipped),
        _ => had != Had::Nothing,
    }
}

/// The length of the name at the front of the bytes, its count included; or how many bytes stand before the first that
/// breaks the rule: none if it is the count, or if there is no count.
fn name_length(bytes: &[u8]) -> Result<usize, usize> {
    let (&count, rest) = bytes.split_first().ok_or(0_usize)?;
    let count = usize::from(count);
    if count == 0 || count > NAME_LIMIT {
        return Err(0);
    }
    let text = rest.get(..count).ok_or(0_usize)?;
    let allowed = |at: usize| match text[at] {
        b'A'..=b'Z' => true,
        b'0'..=b'9' | b'_' => at > 0,
        _ => false,
    };
    match (0..count).find(|at| !allowed(*at)) {
        None => Ok(1 + count),
        Some(at) => Err(1 + at),
    }
}

/// For the bytes of a unit after its prefix: the length of its name or fixed numbers. If its own data breaks the rule, and
/// this is also where a unit that admits nothing is not filled: how many bytes stand before the one to blame.
pub fn own_length(kind: &Kind, bytes: &[u8]) -> Result<usize, usize> {
    let mut length = 0;
    for part in kind.own {
        match part {
            Name => length += name_length(&bytes[length..]).map_err(|before| length + before)?,
            // The first byte is named, also where only a second number is cut short.
            Number => length += bytes[length..].get(..4).ok_or(0_usize)?.len(),
            Value if bytes.len() - length > VALUE_LIMIT => return Err(length + VALUE_LIMIT),
            Value => return Ok(length),
        }
    }
    match kind.admits.is_empty() && length < bytes.len() {
        true => Err(0),
        false => Ok(length),
    }
}

#[derive(Clone, Copy, Default, PartialEq, Debug)]
pub struct Unit {
    pub id: u64,
    pub action: u64,
    pub start: u64,
    /// The end of the name or of the fixed numbers or, without either, of the prefix.
    pub own: u64,
    pub end: u64,
}

/// A unit as it is handed out (document 02, g): with its depth, 1 for the root, and its rank, 0 for the first of its siblings.
/// Zeros where none is.
#[derive(Clone, Copy, Default, PartialEq, Debug)]
pub struct Handed {
    pub unit: Unit,
    pub depth: u64,
    pub rank: u64,
}

/// The offset is where the unit stands or would stand. With 9 it is that of the byte to blame, with 10 where the incomplete
/// unit begins.
#[derive(Clone, Copy, PartialEq, Debug)]
pub struct Refusal {
    pub number: u64,
    pub offset: u64,
}

/// What surrounds a unit that is judged, and which ids it admits now: nothing, or a unit.
pub enum Around<'a> {
    Root(&'a dyn Fn(u64) -> bool),
    Admits(&'a dyn Fn(u64) -> bool),
}

/// The unit at an offset, on the bytes up to the end of what surrounds it; or the first of the rules 3 to 9 it breaks.
pub fn unit_at(stream: &[u8], start: u64, end: u64, around: Around) -> Result<Unit, Refusal> {
    let bytes = &stream[start as usize..end as usize];
    let refused = |number| Err(Refusal { number, offset: start });
    if bytes.len() < PREFIX {
        return refused(3);
    }
    if bytes[..2] != MARK {
        return refused(4);
    }
    let length = usize::from(bytes[2]) * 256 + usize::from(bytes[3]);
    let fits = match around {
        Around::Root(_) => length == bytes.len(),
        Around::Admits(_) => length <= bytes.len(),
    };
    if length < PREFIX || !fits {
        return refused(5);
    }
    let (action, id) = (u64::from(bytes[4]), u64::from(bytes[5]));
    let Some(kind) = kind(id) else {
        return refused(6);
    };
    let (Around::Root(admits) | Around::Admits(admits)) = around;
    if !admits(id) {
        return refused(7);
    }
    if !kind.actions.contains(&action) {
        return refused(8);
    }
    match own_length(kind, &bytes[PREFIX..length]) {
        Ok(own) => Ok(Unit { id, action, start, own: start + (PREFIX + own) as u64, end: start + length as u64 }),
        Err(before) => Err(Refusal { number: 9, offset: start + (PREFIX + before) as u64 }),
    }
}
