//! The rules of document 01, first edition, with requests b), c) and g) of 02, in plain Rust: what the plain codes share.

/// A unit as it is handed out. `own` is where its name or its numbers end, or its prefix if it has none of these.
#[derive(Clone, Copy, Debug, PartialEq, Eq)]
pub struct Unit {
    pub id: u8,
    pub action: u8,
    pub start: usize,
    pub own: usize,
    pub end: usize,
}

/// A unit with its depth, 1 for the root, and its rank: how many stand before it directly in the same unit.
#[derive(Clone, Copy, Debug, PartialEq, Eq)]
pub struct Handed {
    pub unit: Unit,
    pub depth: usize,
    pub rank: usize,
}

/// What ends the reading: a refusal's number with its offset, or 1 at the end of the stream.
#[derive(Clone, Copy, Debug, PartialEq, Eq)]
pub struct Stop {
    pub number: u8,
    pub offset: usize,
}

/// What a unit that admits others is, and what it has had: how many units, and the id of the last one (0 before the first).
#[derive(Clone, Copy)]
pub struct Progress {
    id: u8,
    nested: usize,
    last: u8,
}

impl Progress {
    pub fn new(id: u8) -> Progress {
        Progress { id, nested: 0, last: 0 }
    }

    pub fn id(&self) -> u8 {
        self.id
    }

    /// How many units it has had.
    pub fn nested(&self) -> usize {
        self.nested
    }

    pub fn add(&mut self, id: u8) {
        self.nested += 1;
        self.last = id;
    }

    pub fn admits(&self, id: u8) -> bool {
        match self.id {
            1 => id == 2 || (self.last == 2 && matches!(id, 4 | 13)),
            2 => id == 3,
            4 => matches!(id, 5 | 9 | 10),
            // A temporary key is the only one; a template key follows none but its like.
            5 | 11 => match id {
                6 => self.last == 0,
                7 => matches!(self.last, 0 | 7),
                8 => self.id == 5 && self.last != 0,
                _ => false,
            },
            9 | 10 => self.nested < 2 && matches!(id, 11 | 12),
            13 => id == 14,
            _ => false,
        }
    }

    pub fn complete(&self) -> bool {
        match self.id {
            2 => true,
            9 | 10 => self.nested == 2,
            _ => self.nested > 0,
        }
    }
}

pub fn root_kind(id: u8) -> bool {
    matches!(id, 1 | 4 | 13)
}

pub fn opens(id: u8) -> bool {
    matches!(id, 1 | 2 | 4 | 5 | 9 | 10 | 11 | 13)
}

pub fn action_allowed(id: u8, action: u8) -> bool {
    match id {
        5 | 8 => matches!(action, 1..=4),
        9 => matches!(action, 1 | 2 | 4),
        10 => matches!(action, 1 | 3),
        _ => action == 0,
    }
}

/// How a byte of a name is judged: by the ranges of the rule, or by a row that has them worked out for each of the 256.
pub const RANGES: bool = false;
pub const ROW: bool = true;

const fn in_name(byte: u8) -> bool {
    matches!(byte, b'A'..=b'Z' | b'0'..=b'9' | b'_')
}

static IN_NAME: [bool; 256] = {
    let (mut row, mut byte) = ([false; 256], 0);
    while byte < 256 {
        row[byte] = in_name(byte as u8);
        byte += 1;
    }
    row
};

/// The bytes that a name takes at the front of `data`, its count byte included.
#[inline(always)]
fn name<const BY: bool>(data: &[u8]) -> Option<usize> {
    let count = *data.first()? as usize;
    if !(1..=32).contains(&count) {
        return None;
    }
    let text = data.get(1..1 + count)?;
    let allowed = |byte: &u8| if BY == ROW { IN_NAME[*byte as usize] } else { in_name(*byte) };
    if text[0].is_ascii_uppercase() && text.iter().all(allowed) {
        Some(1 + count)
    } else {
        None
    }
}

/// The bytes that the name or the fixed numbers of a unit take, if its own data keeps its rule.
#[inline(always)]
pub fn own_data<const BY: bool>(id: u8, data: &[u8]) -> Option<usize> {
    match id {
        2 | 5 | 11 => name::<BY>(data),
        3 | 8 => name::<BY>(data).filter(|taken| data.len() - taken <= 4096),
        6 | 12 => (data.len() == 4).then_some(4),
        7 | 14 => (data.len() <= 4096).then_some(0),
        9 => (data.len() >= 4).then_some(4),
        10 => (data.len() >= 8).then_some(8),
        _ => Some(0),
    }
}

/// Of own data that breaks its rule: how many bytes stand before the one that 9 names (request b) of 02).
#[cold]
#[inline(never)]
pub fn before_wrong(id: u8, data: &[u8]) -> usize {
    match (id, data) {
        (2 | 3 | 5 | 8 | 11, [count @ 1..=32, text @ ..]) if text.len() >= *count as usize => {
            let name = &text[..*count as usize];
            let wrong = |(at, byte): (usize, &u8)| match byte {
                b'A'..=b'Z' => false,
                b'0'..=b'9' | b'_' => at == 0,
                _ => true,
            };
            // With a right name it is the value that is too long.
            1 + name.iter().enumerate().position(wrong).unwrap_or(name.len() + 4096)
        }
        (7 | 14, _) => 4096,
        _ => 0,
    }
}

pub struct Prefix {
    pub length: usize,
    pub action: u8,
    pub id: u8,
}

/// Rules 3 to 6, on the bytes that are left in the enclosing unit. A root takes them all.
#[inline(always)]
pub fn prefix(rest: &[u8], root: bool) -> Result<Prefix, u8> {
    if rest.len() < 6 {
        return Err(3);
    }
    if rest[0] != 0xCD || rest[1] != 0xF1 {
        return Err(4);
    }
    let length = u16::from_be_bytes([rest[2], rest[3]]) as usize;
    if length < 6 || length > rest.len() || (root && length != rest.len()) {
        return Err(5);
    }
    let (action, id) = (rest[4], rest[5]);
    if !(1..=14).contains(&id) {
        return Err(6);
    }
    Ok(Prefix { length, action, id })
}

/// The rules of a root. Its kinds have no own data, so 9 cannot be broken.
pub fn root(stream: &[u8]) -> Result<Unit, Stop> {
    let stop = |number| Stop { number, offset: 0 };
    let Prefix { length, action, id } = prefix(stream, true).map_err(stop)?;
    if !root_kind(id) {
        return Err(stop(7));
    }
    if !action_allowed(id, action) {
        return Err(stop(8));
    }
    Ok(Unit { id, action, start: 0, own: 6, end: length })
}
