//! A whole person in one request (document 02, j): a list of requests, all of which are built or none.

use crate::builder::{next, Place, Request};

/// A request whose own data stand in the text that goes with the list, from `begin` to before `end`.
#[derive(Clone, Copy, PartialEq, Debug)]
#[repr(C)]
pub struct Listed {
    pub id: u64,
    pub action: u64,
    pub begin: u64,
    pub end: u64,
}

/// The number, and which request it is of.
#[derive(Clone, Copy, PartialEq, Debug)]
pub struct RefusedList {
    pub number: u64,
    pub rank: u64,
}

/// The most requests of a list.
pub const MOST: usize = 512;

impl Listed {
    /// None if its bounds lie outside the text or cross.
    pub fn data<'t>(&self, text: &'t [u8]) -> Option<&'t [u8]> {
        let inside = self.begin <= self.end && self.end <= text.len() as u64;
        inside.then(|| &text[self.begin as usize..self.end as usize])
    }

    /// With this own data.
    pub fn with(&self, data: &[u8]) -> Request {
        Request { id: self.id, action: self.action, data: data.to_vec() }
    }
}

/// Longer than any value, and without a letter: no unit has such own data, so that 9 is due unless a rule before it is broken.
const NEVER_RIGHT: [u8; 5_000] = [0; 5_000];

pub fn build(buffer: &mut [u8], place: &Place, list: &[Listed], text: &[u8]) -> Result<Place, RefusedList> {
    if place.missed(buffer.len() as u64) != 0 {
        return Err(RefusedList { number: 2, rank: 0 });
    }
    if list.len() > MOST {
        return Err(RefusedList { number: 21, rank: 0 });
    }
    // Single calls on a copy, which counts once all of them are done.
    let (mut copy, mut at) = (buffer.to_vec(), place.clone());
    for (listed, rank) in list.iter().zip(0..) {
        let asked = listed.with(listed.data(text).unwrap_or(&NEVER_RIGHT));
        at = next(&mut copy, &at, &asked).map_err(|number| RefusedList { number, rank })?;
    }
    buffer.copy_from_slice(&copy);
    Ok(at)
}
