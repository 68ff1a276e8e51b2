//! Many units in a call (document 02, k): NEXT after NEXT, as long as there is room.

use crate::reader::{call, Call, Place};
use crate::rules::Handed;

/// How many numbers a unit has in a list: id, action, start, own end, end, depth, rank.
pub const UNIT: usize = 7;

#[derive(Clone, PartialEq, Debug)]
pub struct Batch {
    pub number: u64,
    pub offset: u64,
    pub units: Vec<Handed>,
    pub place: Place,
}

/// 11 and 2 are asked first, as NEXT asks them, whatever the room is. Then the number is 0 if a unit was handed out or there is no room for
/// one. Else it is that of the NEXT which handed out none, with its offset.
pub fn units(stream: &[u8], place: &Place, room: usize) -> Batch {
    let mut batch = Batch { number: 0, offset: 0, units: vec![], place: place.clone() };
    let first = call(Call::Next, stream, place);
    let asked_before_room = matches!(first.number, 11 | 2);
    let refused = first.number != 0 && (asked_before_room || room > 0);
    if refused {
        (batch.number, batch.offset) = (first.number, first.offset);
        return batch;
    }
    while batch.units.len() < room {
        let reply = call(Call::Next, stream, &batch.place);
        if reply.number != 0 {
            break;
        }
        batch.units.push(reply.handed);
        batch.place = reply.place;
    }
    batch
}
