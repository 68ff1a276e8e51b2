//! Why a stream is refused (document 02, a), from the bytes and their unit list.

use crate::check::follows;
use crate::rules::{is_root, Refusal, Unit};
use crate::units::{had, list, position};

/// Nothing but zeros for an accepted stream.
#[derive(Default, PartialEq, Debug)]
pub struct Explanation {
    pub number: u64,
    pub offset: u64,
    /// Where the refused unit stands or would stand; with 10, where the incomplete one does. It is not told.
    pub at: u64,
    /// The open units, from the root inwards.
    pub open: Vec<Unit>,
    /// The ids that the innermost of them has had, which are not told, and those that it admits, rising.
    pub had: Vec<u64>,
    pub ids: Vec<u64>,
}

pub fn explain(stream: &[u8]) -> Explanation {
    let listed = list(stream);
    let units = &listed.units;
    let Some(Refusal { number, offset }) = listed.fault else {
        return Explanation::default();
    };
    // Open are the listed units that hold the byte at which the refused unit stands. Those that end there are complete and
    // do not hold it. With 10 it is the first byte of the incomplete unit: that unit and all around it hold it, wherever
    // they end, and none inside does.
    let at = if number == 10 { offset } else { position(units) };
    let holds = |index: &usize| units[*index].start <= at && at < units[*index].end;
    let open: Vec<usize> = (0..units.len()).filter(holds).collect();
    let (had, ids) = match open.last() {
        None => (vec![], (1..=14).filter(|id| is_root(*id)).collect()),
        Some(&innermost) => {
            let had = had(units, innermost);
            let ids = (1..=14).filter(|id| follows(units[innermost].id, &had, *id)).collect();
            (had, ids)
        }
    };
    Explanation { number, offset, at, open: open.iter().map(|index| units[*index]).collect(), had, ids }
}
