//! A list of units that is built at one go.
#![forbid(unsafe_code)]

use std::error::Error;
use std::fmt;
use std::ops::Range;

use crate::sys;
use crate::{Action, Id, Refusal};

/// A unit of a list that [`Builder::batch`](crate::Builder::batch) builds: its id, its action, and which part of the text beside the list is
/// its own data.
#[derive(Clone, Copy, Debug, PartialEq, Eq, Hash)]
#[repr(transparent)]
pub struct Request(pub(crate) sys::Request);

impl Request {
    /// The own data is `text[own]`, as it is to stand in the stream: a name with its count byte first, numbers with the high byte first. A
    /// unit without own data has an empty range, anywhere in the text.
    pub fn new(id: Id, action: Action, own: Range<usize>) -> Self {
        let [begin, end] = [own.start, own.end].map(|at| at as u64);
        Request(sys::Request { id: id.number(), action: action.number(), begin, end })
    }
}

/// Why a list of requests was refused: none of its units was built.
#[derive(Clone, Copy, Debug, PartialEq, Eq, Hash)]
pub struct BatchRefusal {
    /// The number, as [`Builder::add`](crate::Builder::add) gives it; 9 also for a range that is not one of the text, and 21 for a list of
    /// more than 512 requests.
    pub refusal: Refusal,
    /// Which request of the list it speaks of, from 0 on: the first that is refused. 21 speaks of the whole list.
    pub rank: Option<usize>,
}

impl BatchRefusal {
    pub(crate) fn at(number: u64, rank: u64) -> Self {
        // 2 and 21 are of no request.
        let rank = (!matches!(number, 2 | 21)).then_some(rank as usize);
        BatchRefusal { refusal: Refusal::nowhere(number), rank }
    }
}

impl fmt::Display for BatchRefusal {
    fn fmt(&self, f: &mut fmt::Formatter<'_>) -> fmt::Result {
        match self.rank {
            Some(rank) => write!(f, "request {rank}, {}", self.refusal),
            None => self.refusal.fmt(f),
        }
    }
}

impl Error for BatchRefusal {}

impl From<BatchRefusal> for Refusal {
    fn from(refused: BatchRefusal) -> Refusal {
        refused.refusal
    }
}
