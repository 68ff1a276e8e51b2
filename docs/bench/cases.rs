//! The streams that are timed, with what the codes are given beside them.

use crate::archive::Question;
use crate::rules::{opens, Unit};

/// What a NEXT of the builder is asked to write; the data stand in the stream from `data` to `end`.
pub struct Request {
    pub id: u8,
    pub action: u8,
    data: usize,
    end: usize,
}

/// Where the value of a field stands that is looked up in two streams, in the order of `Case::asked`. The names go behind that of the
/// code; the first is the code's own row.
pub const LOOKUPS: [&str; 4] = ["", ", early in the first", ", in the middle of the first", ", in neither"];

/// A stream that has the value of a field, and the units of that value: its template, the template's first key and the field.
pub struct Holder {
    pub stream: Vec<u8>,
    pub units: [Unit; 3],
}

impl Holder {
    #[inline(always)]
    pub fn question(&self) -> Question<'_> {
        question(&self.stream, &self.units)
    }
}

/// What asks for the value of a field, by the units of a stream that `Holder` says.
#[inline(always)]
pub fn question<'a>(stream: &'a [u8], [template, key, field]: &[Unit; 3]) -> Question<'a> {
    Question {
        template: &stream[template.start + 6..template.own],
        key_id: key.id as u64,
        key: &stream[key.start + 6..key.end],
        field: &stream[field.start + 6..field.own],
    }
}

/// Copies of a stream with one value more, which is looked up: last, in its last template; early, behind its first field; and in the middle.
pub struct Asked {
    pub last: Holder,
    pub early: Holder,
    pub middle: Holder,
}

impl Asked {
    /// The two streams of a lookup, with its question, for the stream that these are copies of.
    #[inline(always)]
    pub fn lookup<'a, const AT: usize>(&'a self, stream: &'a [u8]) -> ([&'a [u8]; 2], Question<'a>) {
        let of = |first, second, holder: &'a Holder| ([first, second], holder.question());
        match AT {
            0 => of(stream, &self.last.stream, &self.last),
            1 => of(&self.early.stream, stream, &self.early),
            2 => of(&self.middle.stream, stream, &self.middle),
            _ => of(stream, stream, &self.last),
        }
    }
}

/// A stream, a refused copy, the codes that replay the stream to its end, the requests that build it, and of an E/R group
/// to be timed what its lookups are asked and a copy with bytes lost.
pub struct Case {
    pub stream: Vec<u8>,
    pub refused: Vec<u8>,
    pub calls: Vec<u8>,
    pub requests: Vec<Request>,
    pub asked: Option<Asked>,
    pub lost: Option<Vec<u8>>,
}

impl Case {
    pub fn new(stream: Vec<u8>, units: &[Unit]) -> Case {
        let mut calls = vec![2; units.len() + 1];
        calls[0] = 1;
        // No unit admits a nested EDMM stream: the fault is the last unit's, so all the others are read.
        let mut refused = stream.clone();
        if let Some(last) = units.last() {
            refused[last.start + 5] = 1;
        }
        let requests = units.iter().map(|unit| Request {
            id: unit.id,
            action: unit.action,
            data: unit.start + 6,
            end: if opens(unit.id) { unit.own } else { unit.end },
        });
        Case { refused, calls, requests: requests.collect(), stream, asked: None, lost: None }
    }

    #[inline(always)]
    pub fn data(&self, request: &Request) -> &[u8] {
        &self.stream[request.data..request.end]
    }
}
