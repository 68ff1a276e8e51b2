//! Reading a stream by a table of states.
#![forbid(unsafe_code)]

use std::iter::FusedIterator;

use crate::reader::{listed, unit, Stage};
use crate::sys::{self, Call};
use crate::{Refusal, State, Unit};

/// The units of a stream, as [`Reader`](crate::Reader) hands them out, by a reader that looks into a table of states to decide what may
/// come next. It answers the same, and tells the states of the units that are open. docs/STATE-TABLE.md shows the table, and beside it the
/// states of the printed one.
///
/// ```
/// use cdf::State;
///
/// let stream = b"\xCD\xF1\x00\x10\x00\x0D\xCD\xF1\x00\x0A\x00\x0EEva!";
/// let mut reader = cdf::TableReader::new(stream);
/// assert_eq!(reader.states(), []);
/// reader.next();
/// assert_eq!(reader.states(), [State::FileNew]);
/// reader.next();
/// assert_eq!(reader.states(), [State::FileLines]);
/// assert_eq!(State::FileLines.to_string(), "file data group with lines");
/// ```
#[derive(Clone, Debug)]
pub struct TableReader<'a> {
    stream: &'a [u8],
    place: sys::Place,
    stage: Stage,
}

impl<'a> TableReader<'a> {
    /// A reader before the first unit. Nothing is read yet, and any bytes will do.
    pub fn new(stream: &'a [u8]) -> Self {
        TableReader { stream, place: [0; 25], stage: Stage::Fresh }
    }

    /// Passes all that is inside the unit just handed out, as [`Reader::skip_unit`](crate::Reader::skip_unit) does. No row is asked: the unit
    /// is then in the state of its kind that says so.
    pub fn skip_unit(&mut self) -> Result<(), Refusal> {
        self.call(Call::TableSkip).map(|_| ())
    }

    /// The states of the units that are open, from the root inwards: none before the first unit. A unit closes only when the next one is
    /// asked for, so behind the last unit those around it are still there.
    pub fn states(&self) -> Vec<State> {
        const RULED: &str = "a place that the reader returns has states of the table";
        let place = &self.place;
        // The innermost stands first, then the others from the root inwards.
        let slots = match place[1] as usize {
            0 => vec![],
            count => (1..count).chain([0]).collect(),
        };
        slots.into_iter().map(|slot| State::from_number(place[2 + 3 * slot]).expect(RULED)).collect()
    }

    fn call(&mut self, call: Call) -> Result<sys::Answer, Refusal> {
        match sys::read(call, self.stream, &mut self.place) {
            (0, answer) => Ok(answer),
            (number, answer) => Err(Refusal::at(number, answer[0])),
        }
    }
}

impl<'a> Iterator for TableReader<'a> {
    type Item = Result<Unit<'a>, Refusal>;

    fn next(&mut self) -> Option<Self::Item> {
        let call = match self.stage {
            Stage::Fresh => Call::TableFirst,
            Stage::Reading => Call::TableNext,
            Stage::Over => return None,
        };
        self.stage = Stage::Reading;
        let found = self.call(call).map(|answer| unit(self.stream, &listed(&answer)));
        if found.is_err() {
            self.stage = Stage::Over;
        }
        match found {
            Err(Refusal { number: 1, .. }) => None,
            found => Some(found),
        }
    }
}

impl FusedIterator for TableReader<'_> {}
