//! Reading a stream, unit by unit.
#![forbid(unsafe_code)]

use std::iter::FusedIterator;

use crate::sys::{self, Call};
use crate::{Action, Id, Refusal, Unit};

/// The units of a stream, each before those nested in it, in the order of their starts.
///
/// Each unit tells how deep it lies and how many siblings stand before it, whatever was skipped or taken before.
///
/// Of any bytes it hands out the units before the first broken rule, then the refusal, then nothing more. Of a stream that
/// [`check`](crate::check) accepts it hands out all units and no refusal.
///
/// ```
/// let stream = b"\xCD\xF1\x00\x10\x00\x0D\xCD\xF1\x00\x0A\x00\x0EEva!";
/// let mut lines = 0;
/// for unit in cdf::Reader::new(stream) {
///     let unit = unit?;
///     if unit.id() == cdf::Id::Line {
///         assert_eq!(unit.value(), Some(&b"Eva!"[..]));
///         lines += 1;
///     }
/// }
/// assert_eq!(lines, 1);
/// # Ok::<(), cdf::Refusal>(())
/// ```
#[derive(Clone, Debug)]
pub struct Reader<'a> {
    stream: &'a [u8],
    stage: Stage,
    /// Where `ahead` begins, and where it ends.
    before: sys::Place,
    place: sys::Place,
    /// Units that the archive has handed out together, and how many of them this reader has handed out.
    ahead: Vec<sys::ListedUnit>,
    handed: usize,
    /// For how many units the next call asks.
    room: usize,
}

#[derive(Clone, Copy, Debug, PartialEq)]
pub(crate) enum Stage {
    Fresh,
    Reading,
    Over,
}

/// For how many units the first call asks, and for how many any does at most. It doubles from call to call, and begins with one again
/// behind a SKIP or GET_STREAM: where these are called often, little is read ahead.
const BEGIN: usize = 8;
const MOST: usize = 32;

impl<'a> Reader<'a> {
    /// A reader before the first unit. Nothing is read yet, and any bytes will do.
    pub fn new(stream: &'a [u8]) -> Self {
        Reader { stream, stage: Stage::Fresh, before: [0; 25], place: [0; 25], ahead: Vec::new(), handed: 0, room: BEGIN }
    }

    /// Passes all that is inside the unit just handed out, whatever it is: no answer depends on a byte of it. Refused with 11 where there is
    /// nothing to pass: before the first unit, after a unit that admits no others, or a second time.
    ///
    /// ```
    /// let stream = b"\xCD\xF1\x00\x10\x00\x0D\xCD\xF1\x00\x0A\x00\x0EEva!";
    /// let mut reader = cdf::Reader::new(stream);
    /// reader.next();
    /// reader.skip_unit()?;
    /// assert!(reader.next().is_none());
    /// # Ok::<(), cdf::Refusal>(())
    /// ```
    pub fn skip_unit(&mut self) -> Result<(), Refusal> {
        match self.at_last(Call::Skip) {
            (0, _) => Ok(()),
            (number, answer) => Err(Refusal::at(number, answer[0])),
        }
    }

    /// The bytes of the group just handed out, as a part of the stream, and passes it. In an accepted stream they are a stream of their
    /// own. Refused with 11 where the unit just handed out is no group.
    ///
    /// ```
    /// let stream = b"\xCD\xF1\x00\x10\x00\x0D\xCD\xF1\x00\x0A\x00\x0EEva!";
    /// let mut reader = cdf::Reader::new(stream);
    /// reader.next();
    /// assert_eq!(cdf::check(reader.take_group()?)?, 2);
    /// # Ok::<(), cdf::Refusal>(())
    /// ```
    pub fn take_group(&mut self) -> Result<&'a [u8], Refusal> {
        match self.at_last(Call::GetStream) {
            (0, answer) => {
                let start = answer[6] as usize;
                Ok(&self.stream[start..start + answer[7] as usize])
            }
            (number, answer) => Err(Refusal::at(number, answer[0])),
        }
    }

    /// The unit handed out last, again. Refused with 11 before the first unit.
    pub fn previous(&mut self) -> Result<Unit<'a>, Refusal> {
        if let Some(last) = self.handed.checked_sub(1) {
            return Ok(unit(self.stream, &self.ahead[last]));
        }
        match sys::read(Call::Previous, self.stream, &mut self.place) {
            (0, answer) => Ok(unit(self.stream, &listed(&answer))),
            (number, answer) => Err(Refusal::at(number, answer[0])),
        }
    }

    /// A call at the place of the unit that this reader handed out last. Where the archive is ahead of it, that place is read anew.
    fn at_last(&mut self, call: Call) -> (u64, sys::Answer) {
        if self.handed < self.ahead.len() {
            self.ahead.truncate(self.handed);
            self.place = self.before;
            sys::units(self.stream, &mut self.place, &mut self.ahead);
        }
        self.room = 1;
        sys::read(call, self.stream, &mut self.place)
    }

    /// The root. It is no part of what is read ahead.
    fn first(&mut self) -> Option<<Self as Iterator>::Item> {
        self.stage = Stage::Reading;
        match sys::read(Call::First, self.stream, &mut self.place) {
            (0, answer) => Some(Ok(unit(self.stream, &listed(&answer)))),
            (number, answer) => self.over(number, answer[0]),
        }
    }

    /// The next units. What ends them is told by a call that hands out none.
    fn read_ahead(&mut self) -> Option<<Self as Iterator>::Item> {
        self.before = self.place;
        self.ahead.reserve_exact(MOST.saturating_sub(self.ahead.len()));
        self.ahead.resize(self.room, [0; 7]);
        let (number, [offset, count]) = sys::units(self.stream, &mut self.place, &mut self.ahead);
        if number != 0 {
            // The place is still that of the last unit.
            self.ahead.clear();
            self.handed = 0;
            return self.over(number, offset);
        }
        self.ahead.truncate(count as usize);
        self.handed = 1;
        self.room = (2 * self.room).min(MOST);
        self.ahead.first().map(|first| Ok(unit(self.stream, first)))
    }

    /// Nothing comes after this.
    fn over(&mut self, number: u64, offset: u64) -> Option<<Self as Iterator>::Item> {
        self.stage = Stage::Over;
        (number != 1).then(|| Err(Refusal::at(number, offset)))
    }
}

/// The unit of an answer, as it stands in a list.
pub(crate) fn listed(&[_, id, action, start, own_end, end, _, _, depth, rank]: &sys::Answer) -> sys::ListedUnit {
    [id, action, start, own_end, end, depth, rank]
}

#[inline]
pub(crate) fn unit<'a>(stream: &'a [u8], &[id, action, start, own_end, end, depth, rank]: &sys::ListedUnit) -> Unit<'a> {
    const RULED: &str = "a unit that the reader hands out has an id and an action that the rules know";
    Unit {
        stream,
        id: Id::from_number(id).expect(RULED),
        action: Action::from_number(action).expect(RULED),
        start: start as usize,
        own_end: own_end as usize,
        end: end as usize,
        depth: depth as usize,
        rank: rank as usize,
    }
}

impl<'a> Iterator for Reader<'a> {
    type Item = Result<Unit<'a>, Refusal>;

    #[inline]
    fn next(&mut self) -> Option<Self::Item> {
        if let Some(next) = self.ahead.get(self.handed) {
            self.handed += 1;
            return Some(Ok(unit(self.stream, next)));
        }
        match self.stage {
            Stage::Fresh => self.first(),
            Stage::Reading => self.read_ahead(),
            Stage::Over => None,
        }
    }
}

impl FusedIterator for Reader<'_> {}
