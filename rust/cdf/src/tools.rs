//! The check, and the tools above it.
#![forbid(unsafe_code)]

use crate::builder::named;
use crate::sys;
use crate::{Id, Refusal};

/// The version of the archive's numbers, `CDF_VERSION`: a reader's or builder's place does not outlive it.
///
/// ```
/// assert_eq!(cdf::version(), 2);
/// ```
pub fn version() -> u64 {
    sys::version()
}

/// Whether the bytes are a stream: how many units it has, or the first rule that is broken.
///
/// ```
/// let stream = b"\xCD\xF1\x00\x10\x00\x0D\xCD\xF1\x00\x0A\x00\x0EEva!";
/// assert_eq!(cdf::check(stream), Ok(2));
/// assert_eq!(cdf::check(&stream[..15]).unwrap_err().number, 5);
/// ```
pub fn check(stream: &[u8]) -> Result<usize, Refusal> {
    match sys::check(stream) {
        (0, units) => Ok(units as usize),
        (number, offset) => Err(Refusal::at(number, offset)),
    }
}

/// A unit that is open where a stream is refused.
#[derive(Clone, Copy, Debug, PartialEq, Eq)]
pub struct OpenUnit {
    /// What it is.
    pub id: Id,
    /// Where it begins.
    pub start: usize,
}

/// Why a stream is refused.
#[derive(Clone, Debug, PartialEq, Eq)]
pub struct Explanation {
    /// The check's answer.
    pub refusal: Refusal,
    /// The units that are open where the refused unit stands, the root first. With number 10 the last of them is the one that lacks something.
    pub open: Vec<OpenUnit>,
    /// What the innermost of them admits there; where none is open, what a stream can be. With 9 the refused unit is of a right kind, and
    /// this speaks of where it begins, not of the byte that the offset names.
    pub admitted: Vec<Id>,
}

/// Why the check refuses a stream; `None` if it accepts it.
///
/// ```
/// // A file data group without a line.
/// let why = cdf::explain(b"\xCD\xF1\x00\x06\x00\x0D").expect("it is refused");
/// assert_eq!(why.refusal.number, 10);
/// assert_eq!(why.open, [cdf::OpenUnit { id: cdf::Id::FileGroup, start: 0 }]);
/// assert_eq!(why.admitted, [cdf::Id::Line]);
/// ```
pub fn explain(stream: &[u8]) -> Option<Explanation> {
    let (number, answer) = sys::explain(stream);
    if number == 0 {
        return None;
    }
    let units = answer[2..10].chunks_exact(2).take(answer[1] as usize);
    Some(Explanation {
        refusal: Refusal::at(number, answer[0]),
        open: units.filter_map(|pair| Some(OpenUnit { id: Id::from_number(pair[0])?, start: pair[1] as usize })).collect(),
        admitted: answer[11..25].iter().take(answer[10] as usize).filter_map(|&id| Id::from_number(id)).collect(),
    })
}

/// The first key of a template.
#[derive(Clone, Copy, Debug, PartialEq, Eq)]
pub enum Key<'k> {
    /// A temporary key: its number.
    Temporary(u32),
    /// A template key: its text.
    Template(&'k [u8]),
}

/// Which of two streams.
#[derive(Clone, Copy, Debug, PartialEq, Eq)]
pub enum Which {
    /// The first.
    First,
    /// The second.
    Second,
}

/// A value that was looked up.
#[derive(Clone, Copy, Debug, PartialEq, Eq)]
pub struct Found<'a> {
    /// The stream that it stands in.
    pub which: Which,
    /// Where in that stream it begins.
    pub start: usize,
    /// The value: a part of that stream.
    pub value: &'a [u8],
}

/// The value of a field in the first of two streams that has it: of the first template of this name with this first key, in each. Refused
/// with the number of [`check`] for the first or the second stream, with 7 if a root is no E/R data group, with 15 if neither has it.
///
/// ```
/// use cdf::{Action, Builder, Key, Root, Which};
///
/// let (mut one, mut two) = ([0; 200], [0; 200]);
/// let mut first = Builder::new(&mut one, Root::ErGroup)?;
/// first.template(Action::Create, "PERSON")?.temporary_key(1)?;
/// let mut second = Builder::new(&mut two, Root::ErGroup)?;
/// second.template(Action::Create, "PERSON")?.temporary_key(1)?.field(Action::Create, "SURNAME", b"Lind")?;
/// let found = cdf::lookup(first.finish()?, second.finish()?, "PERSON", Key::Temporary(1), "SURNAME")?;
/// assert_eq!((found.which, found.value), (Which::Second, &b"Lind"[..]));
/// # Ok::<(), cdf::Refusal>(())
/// ```
pub fn lookup<'a>(first: &'a [u8], second: &'a [u8], template: &str, key: Key<'_>, field: &str) -> Result<Found<'a>, Refusal> {
    let number;
    let (id, key) = match key {
        Key::Temporary(value) => {
            number = value.to_be_bytes();
            (Id::TemporaryKey, &number[..])
        }
        Key::Template(text) => (Id::TemplateKey, text),
    };
    match sys::lookup(first, second, &named(template, b""), id.number(), key, &named(field, b"")) {
        (0, [_, which, start, length]) => {
            let (which, stream) = if which == 1 { (Which::First, first) } else { (Which::Second, second) };
            let start = start as usize;
            Ok(Found { which, start, value: &stream[start..start + length as usize] })
        }
        // 7 speaks of a root, and not of a byte, where both streams are accepted.
        (7, _) if check(first).is_ok() && check(second).is_ok() => Err(Refusal::nowhere(7)),
        (number, answer) => Err(Refusal::at(number, answer[0])),
    }
}

/// The listing of a stream: a line for each unit with its offset, depth, id, action and length, and last `ok N`; of bytes that are no
/// stream one line, `refused NUMBER at OFFSET`.
///
/// ```
/// let stream = b"\xCD\xF1\x00\x10\x00\x0D\xCD\xF1\x00\x0A\x00\x0EEva!";
/// assert_eq!(cdf::listing(stream), "0 1 13 0 16\n6 2 14 0 10\nok 2\n");
/// ```
pub fn listing(stream: &[u8]) -> String {
    // No text is longer: a stream has at most 65,535 bytes, and what is longer is refused in one line.
    let mut text = vec![0; sys::LISTING_ROOM];
    let (_, length) = sys::listing(stream, &mut text);
    text.truncate(length as usize);
    text.into_iter().map(char::from).collect()
}
