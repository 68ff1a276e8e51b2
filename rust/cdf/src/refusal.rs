//! Why a call was refused.
#![forbid(unsafe_code)]

use std::error::Error;
use std::fmt;

/// A call's number other than 0, and where in the stream it speaks of.
///
/// ```
/// let refusal = cdf::check(b"no stream").unwrap_err();
/// assert_eq!((refusal.number, refusal.offset), (4, Some(0)));
/// assert_eq!(refusal.to_string(), "number 4 at byte 0: a unit does not begin with its mark, CD F1");
/// ```
#[derive(Clone, Copy, Debug, PartialEq, Eq, Hash)]
pub struct Refusal {
    /// Which rule is broken first, 2 to 21. Section 4 of docs/FORMAT.md has them all.
    pub number: u64,
    /// Of check and reader, with 3 to 8 where the unit begins that breaks the rule, with 9 the first byte in it that does, with 10 where
    /// the unit begins that lacks something; with 19 where the template begins, and with 20 the entity key. The numbers of builder and
    /// rescue have none.
    pub offset: Option<usize>,
}

impl Refusal {
    pub(crate) fn at(number: u64, offset: u64) -> Self {
        // The rules of a unit, and of a resolving those that name a unit, speak of a byte.
        let offset = matches!(number, 3..=10 | 19 | 20).then_some(offset as usize);
        Refusal { number, offset }
    }

    pub(crate) fn nowhere(number: u64) -> Self {
        Refusal { number, offset: None }
    }

    /// The rule that is broken, in words.
    pub fn rule(&self) -> &'static str {
        match self.number {
            2 => "the place does not go with these bytes",
            3 => "fewer bytes are left than the six that a unit begins with",
            4 => "a unit does not begin with its mark, CD F1",
            5 => "a length is too small, or reaches past what is around it; of the whole stream, it is not its length",
            6 => "no unit has this id",
            7 => "this unit may not stand here",
            8 => "this unit may not have this action",
            9 => "a name, a value or a number inside the unit is not of the right form",
            10 => "a unit ends without what it must have",
            11 => "nothing is there to pass, to take, to hand out again or to go on from",
            12 => "there is too little room",
            13 => "the stream would be longer than 65,535 bytes",
            14 => "what was to be added is no group that the check accepts",
            15 => "neither stream has the field that is looked up",
            16 => "no whole template or relation was found",
            17 => "the bytes are damaged in more than 64 places",
            18 => "more than 256 templates have temporary keys",
            19 => "a template has the name and the temporary key of an earlier one",
            20 => "no earlier template has the name and the temporary key of an entity key",
            21 => "the list has more than 512 requests",
            _ => "a number that this version does not know",
        }
    }
}

impl fmt::Display for Refusal {
    fn fmt(&self, f: &mut fmt::Formatter<'_>) -> fmt::Result {
        match self.offset {
            Some(offset) => write!(f, "number {} at byte {}: {}", self.number, offset, self.rule()),
            None => write!(f, "number {}: {}", self.number, self.rule()),
        }
    }
}

impl Error for Refusal {}
