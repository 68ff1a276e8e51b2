//! What is whole in a broken E/R group.
#![forbid(unsafe_code)]

use std::ops::Range;

use crate::sys;
use crate::Refusal;

/// What was kept of a broken group, and what was dropped.
#[derive(Clone, Debug, PartialEq, Eq)]
pub struct Rescued<'b> {
    /// An E/R data group that the check accepts: what was kept, in order.
    pub group: &'b [u8],
    /// The bytes of the broken group that were dropped, from its sixth on: at most 64 runs, rising, and no two touch.
    pub dropped: Vec<Range<usize>>,
}

/// Keeps of a broken E/R data group the templates, relations and ordered relations that stand whole behind its first six bytes, which are
/// not looked at, and writes the group of them to the front of `out`: 65,535 bytes are always enough. An accepted E/R group comes out
/// unchanged. Refused, in this order, with 3 if there are fewer than six bytes, with 16 if nothing can be kept, with 17 if more than 64
/// runs of bytes would be dropped, with 13 if the group would be too long, with 12 if `out` is too short; nothing is then written to it.
///
/// ```
/// use cdf::{Action, Builder, Root};
///
/// let (mut buffer, mut out) = ([0; 200], [0; 200]);
/// let mut builder = Builder::new(&mut buffer, Root::ErGroup)?;
/// builder.template(Action::Create, "PERSON")?.temporary_key(1)?;
/// builder.template(Action::Create, "PERSON")?.temporary_key(2)?;
/// let mut broken = builder.finish()?.to_vec();
/// broken.remove(14);
/// let rescued = cdf::rescue(&broken, &mut out)?;
/// assert_eq!(rescued.dropped, [6..28]);
/// assert_eq!(rescued.group[6..], broken[28..]);
/// assert_eq!(cdf::check(rescued.group), Ok(3));
/// # Ok::<(), cdf::Refusal>(())
/// ```
pub fn rescue<'b>(stream: &[u8], out: &'b mut [u8]) -> Result<Rescued<'b>, Refusal> {
    match sys::rescue(stream, out) {
        (0, answer) => {
            let runs = answer[2..].chunks_exact(2).take(answer[1] as usize);
            let dropped = runs.map(|run| run[0] as usize..run[1] as usize).collect();
            Ok(Rescued { group: &out[..answer[0] as usize], dropped })
        }
        (number, _) => Err(Refusal::nowhere(number)),
    }
}
