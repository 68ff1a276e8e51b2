//! Which template each entity key means.
#![forbid(unsafe_code)]

use crate::sys;
use crate::{check, Refusal};

/// The least bytes of an entity key with a temporary key: its prefix, a name of one letter with its count, and the key.
const ENTITY_LEAST: usize = 18;

/// Of each entity key of an E/R data group that has a temporary key, in the order of the stream, the rank of the template of the same name
/// and with the same temporary key that stands before it: how many units stand before that template directly in the group, as
/// [`rank`](crate::Unit::rank) says. Entity keys with template keys are not asked.
///
/// Refused, in this order, with the number of [`check`](crate::check), with 7 if the root is no E/R data group, with 18 if more than 256 templates
/// have temporary keys, with 19 at the first template that has the name and the temporary key of an earlier one, with 20 at the first
/// entity key that has no such template.
///
/// ```
/// use cdf::{Action, Builder, Root};
///
/// let mut buffer = [0; 200];
/// let mut group = Builder::new(&mut buffer, Root::ErGroup)?;
/// group.template(Action::Create, "PERSON")?.temporary_key(1)?;
/// group.template(Action::Create, "PERSON")?.temporary_key(2)?;
/// group.relation(Action::Create, 7)?.entity_key("PERSON")?.temporary_key(2)?.entity_key("PERSON")?.temporary_key(1)?;
/// assert_eq!(cdf::resolve(group.finish()?)?, [1, 0]);
/// group.relation(Action::Create, 8)?.entity_key("PERSON")?.temporary_key(3)?.relation_key(7)?;
/// let refusal = cdf::resolve(group.finish()?).unwrap_err();
/// assert_eq!((refusal.number, refusal.offset), (20, Some(118)));
/// # Ok::<(), cdf::Refusal>(())
/// ```
pub fn resolve(stream: &[u8]) -> Result<Vec<usize>, Refusal> {
    // A stream has at most 65,535 bytes, and what is longer is refused.
    let mut list = vec![0; stream.len().min(65_535) / ENTITY_LEAST];
    match sys::resolve(stream, &mut list) {
        (0, [_, count]) => Ok(list[..count as usize].iter().map(|rank| *rank as usize).collect()),
        // 7 speaks of the root, and not of a byte, where the stream is accepted.
        (7, _) if check(stream).is_ok() => Err(Refusal::nowhere(7)),
        (number, [offset, _]) => Err(Refusal::at(number, offset)),
    }
}
