//! A plain lookup: what the proved one is measured against. It trusts a stream that its check has accepted.

use crate::archive::Question;
use crate::plain::check;

/// Where the unit at `start` ends.
fn end(stream: &[u8], start: usize) -> usize {
    start + u16::from_be_bytes([stream[start + 2], stream[start + 3]]) as usize
}

/// Whether the unit at `start` is a template or a field that the question asks for.
#[inline(always)]
fn asked(stream: &[u8], start: usize, question: &Question) -> bool {
    let own = || start + 7 + stream[start + 6] as usize;
    match stream[start + 5] {
        5 => {
            let key = own();
            stream[start + 6..key] == *question.template
                && stream[key + 5] as u64 == question.key_id
                && stream[key + 6..end(stream, key)] == *question.key
        }
        8 => stream[start + 6..own()] == *question.field,
        _ => false,
    }
}

#[inline(never)]
fn asked_out_of_line(stream: &[u8], start: usize, question: &Question) -> bool {
    asked(stream, start, question)
}

/// The first unit asked for of those that follow one another from `start` to `stop`.
#[inline(always)]
fn first_asked<const CALLS: bool>(stream: &[u8], mut start: usize, stop: usize, question: &Question) -> Option<usize> {
    while start < stop {
        if if CALLS { asked_out_of_line(stream, start, question) } else { asked(stream, start, question) } {
            return Some(start);
        }
        start = end(stream, start);
    }
    None
}

/// Start and length of the value that an accepted E/R group has for the question.
#[inline(always)]
fn value<const CALLS: bool>(stream: &[u8], question: &Question) -> Option<(usize, usize)> {
    let template = first_asked::<CALLS>(stream, 6, stream.len(), question)?;
    let nested = template + 6 + question.template.len();
    let field = first_asked::<CALLS>(stream, nested, end(stream, template), question)?;
    let start = field + 6 + question.field.len();
    Some((start, end(stream, field) - start))
}

/// The number, and into `answer`, in the order of `cdf_lookup`, its offset, the stream that has the value, and the value's
/// start and length.
#[inline(always)]
pub fn lookup<const CALLS: bool>(first: &[u8], second: &[u8], question: &Question, answer: &mut [u64; 4]) -> u64 {
    *answer = [0; 4];
    for stream in [first, second] {
        if let Err(stop) = check::<CALLS>(stream) {
            answer[0] = stop.offset as u64;
            return stop.number as u64;
        }
    }
    if first[5] != 4 || second[5] != 4 {
        return 7;
    }
    for (which, stream) in [(1, first), (2, second)] {
        if let Some((start, length)) = value::<CALLS>(stream, question) {
            *answer = [0, which, start as u64, length as u64];
            return 0;
        }
    }
    15
}
