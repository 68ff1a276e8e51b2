//! The functions of the archive, called as C calls them.

use cdf_model::build_list::Listed;
use cdf_model::lookup::Asked;
use cdf_model::numbers::{
    AnswerNumbers, BatchNumbers, BuilderNumbers, ExplanationNumbers, FoundNumbers, ReaderNumbers, RescueNumbers,
    ResolveNumbers,
};
use cdf_model::reader::Call;

type ReaderCall = unsafe extern "C" fn(*const u8, usize, *mut u64, *mut u64) -> u64;
type Replay = unsafe extern "C" fn(*const u8, usize, *const u8, usize, *mut u64, usize, *mut u64) -> u64;

extern "C" {
    fn cdf_check(stream: *const u8, n: usize, answer: *mut u64) -> u64;
    fn cdf_first(stream: *const u8, n: usize, place: *mut u64, answer: *mut u64) -> u64;
    fn cdf_next(stream: *const u8, n: usize, place: *mut u64, answer: *mut u64) -> u64;
    fn cdf_skip(stream: *const u8, n: usize, place: *mut u64, answer: *mut u64) -> u64;
    fn cdf_get_stream(stream: *const u8, n: usize, place: *mut u64, answer: *mut u64) -> u64;
    fn cdf_previous(stream: *const u8, n: usize, place: *mut u64, answer: *mut u64) -> u64;
    fn cdf_abnormal_end(stream: *const u8, n: usize, place: *mut u64, answer: *mut u64) -> u64;
    fn cdf_replay(
        stream: *const u8,
        n: usize,
        calls: *const u8,
        ncalls: usize,
        log: *mut u64,
        nlog: usize,
        answer: *mut u64,
    ) -> u64;
    fn cdf_units(stream: *const u8, n: usize, place: *mut u64, list: *mut u64, numbers: usize, answer: *mut u64)
        -> u64;
    fn cdf_table_first(stream: *const u8, n: usize, place: *mut u64, answer: *mut u64) -> u64;
    fn cdf_table_next(stream: *const u8, n: usize, place: *mut u64, answer: *mut u64) -> u64;
    fn cdf_table_skip(stream: *const u8, n: usize, place: *mut u64, answer: *mut u64) -> u64;
    fn cdf_table_replay(
        stream: *const u8,
        n: usize,
        calls: *const u8,
        ncalls: usize,
        log: *mut u64,
        nlog: usize,
        answer: *mut u64,
    ) -> u64;
    fn cdf_listing(stream: *const u8, n: usize, text: *mut u8, ntext: usize, answer: *mut u64) -> u64;
    fn cdf_explain(stream: *const u8, n: usize, answer: *mut u64) -> u64;
    fn cdf_lookup(
        first: *const u8,
        nfirst: usize,
        second: *const u8,
        nsecond: usize,
        template: *const u8,
        ntemplate: usize,
        key_id: u64,
        key: *const u8,
        nkey: usize,
        field: *const u8,
        nfield: usize,
        answer: *mut u64,
    ) -> u64;
    fn cdf_rescue(stream: *const u8, n: usize, group: *mut u8, ngroup: usize, answer: *mut u64) -> u64;
    fn cdf_resolve(stream: *const u8, n: usize, list: *mut u64, numbers: usize, answer: *mut u64) -> u64;
    fn cdf_build_first(buffer: *mut u8, n: usize, root: u64, place: *mut u64) -> u64;
    fn cdf_build_next(
        buffer: *mut u8,
        n: usize,
        place: *mut u64,
        id: u64,
        action: u64,
        data: *const u8,
        ndata: usize,
    ) -> u64;
    fn cdf_build_add_stream(buffer: *mut u8, n: usize, place: *mut u64, group: *const u8, ngroup: usize) -> u64;
    fn cdf_build_finish(buffer: *mut u8, n: usize, place: *mut u64, answer: *mut u64) -> u64;
    fn cdf_build_batch(
        place: Building,
        buffer: *mut u8,
        n: usize,
        list: *const Listed,
        count: usize,
        text: *const u8,
        ntext: usize,
    ) -> Batched;
}

/// A builder's place by value.
#[repr(C)]
struct Building(BuilderNumbers);

/// What a list of requests is told.
#[repr(C)]
#[derive(Debug)]
pub struct Batched {
    pub number: u64,
    pub rank: u64,
    pub place: BuilderNumbers,
}

/// Null where there are no bytes, which C may pass.
fn pointer<T>(lent: &[T]) -> *const T {
    match lent.is_empty() {
        true => std::ptr::null(),
        false => lent.as_ptr(),
    }
}

fn pointer_mut<T>(lent: &mut [T]) -> *mut T {
    match lent.is_empty() {
        true => std::ptr::null_mut(),
        false => lent.as_mut_ptr(),
    }
}

/// Numbers between others that no function may write.
#[repr(C)]
struct Guarded<const N: usize> {
    before: [u64; 2],
    numbers: [u64; N],
    after: [u64; 2],
}

const GUARD: [u64; 2] = [0x5AFE_5AFE_5AFE_5AFE; 2];
/// What an answer holds before the call.
const UNWRITTEN: u64 = 0xDEAD_DEAD_DEAD_DEAD;

/// Lends a copy of the numbers to a function, and sees that it wrote nothing beside them.
fn guarded<const N: usize>(numbers: &mut [u64; N], call: impl FnOnce(*mut u64) -> u64) -> u64 {
    let mut lent = Guarded { before: GUARD, numbers: *numbers, after: GUARD };
    let whole = (&raw mut lent).cast::<u64>();
    // SAFETY: the numbers stand two places after the front of the struct.
    let number = call(unsafe { whole.add(2) });
    assert!(lent.before == GUARD && lent.after == GUARD, "written outside an array");
    *numbers = lent.numbers;
    number
}

/// The number of a call that writes one more.
fn answered(call: impl FnOnce(*mut u64) -> u64) -> (u64, u64) {
    let mut answer = [UNWRITTEN];
    let number = guarded(&mut answer, call);
    (number, answer[0])
}

// SAFETY of all calls: each pointer is that of a slice with the length beside it, or null with length 0, or that of an
// array of the size that the function asks; none that may be written overlaps another.

pub fn check(stream: &[u8]) -> (u64, u64) {
    answered(|answer| unsafe { cdf_check(pointer(stream), stream.len(), answer) })
}

pub fn reader(call: Call, stream: &[u8], place: &mut ReaderNumbers) -> (u64, AnswerNumbers) {
    let function: ReaderCall = match call {
        Call::First => cdf_first,
        Call::Next => cdf_next,
        Call::Skip => cdf_skip,
        Call::GetStream => cdf_get_stream,
        Call::Previous => cdf_previous,
        Call::AbnormalEnd => cdf_abnormal_end,
    };
    read(function, stream, place)
}

/// A call of the table reader, which has three.
pub fn table(call: Call, stream: &[u8], place: &mut ReaderNumbers) -> (u64, AnswerNumbers) {
    let function: ReaderCall = match call {
        Call::First => cdf_table_first,
        Call::Next => cdf_table_next,
        _ => cdf_table_skip,
    };
    read(function, stream, place)
}

fn read(function: ReaderCall, stream: &[u8], place: &mut ReaderNumbers) -> (u64, AnswerNumbers) {
    let mut answer = [UNWRITTEN; 10];
    let number = guarded(&mut answer, |answer| {
        guarded(place, |place| unsafe { function(pointer(stream), stream.len(), place, answer) })
    });
    (number, answer)
}

pub fn replay(stream: &[u8], calls: &[u8], log: &mut [u64]) -> (u64, u64) {
    replay_by(cdf_replay, stream, calls, log)
}

pub fn table_replay(stream: &[u8], calls: &[u8], log: &mut [u64]) -> (u64, u64) {
    replay_by(cdf_table_replay, stream, calls, log)
}

fn replay_by(function: Replay, stream: &[u8], calls: &[u8], log: &mut [u64]) -> (u64, u64) {
    let (nlog, log) = (log.len(), pointer_mut(log));
    answered(|answer| unsafe {
        let (codes, count) = (pointer(calls), calls.len());
        function(pointer(stream), stream.len(), codes, count, log, nlog, answer)
    })
}

pub fn units(stream: &[u8], place: &mut ReaderNumbers, list: &mut [u64]) -> (u64, BatchNumbers) {
    let (numbers, list) = (list.len(), pointer_mut(list));
    let mut answer = [UNWRITTEN; 2];
    let number = guarded(&mut answer, |answer| {
        guarded(place, |place| unsafe { cdf_units(pointer(stream), stream.len(), place, list, numbers, answer) })
    });
    (number, answer)
}

pub fn listing(stream: &[u8], text: &mut [u8]) -> (u64, u64) {
    let (ntext, text) = (text.len(), pointer_mut(text));
    answered(|answer| unsafe { cdf_listing(pointer(stream), stream.len(), text, ntext, answer) })
}

pub fn explain(stream: &[u8]) -> (u64, ExplanationNumbers) {
    let mut answer = [UNWRITTEN; 25];
    let number = guarded(&mut answer, |answer| unsafe { cdf_explain(pointer(stream), stream.len(), answer) });
    (number, answer)
}

pub fn lookup(first: &[u8], second: &[u8], asked: &Asked) -> (u64, FoundNumbers) {
    let Asked { template, key_id, key, field } = asked;
    let mut answer = [UNWRITTEN; 4];
    let number = guarded(&mut answer, |answer| unsafe {
        cdf_lookup(
            pointer(first),
            first.len(),
            pointer(second),
            second.len(),
            pointer(template),
            template.len(),
            *key_id,
            pointer(key),
            key.len(),
            pointer(field),
            field.len(),
            answer,
        )
    });
    (number, answer)
}

pub fn rescue(bytes: &[u8], group: &mut [u8]) -> (u64, RescueNumbers) {
    let (room, group) = (group.len(), pointer_mut(group));
    let mut answer = [UNWRITTEN; 130];
    let number = guarded(&mut answer, |answer| unsafe { cdf_rescue(pointer(bytes), bytes.len(), group, room, answer) });
    (number, answer)
}

pub fn resolve(stream: &[u8], list: &mut [u64]) -> (u64, ResolveNumbers) {
    let (numbers, list) = (list.len(), pointer_mut(list));
    let mut answer = [UNWRITTEN; 2];
    let number =
        guarded(&mut answer, |answer| unsafe { cdf_resolve(pointer(stream), stream.len(), list, numbers, answer) });
    (number, answer)
}

pub fn build_first(buffer: &mut [u8], root: u64, place: &mut BuilderNumbers) -> u64 {
    let n = buffer.len();
    guarded(place, |place| unsafe { cdf_build_first(pointer_mut(buffer), n, root, place) })
}

pub fn build_next(buffer: &mut [u8], place: &mut BuilderNumbers, id: u64, action: u64, data: &[u8]) -> u64 {
    let n = buffer.len();
    guarded(place, |place| unsafe {
        let buffer = pointer_mut(buffer);
        cdf_build_next(buffer, n, place, id, action, pointer(data), data.len())
    })
}

pub fn build_add_stream(buffer: &mut [u8], place: &mut BuilderNumbers, group: &[u8]) -> u64 {
    let n = buffer.len();
    guarded(place, |place| unsafe { cdf_build_add_stream(pointer_mut(buffer), n, place, pointer(group), group.len()) })
}

pub fn build_finish(buffer: &mut [u8], place: &mut BuilderNumbers) -> (u64, u64) {
    let n = buffer.len();
    answered(|answer| guarded(place, |place| unsafe { cdf_build_finish(pointer_mut(buffer), n, place, answer) }))
}

/// The list and the text stay.
pub fn build_batch(buffer: &mut [u8], place: &BuilderNumbers, list: &[Listed], text: &[u8]) -> Batched {
    let (n, count, copies) = (buffer.len(), list.len(), (list.to_vec(), text.to_vec()));
    let buffer = pointer_mut(buffer);
    let batched =
        unsafe { cdf_build_batch(Building(*place), buffer, n, pointer(list), count, pointer(text), text.len()) };
    assert!((list, text) == (&copies.0, &copies.1), "the list or its text was written");
    batched
}
