//! The functions of the archive, as the files of include/ declare them, each behind a safe function of the same name.
//! This is the one module with unsafe code.

/// The numbers of a reader's place, `CDF_PLACE_NUMBERS`.
pub type Place = [u64; 25];
/// The numbers of a reader's answer, `CDF_ANSWER_NUMBERS`.
pub type Answer = [u64; 10];
/// The numbers of a unit in a list, `CDF_UNIT_NUMBERS`.
pub type ListedUnit = [u64; 7];
/// The numbers of the answer to a call for many units, `CDF_UNITS_NUMBERS`.
pub type Batch = [u64; 2];
/// The numbers of an explanation, `CDF_EXPLAIN_NUMBERS`.
pub type Explained = [u64; 25];
/// The numbers of a lookup's answer, `CDF_LOOKUP_NUMBERS`.
pub type Found = [u64; 4];
/// The numbers of a rescue's answer, `CDF_RESCUE_NUMBERS`.
pub type Rescued = [u64; 130];
/// The numbers of the answer to a resolving, `CDF_RESOLVE_NUMBERS`.
pub type Resolved = [u64; 2];
/// The numbers of a builder's place, `CDF_BUILD_PLACE_NUMBERS`.
pub type BuildPlace = [u64; 10];
/// A request of a list, `struct cdf_request`.
#[derive(Clone, Copy, Debug, PartialEq, Eq, Hash)]
#[repr(C)]
pub struct Request {
    pub id: u64,
    pub action: u64,
    pub begin: u64,
    pub end: u64,
}
/// A builder's place by value, `struct cdf_builder`.
#[repr(C)]
pub struct Building(BuildPlace);
/// What a list is told, `struct cdf_batched`.
#[repr(C)]
pub struct Batched {
    number: u64,
    rank: u64,
    place: Building,
}
/// As many bytes as the listing of any stream takes, `CDF_LISTING_ROOM`.
pub const LISTING_ROOM: usize = 207_527;

mod archive {
    use super::{Answer, Batch, Batched, BuildPlace, Building, Explained, Found, Place, Request, Rescued, Resolved};

    extern "C" {
        pub fn cdf_version() -> u64;
        pub fn cdf_check(stream: *const u8, length: usize, answer: &mut [u64; 1]) -> u64;
        pub fn cdf_explain(stream: *const u8, length: usize, answer: &mut Explained) -> u64;
        pub fn cdf_lookup(
            first: *const u8,
            first_length: usize,
            second: *const u8,
            second_length: usize,
            template_name: *const u8,
            template_length: usize,
            key_id: u64,
            key: *const u8,
            key_length: usize,
            field: *const u8,
            field_length: usize,
            answer: &mut Found,
        ) -> u64;
        pub fn cdf_rescue(stream: *const u8, length: usize, out: *mut u8, out_length: usize, answer: &mut Rescued) -> u64;
        pub fn cdf_resolve(stream: *const u8, length: usize, list: *mut u64, list_length: usize, answer: &mut Resolved) -> u64;
        pub fn cdf_first(stream: *const u8, length: usize, place: &mut Place, answer: &mut Answer) -> u64;
        pub fn cdf_skip(stream: *const u8, length: usize, place: &mut Place, answer: &mut Answer) -> u64;
        pub fn cdf_get_stream(stream: *const u8, length: usize, place: &mut Place, answer: &mut Answer) -> u64;
        pub fn cdf_previous(stream: *const u8, length: usize, place: &mut Place, answer: &mut Answer) -> u64;
        pub fn cdf_units(
            stream: *const u8,
            length: usize,
            place: &mut Place,
            list: *mut u64,
            list_length: usize,
            answer: &mut Batch,
        ) -> u64;
        pub fn cdf_table_first(stream: *const u8, length: usize, place: &mut Place, answer: &mut Answer) -> u64;
        pub fn cdf_table_next(stream: *const u8, length: usize, place: &mut Place, answer: &mut Answer) -> u64;
        pub fn cdf_table_skip(stream: *const u8, length: usize, place: &mut Place, answer: &mut Answer) -> u64;
        pub fn cdf_listing(stream: *const u8, length: usize, text: *mut u8, text_length: usize, answer: &mut [u64; 1]) -> u64;
        pub fn cdf_build_first(buffer: *mut u8, buffer_length: usize, root: u64, place: &mut BuildPlace) -> u64;
        pub fn cdf_build_next(
            buffer: *mut u8,
            buffer_length: usize,
            place: &mut BuildPlace,
            id: u64,
            action: u64,
            data: *const u8,
            data_length: usize,
        ) -> u64;
        pub fn cdf_build_add_stream(
            buffer: *mut u8,
            buffer_length: usize,
            place: &mut BuildPlace,
            group: *const u8,
            group_length: usize,
        ) -> u64;
        pub fn cdf_build_finish(buffer: *const u8, buffer_length: usize, place: &BuildPlace, answer: &mut [u64; 1]) -> u64;
        pub fn cdf_build_batch(
            place: Building,
            buffer: *mut u8,
            buffer_length: usize,
            requests: *const Request,
            count: usize,
            text: *const u8,
            text_length: usize,
        ) -> Batched;
    }
}

// SAFETY of every call below. The header asks three things of a caller. A pointer with a length is valid for that many elements: each is
// a slice's, with the slice's own length beside it. Place and answer have as many numbers as the declaration says and are never null:
// they are references to arrays of that length. What is written overlaps nothing else that is lent: it is behind a `&mut`, or new here.

pub fn version() -> u64 {
    // SAFETY: it takes nothing.
    unsafe { archive::cdf_version() }
}

pub fn check(stream: &[u8]) -> (u64, u64) {
    let mut answer = [0];
    // SAFETY: as above.
    let number = unsafe { archive::cdf_check(stream.as_ptr(), stream.len(), &mut answer) };
    (number, answer[0])
}

pub fn explain(stream: &[u8]) -> (u64, Explained) {
    let mut answer = [0; 25];
    // SAFETY: as above.
    let number = unsafe { archive::cdf_explain(stream.as_ptr(), stream.len(), &mut answer) };
    (number, answer)
}

pub fn lookup(first: &[u8], second: &[u8], template: &[u8], key_id: u64, key: &[u8], field: &[u8]) -> (u64, Found) {
    let mut answer = [0; 4];
    // SAFETY: as above.
    let number = unsafe {
        archive::cdf_lookup(
            first.as_ptr(),
            first.len(),
            second.as_ptr(),
            second.len(),
            template.as_ptr(),
            template.len(),
            key_id,
            key.as_ptr(),
            key.len(),
            field.as_ptr(),
            field.len(),
            &mut answer,
        )
    };
    (number, answer)
}

pub fn rescue(stream: &[u8], out: &mut [u8]) -> (u64, Rescued) {
    let mut answer = [0; 130];
    // SAFETY: as above.
    let number = unsafe { archive::cdf_rescue(stream.as_ptr(), stream.len(), out.as_mut_ptr(), out.len(), &mut answer) };
    (number, answer)
}

/// As many ranks as there are keys to resolve, into a list: the number, the offset, and how many.
pub fn resolve(stream: &[u8], list: &mut [u64]) -> (u64, Resolved) {
    let mut answer = [0; 2];
    // SAFETY: as above.
    let number = unsafe { archive::cdf_resolve(stream.as_ptr(), stream.len(), list.as_mut_ptr(), list.len(), &mut answer) };
    (number, answer)
}

/// One of the reader's calls, or of those of the reader that is driven by a table.
#[derive(Clone, Copy)]
pub enum Call {
    First,
    Skip,
    GetStream,
    Previous,
    TableFirst,
    TableNext,
    TableSkip,
}

pub fn read(call: Call, stream: &[u8], place: &mut Place) -> (u64, Answer) {
    let function = match call {
        Call::First => archive::cdf_first,
        Call::Skip => archive::cdf_skip,
        Call::GetStream => archive::cdf_get_stream,
        Call::Previous => archive::cdf_previous,
        Call::TableFirst => archive::cdf_table_first,
        Call::TableNext => archive::cdf_table_next,
        Call::TableSkip => archive::cdf_table_skip,
    };
    let mut answer = [0; 10];
    // SAFETY: as above.
    let number = unsafe { function(stream.as_ptr(), stream.len(), place, &mut answer) };
    (number, answer)
}

/// As many units as the list has room for, each as if by NEXT: the number, the offset, and how many.
pub fn units(stream: &[u8], place: &mut Place, list: &mut [ListedUnit]) -> (u64, Batch) {
    let (mut answer, list) = ([0; 2], list.as_flattened_mut());
    // SAFETY: as above.
    let number = unsafe { archive::cdf_units(stream.as_ptr(), stream.len(), place, list.as_mut_ptr(), list.len(), &mut answer) };
    (number, answer)
}

pub fn listing(stream: &[u8], text: &mut [u8]) -> (u64, u64) {
    let mut answer = [0];
    // SAFETY: as above.
    let number = unsafe { archive::cdf_listing(stream.as_ptr(), stream.len(), text.as_mut_ptr(), text.len(), &mut answer) };
    (number, answer[0])
}

pub fn build_first(buffer: &mut [u8], root: u64) -> (u64, BuildPlace) {
    let mut place = [0; 10];
    // SAFETY: as above.
    let number = unsafe { archive::cdf_build_first(buffer.as_mut_ptr(), buffer.len(), root, &mut place) };
    (number, place)
}

pub fn build_next(buffer: &mut [u8], place: &mut BuildPlace, id: u64, action: u64, data: &[u8]) -> u64 {
    // SAFETY: as above.
    unsafe { archive::cdf_build_next(buffer.as_mut_ptr(), buffer.len(), place, id, action, data.as_ptr(), data.len()) }
}

pub fn build_add_stream(buffer: &mut [u8], place: &mut BuildPlace, group: &[u8]) -> u64 {
    // SAFETY: as above.
    unsafe { archive::cdf_build_add_stream(buffer.as_mut_ptr(), buffer.len(), place, group.as_ptr(), group.len()) }
}

pub fn build_finish(buffer: &[u8], place: &BuildPlace) -> (u64, u64) {
    let mut answer = [0];
    // SAFETY: as above.
    let number = unsafe { archive::cdf_build_finish(buffer.as_ptr(), buffer.len(), place, &mut answer) };
    (number, answer[0])
}

/// All requests of a list, or none: the number, and the rank of the request that it is of.
pub fn build_batch(buffer: &mut [u8], place: &mut BuildPlace, requests: &[crate::Request], text: &[u8]) -> (u64, u64) {
    let (at, list) = (Building(*place), requests.as_ptr().cast::<Request>());
    // SAFETY: as above; a request of this crate is one of the archive, in a transparent struct.
    let told = unsafe { archive::cdf_build_batch(at, buffer.as_mut_ptr(), buffer.len(), list, requests.len(), text.as_ptr(), text.len()) };
    *place = told.place.0;
    (told.number, told.rank)
}
