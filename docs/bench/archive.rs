//! The proved functions: those of the joined archive, a second version of them where `run` links one, and `cdf_walk`. The two readers are
//! in `readers.rs`.

pub use crate::readers::*;

/// Offset; how many units are open; id and start of up to four, the root first; how many ids the innermost admits; up to
/// fourteen ids, rising. Zeros beyond, and all zeros for an accepted stream.
pub type Explanation = [u64; 25];
/// Offset; which stream has the value, 1 or 2, or 0; start and length of the value.
pub type Found = [u64; 4];
/// The group's length; how many runs of bytes were dropped; first byte and byte after the last of up to 64. Zeros beyond, and
/// all zeros on a refusal.
pub type Rescued = [u64; 130];
/// Bytes written; how many units are open; state and start of each.
pub type BuildPlace = [u64; 10];

/// What a lookup asks for. The names have their count bytes.
#[derive(Clone, Copy, Debug)]
pub struct Question<'a> {
    pub template: &'a [u8],
    pub key_id: u64,
    pub key: &'a [u8],
    pub field: &'a [u8],
}

pub trait Archive: Reads {
    fn check(stream: &[u8], answer: &mut [u64; 1]) -> u64;
    fn explain(stream: &[u8], answer: &mut Explanation) -> u64;
    fn get_stream(stream: &[u8], place: &mut Place, answer: &mut Answer) -> u64;
    fn previous(stream: &[u8], place: &mut Place, answer: &mut Answer) -> u64;
    fn build_first(buffer: &mut [u8], root: u64, place: &mut BuildPlace) -> u64;
    fn build_next(buffer: &mut [u8], place: &mut BuildPlace, id: u64, action: u64, data: &[u8]) -> u64;
    fn build_finish(buffer: &[u8], place: &BuildPlace, answer: &mut [u64; 1]) -> u64;
    fn listing(stream: &[u8], text: &mut [u8], answer: &mut [u64; 1]) -> u64;
    fn lookup(first: &[u8], second: &[u8], question: &Question, answer: &mut Found) -> u64;
    fn rescue(bytes: &[u8], group: &mut [u8], answer: &mut Rescued) -> u64;
}

macro_rules! archive {
    ($archive:ident, $check:ident, $explain:ident, $get_stream:ident, $previous:ident, $build_first:ident,
     $build_next:ident, $build_finish:ident, $listing:ident, $lookup:ident, $rescue:ident) => {
        extern "C" {
            fn $check(stream: *const u8, length: usize, answer: &mut [u64; 1]) -> u64;
            fn $explain(stream: *const u8, length: usize, answer: &mut Explanation) -> u64;
            fn $get_stream(stream: *const u8, length: usize, place: &mut Place, answer: &mut Answer) -> u64;
            fn $previous(stream: *const u8, length: usize, place: &mut Place, answer: &mut Answer) -> u64;
            fn $build_first(buffer: *mut u8, length: usize, root: u64, place: &mut BuildPlace) -> u64;
            fn $build_next(
                buffer: *mut u8,
                length: usize,
                place: &mut BuildPlace,
                id: u64,
                action: u64,
                data: *const u8,
                data_length: usize,
            ) -> u64;
            fn $build_finish(buffer: *const u8, length: usize, place: &BuildPlace, answer: &mut [u64; 1]) -> u64;
            fn $listing(
                stream: *const u8,
                length: usize,
                text: *mut u8,
                text_length: usize,
                answer: &mut [u64; 1],
            ) -> u64;
            fn $lookup(
                first: *const u8,
                first_length: usize,
                second: *const u8,
                second_length: usize,
                template: *const u8,
                template_length: usize,
                key_id: u64,
                key: *const u8,
                key_length: usize,
                field: *const u8,
                field_length: usize,
                answer: &mut Found,
            ) -> u64;
            fn $rescue(
                bytes: *const u8,
                length: usize,
                group: *mut u8,
                group_length: usize,
                answer: &mut Rescued,
            ) -> u64;
        }

        // SAFETY of all: pointer and length are those of a slice, what is written is lent alone, and the functions are
        // proved safe on any bytes and any place.
        impl Archive for $archive {
            #[inline(always)]
            fn check(stream: &[u8], answer: &mut [u64; 1]) -> u64 {
                unsafe { $check(stream.as_ptr(), stream.len(), answer) }
            }
            #[inline(always)]
            fn explain(stream: &[u8], answer: &mut Explanation) -> u64 {
                unsafe { $explain(stream.as_ptr(), stream.len(), answer) }
            }
            fn get_stream(stream: &[u8], place: &mut Place, answer: &mut Answer) -> u64 {
                unsafe { $get_stream(stream.as_ptr(), stream.len(), place, answer) }
            }
            fn previous(stream: &[u8], place: &mut Place, answer: &mut Answer) -> u64 {
                unsafe { $previous(stream.as_ptr(), stream.len(), place, answer) }
            }
            #[inline(always)]
            fn build_first(buffer: &mut [u8], root: u64, place: &mut BuildPlace) -> u64 {
                unsafe { $build_first(buffer.as_mut_ptr(), buffer.len(), root, place) }
            }
            #[inline(always)]
            fn build_next(buffer: &mut [u8], place: &mut BuildPlace, id: u64, action: u64, data: &[u8]) -> u64 {
                let length = buffer.len();
                unsafe { $build_next(buffer.as_mut_ptr(), length, place, id, action, data.as_ptr(), data.len()) }
            }
            #[inline(always)]
            fn build_finish(buffer: &[u8], place: &BuildPlace, answer: &mut [u64; 1]) -> u64 {
                unsafe { $build_finish(buffer.as_ptr(), buffer.len(), place, answer) }
            }
            #[inline(always)]
            fn listing(stream: &[u8], text: &mut [u8], answer: &mut [u64; 1]) -> u64 {
                unsafe { $listing(stream.as_ptr(), stream.len(), text.as_mut_ptr(), text.len(), answer) }
            }
            #[inline(always)]
            fn lookup(first: &[u8], second: &[u8], question: &Question, answer: &mut Found) -> u64 {
                let Question { template, key_id, key, field } = *question;
                unsafe {
                    $lookup(
                        first.as_ptr(),
                        first.len(),
                        second.as_ptr(),
                        second.len(),
                        template.as_ptr(),
                        template.len(),
                        key_id,
                        key.as_ptr(),
                        key.len(),
                        field.as_ptr(),
                        field.len(),
                        answer,
                    )
                }
            }
            #[inline(always)]
            fn rescue(bytes: &[u8], group: &mut [u8], answer: &mut Rescued) -> u64 {
                unsafe { $rescue(bytes.as_ptr(), bytes.len(), group.as_mut_ptr(), group.len(), answer) }
            }
        }
    };
}

archive!(
    Now,
    cdf_check,
    cdf_explain,
    cdf_get_stream,
    cdf_previous,
    cdf_build_first,
    cdf_build_next,
    cdf_build_finish,
    cdf_listing,
    cdf_lookup,
    cdf_rescue
);
#[cfg(before)]
archive!(
    Before,
    before_cdf_check,
    before_cdf_explain,
    before_cdf_get_stream,
    before_cdf_previous,
    before_cdf_build_first,
    before_cdf_build_next,
    before_cdf_build_finish,
    before_cdf_listing,
    before_cdf_lookup,
    before_cdf_rescue
);

/// The proved loop of FIRST and NEXTs, folded: it is no part of the joined archive.
pub fn proved_walk(stream: &[u8]) -> u64 {
    extern "C" {
        fn cdf_walk(stream: *const u8, length: usize) -> u64;
    }
    // SAFETY: as above.
    unsafe { cdf_walk(stream.as_ptr(), stream.len()) }
}

/// Many units in a call. An older archive may lack it.
pub trait Batches: Archive {
    /// Offset, and how many units there are in the list, seven numbers each.
    fn units(stream: &[u8], place: &mut Place, list: &mut [u64], answer: &mut [u64; 2]) -> u64;
    /// FIRST, then all other units by 32, called from C, folded.
    fn walk_units(stream: &[u8]) -> u64;
}

macro_rules! batches {
    ($archive:ident, $units:ident, $walk:ident) => {
        extern "C" {
            fn $units(
                stream: *const u8,
                length: usize,
                place: &mut Place,
                list: *mut u64,
                numbers: usize,
                answer: &mut [u64; 2],
            ) -> u64;
            fn $walk(stream: *const u8, length: usize) -> u64;
        }

        // SAFETY: as above.
        impl Batches for $archive {
            fn units(stream: &[u8], place: &mut Place, list: &mut [u64], answer: &mut [u64; 2]) -> u64 {
                unsafe { $units(stream.as_ptr(), stream.len(), place, list.as_mut_ptr(), list.len(), answer) }
            }
            #[inline(always)]
            fn walk_units(stream: &[u8]) -> u64 {
                unsafe { $walk(stream.as_ptr(), stream.len()) }
            }
        }
    };
}

batches!(Now, cdf_units, units_from_c);
#[cfg(before_units)]
batches!(Before, before_cdf_units, before_units_from_c);
