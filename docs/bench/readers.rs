//! The calls that the two readers of the archive have, and those of the first one in a second version where `run` links one.

/// Position; how many units are open; state, start and end of the innermost, then of the others from the root
/// inwards; id, action, start, own end and end of the last unit; whether it may still be skipped; the ranks of the open
/// units in the same order, and of the last unit.
pub type Place = [u64; 25];
pub const LAST: std::ops::Range<usize> = 14..19;
pub const LAST_RANK: usize = 24;
/// Offset; id, action, start, own end and end of the unit; start and length of the part; depth and rank of the unit.
pub type Answer = [u64; 10];
/// How many numbers a call has in the log.
pub const ENTRY: usize = 11;

/// The calls that both readers have: the first, and the one that is driven by a table.
pub trait Reads {
    const NAME: &'static str;
    fn first(stream: &[u8], place: &mut Place, answer: &mut Answer) -> u64;
    fn next(stream: &[u8], place: &mut Place, answer: &mut Answer) -> u64;
    fn skip(stream: &[u8], place: &mut Place, answer: &mut Answer) -> u64;
    /// FIRST and NEXTs to the end, each called from C, folded.
    fn walk(stream: &[u8]) -> u64;
    fn replay(stream: &[u8], calls: &[u8], log: &mut [u64], answer: &mut [u64; 1]) -> u64;
}

macro_rules! reads {
    ($reader:ident, $name:literal, $first:ident, $next:ident, $skip:ident, $walk:ident, $replay:ident) => {
        extern "C" {
            fn $first(stream: *const u8, length: usize, place: &mut Place, answer: &mut Answer) -> u64;
            fn $next(stream: *const u8, length: usize, place: &mut Place, answer: &mut Answer) -> u64;
            fn $skip(stream: *const u8, length: usize, place: &mut Place, answer: &mut Answer) -> u64;
            fn $walk(stream: *const u8, length: usize) -> u64;
            fn $replay(
                stream: *const u8,
                length: usize,
                calls: *const u8,
                count: usize,
                log: *mut u64,
                numbers: usize,
                answer: &mut [u64; 1],
            ) -> u64;
        }

        pub struct $reader;

        // SAFETY of all: pointer and length are those of a slice, what is written is lent alone, and the functions are
        // proved safe on any bytes and any place.
        impl Reads for $reader {
            const NAME: &'static str = $name;
            #[inline(always)]
            fn first(stream: &[u8], place: &mut Place, answer: &mut Answer) -> u64 {
                unsafe { $first(stream.as_ptr(), stream.len(), place, answer) }
            }
            #[inline(always)]
            fn next(stream: &[u8], place: &mut Place, answer: &mut Answer) -> u64 {
                unsafe { $next(stream.as_ptr(), stream.len(), place, answer) }
            }
            fn skip(stream: &[u8], place: &mut Place, answer: &mut Answer) -> u64 {
                unsafe { $skip(stream.as_ptr(), stream.len(), place, answer) }
            }
            #[inline(always)]
            fn walk(stream: &[u8]) -> u64 {
                unsafe { $walk(stream.as_ptr(), stream.len()) }
            }
            #[inline(always)]
            fn replay(stream: &[u8], calls: &[u8], log: &mut [u64], answer: &mut [u64; 1]) -> u64 {
                let (count, numbers) = (calls.len(), log.len());
                unsafe {
                    $replay(stream.as_ptr(), stream.len(), calls.as_ptr(), count, log.as_mut_ptr(), numbers, answer)
                }
            }
        }
    };
}

reads!(Now, "", cdf_first, cdf_next, cdf_skip, walk_from_c, cdf_replay);
reads!(Table, "by the table: ", cdf_table_first, cdf_table_next, cdf_table_skip, table_from_c, cdf_table_replay);
#[cfg(before)]
reads!(Before, "before: ", before_cdf_first, before_cdf_next, before_cdf_skip, before_walk_from_c, before_cdf_replay);
