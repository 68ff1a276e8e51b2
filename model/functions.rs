//! The functions of the archive, and the numbers that each can give.

use cdf_model::reader;

/// The functions of the archive, in the order of `CAN_GIVE`.
#[derive(Clone, Copy, PartialEq)]
pub enum Function {
    Check,
    First,
    Next,
    Skip,
    GetStream,
    Previous,
    AbnormalEnd,
    Replay,
    Units,
    Listing,
    Explain,
    Lookup,
    Rescue,
    Resolve,
    BuildFirst,
    BuildNext,
    AddStream,
    Finish,
    BuildBatch,
    TableFirst,
    TableNext,
    TableSkip,
    TableReplay,
}

impl From<reader::Call> for Function {
    fn from(call: reader::Call) -> Function {
        match call {
            reader::Call::First => Function::First,
            reader::Call::Next => Function::Next,
            reader::Call::Skip => Function::Skip,
            reader::Call::GetStream => Function::GetStream,
            reader::Call::Previous => Function::Previous,
            reader::Call::AbnormalEnd => Function::AbnormalEnd,
        }
    }
}

/// The numbers that each function can give.
pub const CAN_GIVE: [(&str, &[usize]); 23] = [
    ("cdf_check", &[0, 3, 4, 5, 6, 7, 8, 9, 10]),
    ("cdf_first", &[0, 3, 4, 5, 6, 7, 8]),
    ("cdf_next", &[0, 1, 2, 3, 4, 5, 6, 7, 8, 9, 10, 11]),
    ("cdf_skip", &[0, 2, 11]),
    ("cdf_get_stream", &[0, 2, 11]),
    ("cdf_previous", &[0, 2, 11]),
    ("cdf_abnormal_end", &[0]),
    ("cdf_replay", &[0, 12]),
    ("cdf_units", &[0, 1, 2, 3, 4, 5, 6, 7, 8, 9, 10, 11]),
    ("cdf_listing", &[0, 12]),
    ("cdf_explain", &[0, 3, 4, 5, 6, 7, 8, 9, 10]),
    ("cdf_lookup", &[0, 3, 4, 5, 6, 7, 8, 9, 10, 15]),
    ("cdf_rescue", &[0, 3, 12, 13, 16, 17]),
    ("cdf_resolve", &[0, 3, 4, 5, 6, 7, 8, 9, 10, 12, 18, 19, 20]),
    ("cdf_build_first", &[0, 6, 7, 12]),
    ("cdf_build_next", &[0, 2, 6, 7, 8, 9, 10, 12, 13]),
    ("cdf_build_add_stream", &[0, 2, 7, 10, 12, 13, 14]),
    ("cdf_build_finish", &[0, 2, 10]),
    ("cdf_build_batch", &[0, 2, 6, 7, 8, 9, 10, 12, 13, 21]),
    ("cdf_table_first", &[0, 3, 4, 5, 6, 7, 8]),
    ("cdf_table_next", &[0, 1, 2, 3, 4, 5, 6, 7, 8, 9, 10, 11]),
    ("cdf_table_skip", &[0, 2, 11]),
    ("cdf_table_replay", &[0, 12]),
];
pub const READER: std::ops::Range<usize> = 1..7;
/// The reader's calls, the replay and the batches.
pub const AT_PLACES: std::ops::Range<usize> = 1..9;
pub const BUILDER: std::ops::Range<usize> = 14..18;
pub const TABLE: std::ops::Range<usize> = 19..22;
