//! Hand-made places of the builder's stored cases.

use crate::numbers::BuilderNumbers;

/// A state and a start. The states are those of section 3.1 of docs/FORMAT.md.
type Open = (u64, u64);

/// The place with these units open, from the root inwards; of more than four those between the third and the last have no
/// numbers.
const fn place(written: u64, open: &[Open]) -> BuilderNumbers {
    let mut numbers = [0; 10];
    numbers[0] = written;
    numbers[1] = open.len() as u64;
    let mut index = 0;
    while index < open.len() {
        let slot = if index + 1 == open.len() { 0 } else { index + 1 };
        if slot < 4 {
            (numbers[2 + 2 * slot], numbers[3 + 2 * slot]) = open[index];
        }
        index += 1;
    }
    numbers
}

/// K2 is built as far as the template.
pub const PERSON: BuilderNumbers = place(19, &[(6, 0), (14, 6)]);
/// A file group that has a line.
pub const FULL_FILE: BuilderNumbers = place(65_535, &[LINED]);
pub const NEARLY_FULL_FILE: BuilderNumbers = place(65_525, &[LINED]);
/// Fits, and comes from no run: the stream admits a group while it has one open.
pub const GROUP_IN_STREAM: BuilderNumbers = place(12, &[(2, 0), (5, 6)]);
/// A template that has had its temporary key.
pub const FULL_PERSON: BuilderNumbers = place(65_535, &[(6, 0), (15, 6)]);
/// The stream has had a call.
pub const STREAM_NEARLY_FULL: BuilderNumbers = place(65_523, &[(2, 0)]);

const LINED: Open = (9, 0);
/// Larger than anything that fits, and not by a power of two.
pub const HUGE: u64 = 9_999_999_999_999_999_999;

/// Each with its label and the size of the buffer.
pub fn hand_made() -> Vec<(&'static str, usize, BuilderNumbers)> {
    let (group, template) = ((6, 0), (14, 6));
    let person = [group, template];
    let [stream, inner_group, relation, entity] = [(3, 0), (6, 6), (19, 12), (27, 18)];
    let deep = [stream, inner_group, relation, entity];
    let source = |state| place(34, &[stream, inner_group, (20, 12), (state, 18)]);
    vec![
        ("empty", 46, place(0, &[])),
        ("buffer", 18, PERSON),
        ("limit", 65_536, place(65_536, &person)),
        ("huge", 46, place(HUGE, &person)),
        ("prefix", 46, place(11, &person)),
        ("five", 46, place(30, &[stream, inner_group, relation, entity, (27, 24)])),
        ("root-kind", 46, place(19, &[(14, 0)])),
        ("root-no-state", 46, place(19, &[(0, 0)])),
        ("root-past-states", 46, place(19, &[(31, 0)])),
        ("root-skipped", 46, place(19, &[(7, 0), template])),
        ("root-start", 46, place(19, &[(6, 1), (14, 7)])),
        ("kind", 46, place(19, &[group, (11, 6)])),
        ("no-state", 46, place(19, &[group, (0, 6)])),
        ("past-states", 46, place(19, &[group, (31, 6)])),
        ("skipped", 46, place(19, &[group, (18, 6)])),
        ("entity-skipped", 46, source(30)),
        ("entity-past-states", 46, source(31)),
        ("near", 46, place(19, &[group, (14, 5)])),
        ("far", 46, place(19, &[group, (14, HUGE)])),
        // These fit.
        ("root", 6, place(6, &[LINED])),
        ("written", 19, PERSON),
        ("deep", 24, place(24, &deep)),
        ("deep-and-room", 64, place(24, &deep)),
        ("temporary", 46, place(24, &[group, (15, 6)])),
        ("template-keys", 46, place(24, &[group, (16, 6)])),
        ("fields", 46, place(32, &[group, (17, 6)])),
        ("entity-temporary", 46, source(28)),
        ("entity-template-keys", 46, source(29)),
        ("full", 65_535, FULL_FILE),
        ("full-and-room", 65_536, FULL_FILE),
    ]
}
