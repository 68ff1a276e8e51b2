//! Lists of requests through the headers of include/, as gate/header/main.c reads and tells them.

use crate::build_list::{build, Listed};
use crate::build_list_samples::ListSample;
use crate::build_run::UNWRITTEN;
use crate::header::Lines;
use crate::header_names::{action, building, hex, id, number, state_number, sum};
use crate::numbers::{builder_place, BuilderNumbers};

/// How many bytes the structs have: four numbers, ten, and twelve.
pub const SIZES: &str = " cdf_request=32 cdf_builder=80 cdf_batched=96";

/// The line that sets the builder's place.
pub fn placed(at: &BuilderNumbers) -> String {
    let units: String = at[2..].chunks(2).map(|unit| format!(" {} {}", state_number(unit[0]), unit[1])).collect();
    format!("building {} {}{units}", at[0], at[1])
}

/// A list, on a buffer in which nothing is written.
pub fn build_list(lines: &mut Lines, sample: &ListSample) {
    let ListSample { size, place, list, text, .. } = sample;
    let mut buffer = vec![UNWRITTEN; *size];
    let asked = |one: &Listed| format!(" {} {} {} {}", id(one.id), action(one.action), one.begin, one.end);
    let requests: String = list.iter().map(asked).collect();
    let (refused, rank, left) = match build(&mut buffer, &builder_place(place), list, text) {
        Ok(left) => (0, 0, building(&left)),
        Err(refused) if *place == [0; 10] => (refused.number, refused.rank, " zeros".to_string()),
        Err(refused) => (refused.number, refused.rank, " stays".to_string()),
    };
    lines.given(&format!("buffer {size}"));
    lines.given(&placed(place));
    let line = format!("cdf_build_batch {}{requests} {}", list.len(), hex(text));
    lines.call(&line, number(refused), &format!(" rank={rank}{}{left}", sum(&buffer)));
}
