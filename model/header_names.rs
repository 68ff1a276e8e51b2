//! What crosses the C boundary in the names of the headers of include/, as gate/header/main.c tells it.

use crate::builder;
use crate::numbers;
use crate::reader::{self, Call, Reply};
use crate::rules::{Had, Handed, Unit};

const NUMBERS: [&str; 22] = [
    "CDF_OK",
    "CDF_END",
    "CDF_ERR_UNFIT",
    "CDF_ERR_SHORT",
    "CDF_ERR_MARK",
    "CDF_ERR_LENGTH",
    "CDF_ERR_ID",
    "CDF_ERR_PLACE",
    "CDF_ERR_ACTION",
    "CDF_ERR_DATA",
    "CDF_ERR_INCOMPLETE",
    "CDF_ERR_NOTHING",
    "CDF_ERR_NO_ROOM",
    "CDF_ERR_TOO_LONG",
    "CDF_ERR_BAD_GROUP",
    "CDF_ERR_NOT_FOUND",
    "CDF_ERR_NOTHING_KEPT",
    "CDF_ERR_MANY_RUNS",
    "CDF_ERR_MANY_KEYS",
    "CDF_ERR_DOUBLED",
    "CDF_ERR_UNRESOLVED",
    "CDF_ERR_MANY_REQUESTS",
];

pub fn id(id: u64) -> String {
    let name = match id {
        1 => "STREAM",
        2 => "CALL",
        3 => "PARAMETER",
        4 => "ER_GROUP",
        5 => "TEMPLATE",
        6 => "TEMPORARY_KEY",
        7 => "TEMPLATE_KEY",
        8 => "FIELD",
        9 => "RELATION",
        10 => "ORDERED_RELATION",
        11 => "ENTITY_KEY",
        12 => "RELATION_KEY",
        13 => "FILE_GROUP",
        14 => "LINE",
        _ => return id.to_string(),
    };
    format!("CDF_ID_{name}")
}

pub fn action(action: u64) -> String {
    match ["NONE", "CREATE", "READ", "UPDATE", "DELETE"].get(action as usize) {
        Some(name) => format!("CDF_ACTION_{name}"),
        None => action.to_string(),
    }
}

/// The state of a unit of this id that has had this; 0 where there is none.
fn state(id: u64, had: Had) -> String {
    let unit = match id {
        1 => "STREAM",
        2 => "CALL",
        4 => "ER",
        5 => "TEMPLATE",
        9 => "RELATION",
        10 => "ORDERED",
        11 => "ENTITY",
        13 => "FILE",
        _ => return "0".to_string(),
    };
    let had = match (had, id) {
        (Had::Nothing, _) => "NEW",
        (Had::Call, _) => "CALL",
        (Had::Group, _) => "GROUP",
        (Had::Units, 2) => "PARAMETERS",
        (Had::Units, 4) => "DATA",
        (Had::Units, _) => "LINES",
        (Had::Temporary, _) => "TEMPORARY",
        (Had::Keys, _) => "KEYS",
        (Had::Fields, _) => "FIELDS",
        (Had::One, _) => "SOURCE",
        (Had::Two, _) => "TARGET",
        (Had::Skipped, _) => "SKIPPED",
    };
    format!("CDF_STATE_{unit}_{had}")
}

/// The same of a state's number.
pub fn state_number(number: u64) -> String {
    match numbers::state(number) {
        (0, _) => number.to_string(),
        (id, had) => state(id, had),
    }
}

pub fn call_name(which: Call) -> &'static str {
    match which {
        Call::First => "cdf_first",
        Call::Next => "cdf_next",
        Call::Skip => "cdf_skip",
        Call::GetStream => "cdf_get_stream",
        Call::Previous => "cdf_previous",
        Call::AbnormalEnd => "cdf_abnormal_end",
    }
}

/// The same of the table reader, which has the first three.
pub fn table_name(which: Call) -> String {
    format!("cdf_table_{}", &call_name(which)[4..])
}

pub fn code(which: Call) -> String {
    let name = if which == Call::First { "START" } else { &call_name(which)[4..] };
    format!("CDF_CALL_{}", name.to_uppercase())
}

pub fn number(number: u64) -> &'static str {
    NUMBERS[number as usize]
}

pub fn hex(bytes: &[u8]) -> String {
    match bytes {
        [] => "-".to_string(),
        _ => bytes.iter().map(|byte| format!("{byte:02X}")).collect(),
    }
}

pub fn sum(bytes: &[u8]) -> String {
    let add = |sum: u64, byte: &u8| sum.wrapping_mul(31).wrapping_add(u64::from(*byte));
    format!(" sum={}", bytes.iter().fold(bytes.len() as u64, add))
}

/// Offset, part and unit of an answer or an entry, each with its name behind this.
pub fn parts<const N: usize>(of: &str, reply: &Reply, order: [&str; N]) -> String {
    let Handed { unit: Unit { id: unit, action: done, start, own, end }, depth, rank } = reply.handed;
    let told = |name: &str| match name {
        "NUMBER" => number(reply.number).to_string(),
        "OFFSET" => reply.offset.to_string(),
        "ID" => id(unit),
        "ACTION" => action(done),
        "START" => start.to_string(),
        "OWN_END" => own.to_string(),
        "END" => end.to_string(),
        "DEPTH" => depth.to_string(),
        "RANK" => rank.to_string(),
        "PART_START" => reply.part.0.to_string(),
        _ => reply.part.1.to_string(),
    };
    order.iter().map(|name| format!(" CDF_{of}_{name}={}", told(name))).collect()
}

/// A unit in a list.
pub fn unit_parts(handed: &Handed) -> String {
    let Handed { unit: Unit { id: unit, action: done, start, own, end }, depth, rank } = *handed;
    format!(
        " CDF_UNIT_ID={} CDF_UNIT_ACTION={} CDF_UNIT_START={start} CDF_UNIT_OWN_END={own} CDF_UNIT_END={end} CDF_UNIT_DEPTH={depth} \
         CDF_UNIT_RANK={rank}",
        id(unit),
        action(done)
    )
}

pub fn place(place: &reader::Place) -> String {
    let unit = |unit: &reader::Open| format!("{},{},{}", state(unit.id, unit.had), unit.start, unit.end);
    let (innermost, outer) = place.open.split_last().expect("an open unit");
    let Unit { id: last, action: done, start, own, end } = place.last;
    format!(
        " CDF_PLACE_POSITION={} CDF_PLACE_COUNT={} CDF_PLACE_INNERMOST={} CDF_PLACE_OUTER={} CDF_PLACE_LAST={},{},{start},{own},{end} {} \
         CDF_PLACE_RANKS=,{}{} CDF_PLACE_LAST_RANK={}",
        place.position,
        place.open.len(),
        unit(innermost),
        outer.iter().map(unit).collect::<String>(),
        id(last),
        action(done),
        if place.fresh { "CDF_PLACE_FLAG" } else { "-" },
        innermost.rank,
        outer.iter().map(|unit| format!(",{}", unit.rank)).collect::<String>(),
        place.last_rank,
    )
}

pub fn building(place: &builder::Place) -> String {
    let unit = |unit: &builder::Open| format!("{},{}", state(unit.id, unit.had), unit.start);
    let (innermost, outer) = place.open.split_last().expect("an open unit");
    format!(
        " CDF_BUILD_PLACE_WRITTEN={} CDF_BUILD_PLACE_COUNT={} CDF_BUILD_PLACE_INNERMOST={} CDF_BUILD_PLACE_OUTER={}",
        place.written,
        place.open.len(),
        unit(innermost),
        outer.iter().map(unit).collect::<String>(),
    )
}
