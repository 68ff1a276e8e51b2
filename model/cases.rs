//! The stored cases of the check: each a label and bytes, and how the bytes are written.

use crate::named::named;
use crate::rules::{is_root, kind, MARK};
use crate::samples::{changed, samples, K1, K2};

pub type Case = (String, Vec<u8>);

/// A name and a number.
pub const A: &[u8] = b"\x01A";
pub const N: &[u8] = b"\x00\x00\x00\x07";

/// A unit with these bytes after its prefix; the length is written modulo 65,536.
pub fn unit_with(id: u8, action: u8, parts: &[&[u8]]) -> Vec<u8> {
    let data = parts.concat();
    let length = 6 + data.len();
    let prefix = [MARK[0], MARK[1], (length / 256) as u8, length as u8, action, id];
    [&prefix, &data[..]].concat()
}

/// The same with the first action that the id allows.
pub fn unit(id: u8, parts: &[&[u8]]) -> Vec<u8> {
    unit_with(id, kind(u64::from(id)).unwrap().actions[0] as u8, parts)
}

/// Own data that is right for an id.
pub fn own(id: u8) -> &'static [u8] {
    match id {
        2 | 3 | 5 | 8 | 11 => A,
        6 | 9 | 12 => N,
        10 => b"\x00\x00\x00\x07\x00\x00\x00\x07",
        _ => b"",
    }
}

/// A complete unit of an id.
pub fn complete(id: u8) -> Vec<u8> {
    let needed: &[u8] = match id {
        1 => &[2],
        4 => &[5],
        5 | 11 => &[6],
        9 | 10 => &[12, 12],
        13 => &[14],
        _ => &[],
    };
    let nested: Vec<u8> = needed.iter().flat_map(|id| complete(*id)).collect();
    unit(id, &[own(id), &nested])
}

/// What a unit may have had, for each that admits others: its id, then the nested ids.
pub const STATES: [&[u8]; 28] = [
    &[1],
    &[1, 2],
    &[1, 2, 4],
    &[1, 2, 13],
    &[2],
    &[2, 3],
    &[4],
    &[4, 5],
    &[4, 9],
    &[4, 10],
    &[5],
    &[5, 6],
    &[5, 7],
    &[5, 6, 8],
    &[5, 7, 8],
    &[9],
    &[9, 11],
    &[9, 12],
    &[9, 12, 11],
    &[10],
    &[10, 11],
    &[10, 12],
    &[10, 11, 11],
    &[11],
    &[11, 6],
    &[11, 7],
    &[13],
    &[13, 14],
];

/// A stream that has a unit in this state, with more bytes after what it has had.
pub fn nested(state: &[u8], more: &[u8]) -> Vec<u8> {
    let had: Vec<u8> = state[1..].iter().flat_map(|id| complete(*id)).collect();
    let inner = unit(state[0], &[own(state[0]), &had, more]);
    match state[0] {
        11 => unit(4, &[&unit(9, &[N, &inner, &complete(12)])]),
        2 => unit(1, &[&inner]),
        id if is_root(u64::from(id)) => inner,
        _ => unit(4, &[&inner]),
    }
}

/// A state in which the id is admitted.
pub fn home(id: u8) -> &'static [u8] {
    match id {
        2 => &[1],
        3 => &[2],
        6 | 7 => &[5],
        8 => &[5, 6],
        11 | 12 => &[9, 12],
        14 => &[13],
        _ => &[4],
    }
}

/// A stream that has the unit where its id is admitted.
fn at_home(unit: &[u8]) -> Vec<u8> {
    match unit[5] {
        id if is_root(u64::from(id)) => unit.to_vec(),
        id => nested(home(id), unit),
    }
}

/// A state as labels have it.
pub fn joined(state: &[u8]) -> String {
    state.iter().map(u8::to_string).collect::<Vec<_>>().join("-")
}

fn of_states(cases: &mut Vec<Case>) {
    for state in STATES {
        for id in 1..=14 {
            let label = format!("nested.{}-{id}", joined(state));
            cases.push((label, nested(state, &complete(id))));
        }
        cases.push((format!("left.{}", joined(state)), nested(state, &complete(14)[..5])));
    }
    for id in 1..=14 {
        cases.push((format!("root.{id}"), complete(id)));
        for action in [0, 1, 2, 3, 4, 5, 255] {
            let changed = changed(&complete(id), 4, &[action]);
            cases.push((format!("action.{id}.{action}"), at_home(&changed)));
        }
    }
    for id in [0, 15, 255] {
        let unknown = unit_with(id, 9, &[]);
        cases.push((format!("unknown.{id}"), unknown.clone()));
        let inside = unit(13, &[&complete(14), &unknown]);
        cases.push((format!("unknown-inside.{id}"), inside));
    }
}

fn of_own_data(cases: &mut Vec<Case>) {
    for id in [2, 3, 5, 8, 11] {
        cases.push((format!("name.{id}.none"), at_home(&unit(id, &[]))));
        for count in [0, 1, 32, 33] {
            let rest = if matches!(id, 5 | 11) { complete(6) } else { vec![] };
            let name = vec![b'Z'; usize::from(count)];
            let whole = unit(id, &[&[count], &name, &rest]);
            cases.push((format!("name.{id}.{count}"), at_home(&whole)));
        }
    }
    for byte in *b"\x00/09:@AZ[^_`az\xC1\xFF" {
        let call = |name: &[u8]| unit(1, &[&unit(2, &[name])]);
        cases.push((format!("name-first.{byte}"), call(&[1, byte])));
        cases.push((format!("name-second.{byte}"), call(&[2, b'A', byte])));
    }
    for id in [3, 7, 8, 14] {
        for size in [0, 1, 4096, 4097] {
            let name = if matches!(id, 3 | 8) { A } else { b"" };
            let whole = unit(id, &[name, &vec![b'x'; size]]);
            cases.push((format!("value.{id}.{size}"), at_home(&whole)));
        }
    }
    for id in [6, 9, 10, 12] {
        for size in [0, 3, 4, 5, 7, 8, 9] {
            let whole = unit(id, &[&vec![0xFF; size]]);
            cases.push((format!("number.{id}.{size}"), at_home(&whole)));
        }
    }
}

pub fn cases() -> Vec<Case> {
    let mut cases: Vec<Case> =
        samples().iter().map(|(label, bytes, _)| (label.to_lowercase(), bytes.clone())).collect();
    cases.extend(named().into_iter().map(|(label, bytes)| (label.to_string(), bytes)));
    for offset in 0..K2.len() {
        for value in [0, 1, 5, 0x0D, 0x41, 0xCD, 0xFF] {
            cases.push((format!("k2.{offset}.{value}"), changed(K2, offset, &[value])));
        }
    }
    for count in 0..K2.len() {
        // The front of K2, the lengths of group and template fitted to it.
        let mut front = changed(K2, 3, &[count as u8])[..count].to_vec();
        if count > 11 {
            front[9] = count as u8 - 6;
        }
        cases.push((format!("cut.{count}"), front));
    }
    of_states(&mut cases);
    for (label, bytes, offset) in [("root", K1, 2), ("line", K1, 8), ("key", K2, 21), ("field", K2, 31)] {
        for length in [0_u16, 5, 6, 9, 10, 11, 16, 17, 18, 27, 28, 4096, 65_535] {
            let changed = changed(bytes, offset, &length.to_be_bytes());
            cases.push((format!("length.{label}.{length}"), changed));
        }
    }
    of_own_data(&mut cases);
    cases
}

/// The bytes in hexadecimal; *DDDDCCCC is CCCC bytes, each like the one DDDD before it.
pub fn written(bytes: &[u8]) -> String {
    let hex = |bytes: &[u8]| bytes.iter().map(|byte| format!("{byte:02X}")).collect::<String>();
    for start in 0..bytes.len() {
        for width in [1, 6, 4102] {
            let rest = &bytes[start..];
            let alike = (width..rest.len()).take_while(|at| rest[*at] == rest[at - width]).count();
            let more = alike / width * width;
            if more >= 10 * width {
                let once = written(&rest[..width]);
                let after = written(&rest[width + more..]);
                return format!("{}{once}*{width:04X}{more:04X}{after}", hex(&bytes[..start]));
            }
        }
    }
    hex(bytes)
}
