//! Compares the reader that is driven by a table: each call with the model's answer and with the first reader's, whole runs by their
//! logs, and hand-made places.

use crate::functions::Function;
use crate::readers::{hex, BEYOND};
use crate::tally::Tally;
use crate::{archive, places};
use cdf_model::numbers::{self, reader_place, ReaderNumbers, CODES, ENTRY};
use cdf_model::random::Random;
use cdf_model::reader::Call;
use cdf_model::rules::Had;
use cdf_model::table;

fn function(call: Call) -> Function {
    match call {
        Call::First => Function::TableFirst,
        Call::Next => Function::TableNext,
        _ => Function::TableSkip,
    }
}

/// Whether two places say the same: by what their counts reach beside 0, and else by every number.
fn same(number: u64, one: &ReaderNumbers, other: &ReaderNumbers) -> bool {
    match number {
        0 => reader_place(one) == reader_place(other) && one[19] == other[19],
        _ => one == other,
    }
}

/// One call of the table reader, of the first reader and of the model, all on this place. It is then the table reader's.
pub fn compare_call(tally: &mut Tally, call: Call, stream: &[u8], place: &mut ReaderNumbers) -> u64 {
    let (before, mut first_place) = (*place, *place);
    let (number, answer) = archive::table(call, stream, place);
    let first = archive::reader(call, stream, &mut first_place);
    let owed = table::call(call, stream, &reader_place(&before));
    let owed_place = match (call, owed.reply.number) {
        (Call::First, _) | (_, 0) => numbers::of_reader_place(&owed.reply.place),
        _ => before,
    };
    let owed_said = (owed.reply.number, numbers::answer(&owed.reply));
    let answers = (number, answer) == owed_said && (number, answer) == first;
    if !answers || !same(number, place, &owed_place) || !same(number, place, &first_place) {
        let given = format!("place {before:?}, stream {}", hex(stream));
        let one = format!("{number} {answer:?}, place {place:?}");
        let other = format!("{owed_said:?}, place {owed_place:?}; the first reader {first:?}, place {first_place:?}");
        tally.differ(&format!("{call:?} of the table reader"), &given, &one, &other);
    }
    tally.met(function(call), number);
    if let Some((row, id)) = owed.asked {
        tally.looks.met(row, id, number == 7);
    }
    number
}

/// By row and id of the table: how often the entry was looked at.
#[derive(Default)]
pub struct Looks([[u64; 15]; 31]);

impl Looks {
    /// An entry is one that refuses, or one that admits.
    fn met(&mut self, row: u64, id: u64, refused: bool) {
        assert_eq!(refused, table::table().next[row as usize][id as usize] == 0);
        self.0[row as usize][id as usize] += 1;
    }

    /// Prints how often each entry that admits was looked at, and those of a row that refuse, together. False if one never was.
    pub fn report(&self) -> bool {
        let mut good = true;
        println!("looks into the table, by row: each id that is admitted, and all others");
        for (row, (next, looks)) in table::table().next.iter().zip(&self.0).enumerate() {
            let admits: Vec<usize> = (1..=14).filter(|id| next[*id] != 0).collect();
            let others: u64 = (1..=14).filter(|id| next[*id] == 0).map(|id| looks[id]).sum();
            let words: Vec<String> = admits.iter().map(|id| format!("{id}: {}", looks[*id])).collect();
            println!("{row:>12} {}", [&words[..], &[format!("others: {others}")]].concat().join(", "));
            if others == 0 || admits.iter().any(|id| looks[*id] == 0) {
                println!("FAILED: not met");
                good = false;
            }
        }
        good
    }
}

/// Codes of starts, NEXTs and SKIPs, mostly begun by a start.
fn call_list(stream: &[u8], random: &mut Random) -> Vec<u8> {
    let length = random.between(1, (stream.len() / 12).min(60) + 6);
    let mut codes: Vec<u8> = (0..length).map(|_| random.pick(&[1, 2, 2, 2, 2, 2, 2, 2, 2, 2, 2, 2, 3, 3, 3])).collect();
    if !random.one_in(10) {
        codes[0] = 1;
    }
    // Starts in the middle are rare, or little would be read to its end.
    for code in &mut codes[1..] {
        if *code == 1 && !random.one_in(3) {
            *code = 2;
        }
    }
    codes
}

/// Runs the list call by call, and gives the places that were met.
fn compare_list(tally: &mut Tally, stream: &[u8], codes: &[u8]) -> Vec<ReaderNumbers> {
    let mut place = [0; 25];
    let mut met = vec![place];
    for code in codes {
        compare_call(tally, CODES[usize::from(*code) - 1], stream, &mut place);
        met.push(place);
    }
    tally.count("lists of calls of the table reader");
    met
}

/// The log against the model's, and against that of `cdf_replay` for the same codes. Each code but 1 to 3 ends a run of the table
/// reader, as one that is none ends a run of the first.
fn compare_replay(tally: &mut Tally, stream: &[u8], codes: &[u8], random: &mut Random) {
    let mut codes = codes.to_vec();
    if random.one_in(4) {
        let at = random.below(codes.len() + 1);
        codes.insert(at, random.pick(&[0, 4, 4, 5, 5, 6, 255, 128 + 2]));
    }
    let room = match random.below(12) {
        0 => ENTRY * codes.len() - 1,
        1 => random.below(ENTRY * codes.len() + 1),
        2 => ENTRY * codes.len() + random.below(30),
        _ => ENTRY * codes.len(),
    };
    let unwritten = vec![7_777_777; room + BEYOND];
    let (mut log, mut owed_log, mut first_log) = (unwritten.clone(), unwritten.clone(), unwritten);
    let said = archive::table_replay(stream, &codes, &mut log[..room]);
    let owed = numbers::table_replay(stream, &codes, &mut owed_log[..room]);
    let known: Vec<u8> = codes.iter().map(|code| if *code > 3 { 0 } else { *code }).collect();
    let first = archive::replay(stream, &known, &mut first_log[..room]);
    if said != owed || log != owed_log || said != first || log != first_log {
        let given = format!("room {room}, codes {codes:?}, stream {}", hex(stream));
        let other = format!("{owed:?} {owed_log:?}; the first reader {first:?} {first_log:?}");
        tally.differ("cdf_table_replay", &given, &format!("{said:?} {log:?}"), &other);
    }
    tally.met(Function::TableReplay, owed.0);
    if codes.contains(&4) || codes.contains(&5) {
        tally.count("runs of the table reader that GET_STREAM or PREVIOUS ends");
    }
}

fn compare_hand_made(tally: &mut Tally, stream: &[u8], met: &[ReaderNumbers], random: &mut Random) {
    let (_, mut made) = places::reader(met, stream.len() as u64, random);
    if random.one_in(8) {
        // Before a unit that is there, inside one that was skipped: its row refuses all.
        made = random.pick(met);
        (made[2], made[19]) = (numbers::state_number(numbers::state(made[2]).0, Had::Skipped), 0);
    }
    tally.count("hand-made places of the table reader");
    for call in [Call::Next, Call::Skip] {
        let mut place = made;
        if compare_call(tally, call, stream, &mut place) == 0 {
            // What follows from such a place is compared as well.
            compare_call(tally, random.pick(&CODES[1..3]), stream, &mut place);
            compare_call(tally, Call::Next, stream, &mut place);
        }
    }
}

pub fn compare(tally: &mut Tally, stream: &[u8]) {
    // Random numbers of its own, so that what is compared elsewhere stays what it was.
    let random = &mut Random::new(!tally.seed ^ tally.round.wrapping_mul(0xA24B_AED4_963E_E407));
    let codes = call_list(stream, random);
    let met = compare_list(tally, stream, &codes);
    compare_replay(tally, stream, &codes, random);
    for _ in 0..4 {
        compare_hand_made(tally, stream, &met, random);
    }
}
