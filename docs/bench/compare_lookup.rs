//! That the proved lookup gives plain Rust's answers.

use crate::archive::{Archive, Found, Now, Question};
use crate::cases::question;
use crate::compare::{list, read, Expected};
use crate::plain::{INLINED, OUT_OF_LINE};
use crate::plain_lookup::lookup;
use crate::random::Random;
use crate::rules::Unit;
use crate::samples::samples;
use crate::streams::{damaged, one_field_more, unit, Set};

/// A stream with what plain Rust says of it.
struct Stream {
    bytes: Vec<u8>,
    expected: Expected,
}

impl Stream {
    fn new(bytes: Vec<u8>) -> Stream {
        Stream { expected: read(&bytes), bytes }
    }

    /// By the units that the plain reader hands out: start and length of the value.
    fn value(&self, question: &Question) -> Option<(usize, usize)> {
        let units = &self.expected.units;
        let named = |unit: &Unit, id, name: &[u8]| unit.id == id && self.bytes[unit.start + 6..unit.own] == *name;
        let is_key =
            |unit: &Unit| unit.id as u64 == question.key_id && self.bytes[unit.start + 6..unit.end] == *question.key;
        let at = units.windows(2).position(|pair| named(&pair[0], 5, question.template) && is_key(&pair[1]))?;
        let mut nested = units[at + 1..].iter().take_while(|unit| unit.start < units[at].end);
        let field = nested.find(|unit| named(unit, 8, question.field))?;
        Some((field.own, field.end - field.own))
    }

    /// Some template with a key of it, the first or another, and one of its fields, or of the next template's.
    fn some_units(&self, random: &mut Random) -> Option<[Unit; 3]> {
        let units = &self.expected.units;
        let of = |id: u8| (0..units.len()).filter(|at| units[*at].id == id).collect::<Vec<_>>();
        let (templates, fields) = (of(5), of(8));
        if templates.is_empty() || fields.is_empty() {
            return None;
        }
        let template = random.pick(&templates);
        let key = if random.below(8) == 0 { random.pick(&templates) } else { template } + 1;
        let next = fields.partition_point(|field| *field < template);
        let field = fields[(next + random.below(4)).min(fields.len() - 1)];
        Some([units[template], units[key], units[field]])
    }
}

/// What request d of document 02 says.
fn expected(first: &Stream, second: &Stream, question: &Question) -> (u64, Found) {
    for stream in [first, second] {
        let (number, offset) = stream.expected.check();
        if number != 0 {
            return (number, [offset, 0, 0, 0]);
        }
    }
    if first.expected.units[0].id != 4 || second.expected.units[0].id != 4 {
        return (7, [0; 4]);
    }
    let of = |stream: &Stream, which| stream.value(question).map(|value| (which, value));
    match of(first, 1).or_else(|| of(second, 2)) {
        Some((which, (start, length))) => (0, [0, which, start as u64, length as u64]),
        None => (15, [0; 4]),
    }
}

fn assert_archive<A: Archive>(label: &str, [first, second]: [&Stream; 2], question: &Question, expected: (u64, Found)) {
    let mut answer = [u64::MAX; 4];
    let number = A::lookup(&first.bytes, &second.bytes, question, &mut answer);
    assert_eq!((number, answer), expected, "{}cdf_lookup on {label}, {question:?}", A::NAME);
}

/// How often the lookup gave each number, how often the first and the second stream were refused, from which stream the
/// values came (0: no value), and how many were empty.
struct Met {
    numbers: [usize; 16],
    refused: [usize; 3],
    which: [usize; 3],
    empty: usize,
}

impl Met {
    fn compare(&mut self, label: &str, streams: [&Stream; 2], question: &Question) -> (u64, Found) {
        let expected = expected(streams[0], streams[1], question);
        for lookup in [lookup::<INLINED>, lookup::<OUT_OF_LINE>] {
            let mut answer = [u64::MAX; 4];
            let number = lookup(&streams[0].bytes, &streams[1].bytes, question, &mut answer);
            assert_eq!((number, answer), expected, "plain lookup on {label}, {question:?}");
        }
        assert_archive::<Now>(label, streams, question, expected);
        #[cfg(before)]
        assert_archive::<crate::archive::Before>(label, streams, question, expected);
        let (number, [_, which, _, length]) = expected;
        self.numbers[number as usize] += 1;
        self.which[which as usize] += 1;
        let refused = streams.iter().position(|stream| stream.expected.check().0 != 0);
        self.refused[refused.map_or(0, |at| at + 1)] += 1;
        self.empty += usize::from(number == 0 && length == 0);
        expected
    }

    /// The question, and others that differ from it a little, to both orders of the streams.
    fn compare_around(&mut self, label: &str, [one, other]: [&Stream; 2], question: &Question, random: &mut Random) {
        let mut key = question.key.to_vec();
        if !key.is_empty() {
            let at = random.below(key.len());
            key[at] ^= 1 << random.below(8);
        }
        let name: &[u8] = random.pick(&[b"", b"\x00", b"\x07", b"\x05TITLE", b"\x0BMAIDEN_NAME", b"\x06person"]);
        let changed = match random.below(7) {
            0 => Question { key_id: 13 - question.key_id, ..*question },
            1 => Question { key_id: question.key_id + (1 << random.pick(&[0, 8, 32, 63])), ..*question },
            2 => Question { key: &key, ..*question },
            3 => Question { key: &question.key[..question.key.len().saturating_sub(1)], ..*question },
            4 => Question { template: name, ..*question },
            5 => Question { template: &question.template[..question.template.len() - 1], ..*question },
            _ => Question { field: &question.field[..question.field.len() - 1], ..*question },
        };
        let missed = Question { field: name, ..*question };
        for question in [question, &changed, &missed] {
            self.compare(label, [one, other], question);
            self.compare(label, [other, one], question);
        }
    }
}

const SURNAME: Question =
    Question { template: b"\x06PERSON", key_id: 6, key: b"\x00\x00\x00\x01", field: b"\x07SURNAME" };

/// Every two of K1 to K12: only K2 is an E/R group.
fn compare_samples(met: &mut Met) {
    let samples = samples().map(|sample| (sample.name, sample.answer, Stream::new(sample.bytes)));
    for (one, one_answer, first) in &samples {
        for (other, other_answer, second) in &samples {
            let said = match (one_answer, other_answer) {
                ((0, _), (0, _)) if *one == "K2" && *other == "K2" => (0, [0, 1, 43, 3]),
                ((0, _), (0, _)) => (7, [0; 4]),
                ((0, _), (number, offset)) | ((number, offset), _) => (*number, [*offset, 0, 0, 0]),
            };
            let label = format!("{one} and {other}");
            assert_eq!(met.compare(&label, [first, second], &SURNAME), said, "request d on {label}");
            let missed = Question { field: b"\x05GIVEN", ..SURNAME };
            let said = if said.0 == 0 { (15, [0; 4]) } else { said };
            assert_eq!(met.compare(&label, [first, second], &missed), said, "request d on {label}, missed");
        }
    }
}

/// Pairs of small groups, each with what request d says of `SURNAME`, written down by hand.
fn compare_small(met: &mut Met) {
    let key = |id, bytes: &[u8]| unit(id, 0, bytes, &[]);
    let field = |name: &[u8], value: &[u8]| unit(8, 1, &[name, value].concat(), &[]);
    let person = |nested: &[Vec<u8>]| unit(5, 1, b"\x06PERSON", &nested.concat());
    let group = |nested: &[Vec<u8>]| Stream::new(unit(4, 0, &[], &nested.concat()));
    let (right, wrong) = (key(6, b"\x00\x00\x00\x01"), key(6, b"\x00\x00\x00\x02"));
    let (surname, given) = (field(b"\x07SURNAME", b"Berg"), field(b"\x05GIVEN", b"Ada"));
    // Behind a key of 10 bytes the first field begins at 29 and, if it is a surname, its value at 43.
    let found = group(&[person(&[right.clone(), surname.clone()])]);
    let none = group(&[person(&[wrong.clone(), surname.clone()])]);
    let fieldless = group(&[person(&[right.clone()])]);
    let empty = group(&[person(&[right.clone(), field(b"\x07SURNAME", b""), surname.clone()])]);
    let later = group(&[person(&[right.clone(), given.clone(), surname.clone(), surname.clone()])]);
    let doubled = group(&[person(&[right.clone()]), person(&[right.clone(), surname.clone()])]);
    let behind = group(&[person(&[wrong]), person(&[right, surname.clone()])]);
    let value_key = |bytes: &[u8]| group(&[person(&[key(7, bytes), key(7, b"\x00\x00\x00\x01"), surname.clone()])]);
    let (same_bytes, no_bytes) = (value_key(b"\x00\x00\x00\x01"), value_key(b""));
    let template_key = Question { key_id: 7, ..SURNAME };
    let empty_key = Question { key: b"", ..template_key };
    let rows: [(&str, [&Stream; 2], Question, (u64, Found)); 16] = [
        ("the value in both", [&found, &later], SURNAME, (0, [0, 1, 43, 4])),
        ("another field before", [&later, &found], SURNAME, (0, [0, 1, 58, 4])),
        ("another key in the first", [&none, &found], SURNAME, (0, [0, 2, 43, 4])),
        ("no field in the first", [&fieldless, &found], SURNAME, (0, [0, 2, 43, 4])),
        ("an empty value in the first", [&empty, &found], SURNAME, (0, [0, 1, 43, 0])),
        ("an empty value in the second", [&none, &empty], SURNAME, (0, [0, 2, 43, 0])),
        ("the field in a second such template", [&doubled, &found], SURNAME, (0, [0, 2, 43, 4])),
        ("the same in both", [&doubled, &doubled], SURNAME, (15, [0; 4])),
        ("behind a template of another key", [&behind, &found], SURNAME, (0, [0, 1, 66, 4])),
        ("neither", [&none, &fieldless], SURNAME, (15, [0; 4])),
        ("the bytes as a template key", [&same_bytes, &same_bytes], SURNAME, (15, [0; 4])),
        ("a template key", [&found, &same_bytes], template_key, (0, [0, 2, 53, 4])),
        ("the second of its keys", [&no_bytes, &found], template_key, (15, [0; 4])),
        ("an empty key", [&same_bytes, &no_bytes], empty_key, (0, [0, 2, 49, 4])),
        ("an empty temporary key", [&found, &no_bytes], Question { key_id: 6, ..empty_key }, (15, [0; 4])),
        ("a template's name cut", [&found, &found], Question { template: b"\x06PERSO", ..SURNAME }, (15, [0; 4])),
    ];
    for (label, streams, question, said) in rows {
        assert_eq!(met.compare(label, streams, &question), said, "request d: {label}");
        met.compare(&format!("{label}, the other way round"), [streams[1], streams[0]], &question);
    }
}

/// Samples, streams and damaged streams.
pub fn assert_equal(sets: &[Set]) {
    const DAMAGED: usize = 150;
    let mut met = Met { numbers: [0; 16], refused: [0; 3], which: [0; 3], empty: 0 };
    compare_samples(&mut met);
    compare_small(&mut met);
    let k2 = samples().into_iter().find(|sample| sample.name == "K2").expect("K2 is a sample");
    let k2 = &Stream::new(k2.bytes);
    for set in sets {
        let random = &mut Random::new(set.size as u64 + 1);
        let streams: Vec<Stream> = set.cases.iter().map(|case| Stream::new(case.stream.clone())).collect();
        let label = |at: usize| format!("{} of {} bytes, {at}", set.name, set.size);
        for (at, (case, stream)) in set.cases.iter().zip(&streams).enumerate() {
            met.compare_around(&format!("{} and K2", label(at)), [stream, k2], &SURNAME, random);
            if let Some(asked) = &case.asked {
                let timed = &asked.last;
                let second = Stream::new(timed.stream.clone());
                let (number, found) = met.compare(&label(at), [stream, &second], &timed.question());
                let last = second.expected.units[second.expected.units.len() - 1];
                let value = [0, 2, last.own as u64, 6];
                assert_eq!((number, found), (0, value), "the timed value stands last in the second, {}", label(at));
                met.compare_around(&format!("{}, timed", label(at)), [stream, &second], &timed.question(), random);
                let said = met.compare(&label(at), [stream, stream], &timed.question());
                assert_eq!(said, (15, [0; 4]), "neither has the timed value, {}", label(at));
                for (holder, from) in [(&asked.early, 0), (&asked.middle, stream.bytes.len() / 2)] {
                    let label = format!("{}, timed from {from} on", label(at));
                    let first = Stream::new(holder.stream.clone());
                    let (number, [_, which, start, length]) = met.compare(&label, [&first, stream], &holder.question());
                    assert_eq!((number, which, length), (0, 1, 6), "the timed value is the first stream's, {label}");
                    assert!((from as u64..from as u64 + 120).contains(&start), "it stands there, {label}");
                    met.compare_around(&label, [&first, stream], &holder.question(), random);
                }
                let units = &stream.expected.units;
                let empty = Stream::new(one_field_more(&case.stream, units, &units[units.len() - 1], b""));
                met.compare_around(&format!("{}, empty", label(at)), [stream, &empty], &timed.question(), random);
            }
        }
        for round in 0..DAMAGED {
            let at = round % streams.len();
            let (stream, other) = (&streams[at], &streams[random.below(streams.len())]);
            let damaged = Stream::new(damaged(&stream.bytes, &stream.expected.units, random));
            let units = stream.some_units(random);
            let question = units.map_or(SURNAME, |units| question(&stream.bytes, &units));
            met.compare_around(&format!("{}, damage {round}", label(at)), [&damaged, stream], &question, random);
            met.compare_around(&format!("{}, pair {round}", label(at)), [stream, other], &question, random);
        }
    }
    println!("equal lookups in pairs of these");
    println!("  the numbers: {}", list(&met.numbers, &[0, 3, 4, 5, 6, 7, 8, 9, 10, 15]));
    println!("  the refused streams: {}", list(&met.refused, &[1, 2]));
    println!("  the values by stream: {}; empty: {}", list(&met.which, &[1, 2]), met.empty);
}
