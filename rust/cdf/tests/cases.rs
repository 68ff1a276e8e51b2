//! The stored cases of check and builder, whose answers are the model's: through this crate they are the same.

use std::fs;

use cdf::{Action, Builder, Id, Reader, Root};

fn stored(name: &str) -> String {
    fs::read_to_string(format!("{}/../../crates/{name}", env!("CARGO_MANIFEST_DIR"))).unwrap()
}

fn number_at(digits: &str, base: u32) -> usize {
    usize::from_str_radix(digits, base).unwrap()
}

/// Hexadecimal digits; *DDDDCCCC repeats the last DDDD bytes CCCC times.
fn check_bytes(text: &str) -> Vec<u8> {
    let (mut bytes, mut at) = (Vec::new(), 0);
    while at < text.len() {
        if text[at..].starts_with('*') {
            let (distance, count) = (number_at(&text[at + 1..at + 5], 16), number_at(&text[at + 5..at + 9], 16));
            for _ in 0..count {
                bytes.push(bytes[bytes.len() - distance]);
            }
            at += 9;
        } else {
            bytes.push(number_at(&text[at..at + 2], 16) as u8);
            at += 2;
        }
    }
    bytes
}

/// Hexadecimal digits; *CCCCBB is CCCC bytes, each BB.
fn build_bytes(text: &str) -> Vec<u8> {
    let (mut bytes, mut at) = (Vec::new(), 0);
    while at < text.len() {
        if text[at..].starts_with('*') {
            let byte = number_at(&text[at + 5..at + 7], 16) as u8;
            bytes.extend(vec![byte; number_at(&text[at + 1..at + 5], 16)]);
            at += 7;
        } else {
            bytes.push(number_at(&text[at..at + 2], 16) as u8);
            at += 2;
        }
    }
    bytes
}

#[test]
fn the_checks_cases() {
    let (inputs, answers) = (stored("cdf_check_cases/stdin"), stored("cdf_check_cases/stdout"));
    assert_eq!(inputs.lines().count(), answers.lines().count());
    for (input, answer) in inputs.lines().zip(answers.lines()) {
        let (label, digits) = input.split_once(':').unwrap();
        let stream = check_bytes(digits);
        let said = cdf::check(&stream);
        let numbers = match said {
            Ok(units) => (0, units),
            Err(refusal) => (refusal.number, refusal.offset.unwrap()),
        };
        assert_eq!(format!("{label} {} {}", numbers.0, numbers.1), answer);
        // The others tell the same of these bytes.
        let read: Vec<_> = Reader::new(&stream).collect();
        let last = cdf::listing(&stream);
        let last = last.lines().last().unwrap();
        match said {
            Ok(units) => {
                assert_eq!(read.iter().filter(|unit| unit.is_ok()).count(), units, "{label}");
                assert_eq!((read.len(), last), (units, &format!("ok {units}")[..]), "{label}");
                assert_eq!(cdf::explain(&stream), None);
            }
            Err(refusal) => {
                assert_eq!(read.last(), Some(&Err(refusal)), "{label}");
                assert_eq!(last, format!("refused {} at {}", numbers.0, numbers.1), "{label}");
                let why = cdf::explain(&stream).unwrap();
                assert_eq!(why.refusal, refusal, "{label}");
                // The open units are among those that were read.
                let open = |unit: &cdf::OpenUnit| read.iter().flatten().any(|read| (read.id(), read.start()) == (unit.id, unit.start));
                assert!(why.open.iter().all(open), "{label}");
            }
        }
    }
}

/// One case's words, the bytes written and how many; `None` where the crate's types leave no room for a call.
fn built(size: usize, steps: &[&str]) -> Option<(String, Vec<u8>)> {
    let mut buffer = vec![0; size];
    let mut words = Vec::new();
    let (first, others) = steps.split_first()?;
    let root = match *first {
        "S1" => Root::Stream,
        "S4" => Root::ErGroup,
        "S13" => Root::FileGroup,
        _ => return None,
    };
    let mut builder = Builder::new(&mut buffer, root).ok()?;
    words.push("S0".to_string());
    let mut stream = Vec::new();
    for step in others {
        let said = match step.split_at(1) {
            ("N", request) => {
                let mut parts = request.splitn(3, ' ');
                let id = Id::from_number(parts.next()?.parse().ok()?)?;
                let action = Action::from_number(parts.next()?.parse().ok()?)?;
                builder.add(id, action, &build_bytes(parts.next()?)).map(|_| ())
            }
            ("A", group) => builder.add_stream(&build_bytes(group)).map(|_| ()),
            ("F", _) => {
                let made = builder.finish();
                words.push(format!("F{} L{}", made.map_or_else(|refusal| refusal.number, |_| 0), made.map_or(0, <[u8]>::len)));
                stream = made.map_or(Vec::new(), <[u8]>::to_vec);
                continue;
            }
            _ => return None,
        };
        words.push(format!("{}{}", &step[..1], said.map_or_else(|refusal| refusal.number, |_| 0)));
    }
    words.push(format!("P{}", builder.written()));
    Some((words.join(" "), stream))
}

#[test]
fn the_builders_cases() {
    let (inputs, answers) = (stored("cdf_builder_cases/stdin"), stored("cdf_builder_cases/stdout"));
    let (mut run, mut left) = (0, 0);
    for (case, answer) in inputs.split("\n.\n").filter(|case| !case.is_empty()).zip(answers.lines()) {
        let lines: Vec<&str> = case.lines().collect();
        let (label, size) = lines[0].rsplit_once(' ').unwrap();
        let Some((words, stream)) = built(size.parse().unwrap(), &lines[1..]) else {
            left += 1;
            continue;
        };
        run += 1;
        assert!(answer.starts_with(&format!("{label} {words} ")), "{label}: {words}, and due is {answer}");
        if !stream.is_empty() && stream.len() <= 1024 && lines.last() == Some(&"F") {
            let digits: String = stream.iter().map(|byte| format!("{byte:02x}")).collect();
            assert!(answer.contains(&format!(" {digits}")), "{label}");
        }
    }
    assert_eq!(run + left, answers.lines().count());
    assert!(run >= 50, "{run} of {}", run + left);
}
