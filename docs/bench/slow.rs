//! What a rescue costs by its bytes: of groups as they come, and of bytes that are made to be slow.

use crate::archive::{Archive, Now, Rescued};
use crate::plain::INLINED;
use crate::plain_rescue::rescue;
use crate::rounds::{heading, row};
use crate::streams::unit;
use std::hint::black_box;
use std::time::{Duration, Instant};

/// The best time of a few runs, in nanoseconds a byte; one run where it takes long.
fn cost(bytes: usize, mut run: impl FnMut()) -> f64 {
    let (began, mut best) = (Instant::now(), Duration::MAX);
    loop {
        let begin = Instant::now();
        run();
        best = best.min(begin.elapsed());
        if began.elapsed() > Duration::from_millis(300) {
            return best.as_nanos() as f64 / bytes as f64;
        }
    }
}

/// The number, the runs, and the costs of proved and plain rescue.
fn costs(bytes: &[u8]) -> (u64, u64, [f64; 2]) {
    let (mut buffer, mut other) = (vec![0; 65_535], vec![0; 65_535]);
    let (mut answer, mut plain): (Rescued, Rescued) = ([0; 130], [0; 130]);
    let number = Now::rescue(bytes, &mut buffer, &mut answer);
    assert_eq!((number, &answer), (rescue::<INLINED>(bytes, &mut other, &mut plain), &plain), "{} bytes", bytes.len());
    assert!(buffer == other, "the group of {} bytes", bytes.len());
    let proved = cost(bytes.len(), || {
        black_box(Now::rescue(black_box(bytes), &mut buffer, &mut answer));
    });
    let plain = cost(bytes.len(), || {
        black_box(rescue::<INLINED>(black_box(bytes), &mut other, &mut plain));
    });
    (number, answer[1], [proved, plain])
}

/// A group of about so many bytes: templates of some 20 bytes with a key alone.
fn group(size: usize) -> Vec<u8> {
    let people = (0..).map(|key: u32| unit(5, 1, b"\x04NAME", &unit(6, 0, &key.to_be_bytes(), &[])));
    unit(4, 0, &[], &people.take(size / 21).collect::<Vec<_>>().concat())
}

/// Template keys of which each has the front of a template as its value, one that claims the rest; then empty keys, and a broken one.
/// Every fourteenth byte is a try, and each walks to the end. Of each 65,535 bytes 636 in a thousand are of the first.
pub fn slow(size: usize) -> Vec<u8> {
    let mut bytes = vec![0; 6];
    while bytes.len() + 14 < size {
        let at = bytes.len();
        if (at % 65_535) * 1000 < 65_535.min(size) * 636 {
            let claimed = (size - (at + 6)).min(65_535) as u16;
            let [high, low] = claimed.to_be_bytes();
            bytes.extend(unit(7, 0, &[0xCD, 0xF1, high, low, 1, 5, 1, b'A'], &[]));
        } else {
            bytes.extend(unit(7, 0, &[], &[]));
        }
    }
    bytes.resize(size, 0);
    bytes
}

pub fn tables() {
    println!("\nrescue of groups as they come; nanoseconds a byte, best times\n");
    let columns = ["number", "runs", "cdf_rescue", "plain Rust", "cdf_rescue by cdf_check"].map(str::to_string);
    println!("{}", heading(["bytes", "what"], &columns));
    for size in [1_000, 4_000, 16_000, 60_000] {
        let whole = group(size);
        let mut answer = [0];
        let check = cost(whole.len(), || {
            black_box(Now::check(black_box(&whole), &mut answer));
        });
        // In every hundredth template, or of a short group in the middle one, the fourteenth byte.
        let starts: Vec<usize> = (6..whole.len()).step_by(21).collect();
        let broken: Vec<usize> =
            starts.iter().skip(starts.len().min(100) / 2).step_by(100).map(|start| start + 13).collect();
        let lost = whole.iter().enumerate().filter(|(at, _)| !broken.contains(at)).map(|(_, byte)| *byte).collect();
        for (what, bytes) in [
            ("a whole group", whole.clone()),
            ("a byte lost in every hundredth unit", lost),
            ("no unit", vec![7; size]),
        ] {
            let (number, runs, [proved, plain]) = costs(&bytes);
            let cells = [format!("{proved:.2}"), format!("{plain:.2}"), format!("{:.2}", proved / check)];
            println!(
                "{}",
                row(&[&[bytes.len().to_string(), what.to_string(), number.to_string(), runs.to_string()][..], &cells]
                    .concat())
            );
        }
    }
    println!("\nrescue of bytes that are made to be slow\n");
    println!(
        "{}",
        heading(["bytes", "number"], &["cdf_rescue, s", "plain Rust, s", "cdf_rescue, ns a byte"].map(str::to_string))
    );
    for size in [8_000, 16_000, 32_000, 65_535, 262_144, 1_048_576] {
        let bytes = slow(size);
        let (number, _, [proved, plain]) = costs(&bytes);
        let seconds = |cost: f64| format!("{:.3}", cost * size as f64 / 1e9);
        println!(
            "{}",
            row(&[size.to_string(), number.to_string(), seconds(proved), seconds(plain), format!("{proved:.0}")])
        );
    }
}
