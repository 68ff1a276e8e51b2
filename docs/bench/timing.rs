//! The times of the parts, and the tables of their ratios.

use crate::codes::{Part, Scratch};
use crate::rounds::{self, best, ratios, row};
use crate::streams::Set;
use std::hint::black_box;

/// How many codes of a part are plain Rust: inlined, and out of line.
const PLAIN: usize = 2;

/// The times of each code in each round.
fn time(part: &Part, set: &Set, rounds: usize) -> Vec<Vec<f64>> {
    let codes = &part.codes;
    let bytes = set.cases.iter().map(part.bytes).sum();
    let scratch = &mut Scratch::new();
    rounds::time(codes.len(), rounds, rounds::AGAIN, bytes, |code| {
        for case in &set.cases {
            black_box((codes[code].run)(black_box(case), black_box(&mut *scratch)));
        }
    })
}

fn heading(columns: &[String]) -> String {
    rounds::heading(["code", "stream"], columns)
}

/// The sets are those of all kinds, by size: `sizes` one after the other, each with all kinds in one order.
pub fn tables(parts: &[Part], sets: &[Set], sizes: &[usize], rounds: usize) {
    let kinds = sets.len() / sizes.len();
    let (mut to_plain, mut by, mut costs) = (Vec::new(), Vec::new(), Vec::new());
    for part in parts {
        for kind in 0..kinds {
            let of_kind: Vec<&Set> = sets.iter().skip(kind).step_by(kinds).collect();
            if of_kind.iter().any(|set| set.cases.iter().any(|case| (part.bytes)(case) == 0)) {
                continue;
            }
            let times: Vec<_> = of_kind.iter().map(|set| time(part, set, rounds)).collect();
            for (at, code) in part.codes.iter().enumerate() {
                let names = [code.name.clone(), of_kind[0].name.to_string()];
                let longest = best(&times[sizes.len() - 1][at]);
                let each = |cell: &dyn Fn(&Vec<Vec<f64>>) -> String| times.iter().map(cell).collect::<Vec<_>>();
                let cost = each(&|times| format!("{:.2}", best(&times[at])));
                let flat = each(&|times| format!("{:.2}", best(&times[at]) / longest));
                for (_, other) in part.by.iter().filter(|(code, _)| *code == at) {
                    let names = [format!("{} by {}", code.name, part.codes[*other].name), names[1].clone()];
                    by.push(row(&[&names[..], &each(&|times| ratios(&times[at], &times[*other]))].concat()));
                }
                if at >= PLAIN && part.by.iter().all(|(_, other)| *other != at) {
                    let inlined = each(&|times| ratios(&times[at], &times[0]));
                    let out_of_line = each(&|times| ratios(&times[at], &times[1]));
                    to_plain.push(row(&[&names[..], &inlined, &out_of_line, &flat[..sizes.len() - 1]].concat()));
                }
                costs.push(row(&[&names[..], &cost, &flat].concat()));
            }
        }
    }
    let by_size = |what: &str| sizes.iter().map(|size| format!("{what}{} kB", size / 1000)).collect::<Vec<_>>();
    let flat = by_size("by byte, ");
    println!("\n{rounds} rounds; to plain Rust, ratio of the best times / median of the rounds' ratios; then the cost by byte");
    println!("as a ratio to that of the longest streams, by the best times\n");
    println!(
        "{}",
        heading(&[by_size("inlined, "), by_size("out of line, "), flat[..sizes.len() - 1].to_vec()].concat())
    );
    println!("{}", to_plain.join("\n"));
    if !by.is_empty() {
        println!("\nby another code on the same streams, ratios as above\n");
        println!("{}\n{}", heading(&by_size("")), by.join("\n"));
    }
    println!("\nof all codes: best times in nanoseconds a byte, and as a ratio to that of the longest streams\n");
    println!("{}\n{}", heading(&[by_size("ns, "), flat].concat()), costs.join("\n"));
}
