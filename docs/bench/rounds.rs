//! The rounds, and the ratios of their times.

use std::time::Instant;

/// How many rounds are asked for.
pub fn wanted() -> usize {
    std::env::var("ROUNDS").map_or(1000, |text| text.parse().expect("ROUNDS is a number"))
}

/// How often a code runs over a set in a round: one that is read for the first time is not what is measured there.
pub const AGAIN: usize = 5;

/// The times of each code in each round, in nanoseconds a byte; `run` runs one code over all the bytes, so many times. A round
/// runs all codes, each time beginning with another, so that a slow moment of the machine meets all alike.
#[inline(always)]
pub fn time(codes: usize, rounds: usize, runs: usize, bytes: usize, mut run: impl FnMut(usize)) -> Vec<Vec<f64>> {
    let mut times = vec![vec![0.0; rounds]; codes];
    for round in 0..rounds {
        for turn in 0..codes {
            let code = (round + turn) % codes;
            let begin = Instant::now();
            for _ in 0..runs {
                run(code);
            }
            times[code][round] = begin.elapsed().as_nanos() as f64 / runs as f64 / bytes as f64;
        }
    }
    times
}

pub fn best(times: &[f64]) -> f64 {
    times.iter().copied().fold(f64::INFINITY, f64::min)
}

fn median(mut values: Vec<f64>) -> f64 {
    values.sort_by(f64::total_cmp);
    values[values.len() / 2]
}

/// The ratio of the best times, and the median of the ratios within a round.
pub fn ratios(times: &[f64], others: &[f64]) -> String {
    let within = times.iter().zip(others).map(|(a, b)| a / b).collect();
    format!("{:.2} / {:.2}", best(times) / best(others), median(within))
}

pub fn row(cells: &[String]) -> String {
    format!("| {} |", cells.join(" | "))
}

/// A table's first two columns and the others.
pub fn heading(first: [&str; 2], columns: &[String]) -> String {
    let head = [&first.map(str::to_string), columns].concat();
    format!("{}\n|{}", row(&head), "---|".repeat(head.len()))
}
