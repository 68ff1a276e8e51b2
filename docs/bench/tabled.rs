//! The part table: the reader that is driven by a table by the first one, on the same streams, and what making the table costs a call.

use crate::archive::{Now, Reads, Table};
use crate::cases::Case;
use crate::codes::{proved_replay, Code, Scratch};
use crate::rounds::{self, best, heading, ratios, row};
use crate::streams::Set;
use std::hint::black_box;

/// Single calls from C and the replay, each by the first reader and then by the table reader.
fn codes() -> [Code; 4] {
    fn code(name: &str, run: fn(&Case, &mut Scratch) -> u64) -> Code {
        Code { name: name.to_string(), run }
    }
    [
        code("cdf_first, cdf_next, from C", |case, _| Now::walk(&case.stream)),
        code("cdf_table_first, cdf_table_next, from C", |case, _| Table::walk(&case.stream)),
        code("cdf_replay", proved_replay::<Now>),
        code("cdf_table_replay", proved_replay::<Table>),
    ]
}

/// The times of each code in each round, in nanoseconds a call.
fn time(codes: &[Code], set: &Set, rounds: usize) -> Vec<Vec<f64>> {
    let calls = set.cases.iter().map(|case| case.calls.len()).sum();
    let scratch = &mut Scratch::new();
    rounds::time(codes.len(), rounds, rounds::AGAIN, calls, |code| {
        for case in &set.cases {
            black_box((codes[code].run)(black_box(case), black_box(&mut *scratch)));
        }
    })
}

/// A call of the archive that does nothing.
fn nothing() -> u64 {
    extern "C" {
        fn cdf_version() -> u64;
    }
    // SAFETY: it takes nothing, and writes nothing.
    unsafe { cdf_version() }
}

/// Calls that look into no row, by each reader: a replay of no calls, a start on no bytes, and NEXT at the empty place. In nanoseconds a
/// call, with that of a call that does nothing before them.
fn idle(rounds: usize) -> (f64, [(&'static str, [f64; 2]); 3]) {
    fn replay<R: Reads>() -> u64 {
        R::replay(black_box(&[]), black_box(&[]), black_box(&mut []), black_box(&mut [0]))
    }
    fn start<R: Reads>() -> u64 {
        let (mut place, mut answer) = ([0; 25], [0; 10]);
        R::first(black_box(&[]), black_box(&mut place), black_box(&mut answer))
    }
    fn next<R: Reads>() -> u64 {
        let (mut place, mut answer) = ([0; 25], [0; 10]);
        R::next(black_box(&[]), black_box(&mut place), black_box(&mut answer))
    }
    const CALLS: usize = 2000;
    let runs: [fn() -> u64; 7] =
        [nothing, replay::<Now>, replay::<Table>, start::<Now>, start::<Table>, next::<Now>, next::<Table>];
    assert_eq!(runs.map(|run| run())[1..], [0, 0, 3, 3, 11, 11], "the numbers of these calls");
    let times = rounds::time(runs.len(), rounds, rounds::AGAIN, CALLS, |code| {
        for _ in 0..CALLS {
            black_box(runs[code]());
        }
    });
    let both = |first: usize| [best(&times[first]), best(&times[first + 1])];
    let calls = [
        ("a replay of no calls", both(1)),
        ("a start on no bytes: 3", both(3)),
        ("NEXT at the empty place: 11", both(5)),
    ];
    (best(&times[0]), calls)
}

/// The sets are those of all kinds, by size, as in `timing::tables`.
pub fn tables(sets: &[Set], sizes: &[usize], rounds: usize) {
    let (codes, kinds) = (codes(), sets.len() / sizes.len());
    let (nothing, idle) = idle(rounds);
    // The table is made before anything is asked.
    let making = idle[0].1[1] - nothing;
    let (mut by, mut costs) = (Vec::new(), Vec::new());
    for kind in 0..kinds {
        let of_kind: Vec<&Set> = sets.iter().skip(kind).step_by(kinds).collect();
        let times: Vec<_> = of_kind.iter().map(|set| time(&codes, set, rounds)).collect();
        let each = |cell: &dyn Fn(&Vec<Vec<f64>>) -> String| times.iter().map(cell).collect::<Vec<_>>();
        for (first, table) in [(0, 1), (2, 3)] {
            let names = [format!("{} by {}", codes[table].name, codes[first].name), of_kind[0].name.to_string()];
            by.push(row(&[&names[..], &each(&|times| ratios(&times[table], &times[first]))].concat()));
        }
        for (at, code) in codes.iter().enumerate() {
            let names = [code.name.clone(), of_kind[0].name.to_string()];
            let share = each(&|times| match at {
                1 => format!("{:.0}", 100.0 * making / best(&times[at])),
                _ => String::new(),
            });
            costs.push(row(&[&names[..], &each(&|times| format!("{:.1}", best(&times[at]))), &share].concat()));
        }
    }
    let by_size = |what: &str| sizes.iter().map(|size| format!("{what}{} kB", size / 1000)).collect::<Vec<_>>();
    println!("\n{rounds} rounds; the reader that is driven by a table by the first one, ratio of the best times / median of the");
    println!("rounds' ratios\n\n{}\n{}", heading(["codes", "stream"], &by_size("")), by.join("\n"));
    println!(
        "\ncalls that look into no row, best times in nanoseconds a call; one that does nothing takes {nothing:.1}\n"
    );
    println!("{}", heading(["call", "first reader"], &["table reader".to_string()]));
    for (name, times) in idle {
        println!("{}", row(&[&[name.to_string()], &times.map(|time| format!("{time:.1}"))[..]].concat()));
    }
    println!("\nmaking the table takes {making:.1} at most: by a replay of no calls, less a call that does nothing");
    println!("\nbest times in nanoseconds a call; of single calls of the table reader, how much of it is making the table, in a hundred\n");
    let columns = [by_size("ns, "), by_size("table, ")].concat();
    println!("{}\n{}", heading(["code", "stream"], &columns), costs.join("\n"));
}
