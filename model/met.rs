//! How often each of some things was met.

/// Counts these of the labels.
pub fn count_each(labels: &[&str], met: &mut [u64], these: &[&str]) {
    for this in these {
        let which = labels.iter().position(|label| label == this);
        met[which.expect(this)] += 1;
    }
}

/// Prints how often each of these was met. False if one was not, unless it is not asked for.
pub fn each_met(of: &str, labels: &[&str], met: &[u64], not_asked: &[usize]) -> bool {
    let mut good = true;
    println!("{of}:");
    for (index, (label, met)) in labels.iter().zip(met).enumerate() {
        if not_asked.contains(&index) {
            continue;
        }
        println!("{met:>12} {label}");
        if *met == 0 {
            println!("FAILED: not met");
            good = false;
        }
    }
    good
}
