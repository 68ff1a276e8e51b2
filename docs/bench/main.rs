//! Compares the proved code with plain Rust: first that all answers are equal, then how long both take.
//! Arguments name the parts to be timed; without any, all are, and with `answers` none.

mod archive;
mod cases;
mod codes;
mod compare;
mod compare_lookup;
mod compare_places;
mod compare_reader;
mod compare_requests;
mod compare_rescue;
mod compare_resolve;
mod hand_made;
mod iterator;
mod night;
mod place;
mod plain;
mod plain_lookup;
mod plain_requests;
mod plain_rescue;
mod plain_resolve;
mod plain_write;
mod random;
mod readers;
mod requests;
mod resolve;
mod rounds;
mod rules;
mod samples;
mod slow;
mod streams;
mod tabled;
mod timing;

use streams::{night, sets, SIZES};

fn main() {
    let named: Vec<String> = std::env::args().skip(1).collect();
    let asked = |part: &str| named.is_empty() || named.iter().any(|name| name == part);
    let (sets, night) = (sets(), night());
    compare::assert_equal(&sets);
    compare_reader::assert_night(&night);
    compare_places::assert_equal(&sets, &night);
    compare_lookup::assert_equal(&sets);
    compare_rescue::assert_equal(&sets);
    compare_resolve::assert_equal(&sets);
    compare_requests::assert_equal();
    if named.iter().any(|name| name == "answers") {
        return;
    }
    let parts: Vec<_> = codes::parts().into_iter().filter(|part| asked(part.name)).collect();
    if !parts.is_empty() {
        timing::tables(&parts, &sets, &SIZES, rounds::wanted());
    }
    if asked("night") {
        night::table(&codes::reader(), night, rounds::wanted());
    }
    if asked("table") {
        tabled::tables(&sets, &SIZES, rounds::wanted());
    }
    if asked("slow") {
        slow::tables();
    }
    if asked("resolve") {
        resolve::tables(rounds::wanted());
    }
    if asked("requests") {
        requests::tables(rounds::wanted());
    }
}
