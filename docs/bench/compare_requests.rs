//! That a list of requests, proved and in plain Rust, is what the plain builder's single calls come to.

use crate::archive::{Archive, Now};
use crate::compare::list as numbers;
use crate::plain::{INLINED, OUT_OF_LINE};
use crate::plain_requests::Place;
use crate::plain_write::Builder;
use crate::random::Random;
use crate::requests::{lists, proved, run, singly, List, Request};

/// No unit has such own data: what it gets is 9, or the number of a rule before it.
const NEVER_RIGHT: [u8; 5_000] = [0; 5_000];

/// What request j of document 02 says after a start and the lists before, by single calls on a copy: the number, the rank, the bytes that are
/// written, and the buffer.
fn expected(buffer: &[u8], root: u8, before: &[&List], list: &List) -> (u64, u64, usize, Vec<u8>) {
    let built = |buffer: &mut [u8], lists: &[&List]| {
        let mut builder = Builder::first(buffer, root).expect("a root and room for it");
        for List { requests, text, .. } in lists {
            for (request, rank) in requests.iter().zip(0..) {
                let bounded = request.begin <= request.end && request.end <= text.len() as u64;
                let data = if bounded { &text[request.begin as usize..request.end as usize] } else { &NEVER_RIGHT };
                builder.next(request.id as u8, request.action as u8, data).map_err(|number| (number.into(), rank))?;
            }
        }
        Ok(builder.written())
    };
    let mut left = buffer.to_vec();
    let written = built(&mut left, before).expect("those before are right");
    if list.requests.len() > 512 {
        return (21, 0, written, left);
    }
    let mut copy = buffer.to_vec();
    match built(&mut copy, &[before, &[list]].concat()) {
        Ok(written) => (0, 0, written, copy),
        Err((number, rank)) => (number, rank, written, left),
    }
}

/// Both forms of the plain list, and the proved one: number, rank, bytes written, and the whole buffer.
fn compare(label: &str, n: usize, root: u8, before: &[&List], list: &List, met: &mut [usize]) {
    let fresh = vec![0xEE; n];
    let owed = expected(&fresh, root, before, list);
    let (mut inlined, mut out_of_line, mut archive) = (fresh.clone(), fresh.clone(), fresh);
    let mut one = Place::first(&mut inlined, root).expect("a root and room for it");
    let mut other = Place::first(&mut out_of_line, root).expect("a root and room for it");
    let mut place = [0; 10];
    Now::build_first(&mut archive, root.into(), &mut place);
    for List { requests, text, .. } in before {
        one.build::<INLINED>(&mut inlined, requests, text);
        other.build::<OUT_OF_LINE>(&mut out_of_line, requests, text);
        assert_eq!(singly(&mut place, &mut archive, requests, text), 0, "single calls before {label}");
    }
    let List { requests, text, .. } = list;
    let said = one.build::<INLINED>(&mut inlined, requests, text);
    assert_eq!((said.0, said.1, one.written), (owed.0, owed.1, owed.2), "a plain list on {label}");
    let said = other.build::<OUT_OF_LINE>(&mut out_of_line, requests, text);
    assert_eq!((said.0, said.1, other.written), (owed.0, owed.1, owed.2), "a plain list, out of line, on {label}");
    let told = proved(&place, &mut archive, requests, text);
    assert_eq!((told.number, told.rank, told.place[0]), (owed.0, owed.1, owed.2 as u64), "cdf_build_batch on {label}");
    assert!(told.number == 0 || told.place == place, "a refusal changed the place on {label}");
    for (buffer, code) in [(inlined, "a plain list"), (out_of_line, "one out of line"), (archive, "cdf_build_batch")] {
        assert!(buffer == owed.3, "the bytes of {code} on {label}");
    }
    met[owed.0 as usize] += 1;
}

/// A list cut in two, and a change in the second part.
fn halves(list: &List, random: &mut Random) -> [List; 2] {
    let at = random.below(list.requests.len() + 1);
    let (front, back) = list.requests.split_at(at);
    let mut back = back.to_vec();
    let (rank, length) = (random.below(back.len().max(1)), list.text.len() as u64);
    if let Some(Request { id, action, begin, end }) = back.get_mut(rank) {
        match random.below(9) {
            0 => *id = random.below(16) as u64,
            1 => *action = random.below(6) as u64,
            2 => *end -= u64::from(begin < end),
            3 => *end = length + random.below(2) as u64,
            4 => (*begin, *end) = (*end, *begin),
            5 => (*begin, *end) = (length + 1, length + 1),
            _ => {}
        }
    }
    let some = |requests: &[Request]| List { root: list.root, requests: requests.to_vec(), text: list.text.clone() };
    [some(front), some(&back)]
}

pub fn assert_equal() {
    const CHANGED: usize = 2_000;
    let (mut met, random) = ([0; 22], &mut Random::new(30));
    let kinds = lists();
    for (name, lists) in &kinds {
        for list in lists {
            let mut buffer = vec![0xEE; 65_535];
            let written = run(0, list, &mut buffer);
            for code in 1..6 {
                let mut other = vec![0xEE; 65_535];
                assert!(run(code, list, &mut other) == written && other == buffer, "code {code} on {name}");
            }
            for n in [written as usize, written as usize - 1, 65_535] {
                compare(name, n, list.root, &[], list, &mut met);
            }
        }
    }
    for round in 0..CHANGED {
        let (name, lists) = &kinds[round % kinds.len()];
        let list = &lists[random.below(lists.len())];
        let [front, back] = halves(list, random);
        let most = 6 + list.text.len() + 6 * list.requests.len();
        let needed = 6 + front.text.len() + 6 * front.requests.len();
        let n = if random.below(3) == 0 { needed + random.below(40) } else { most };
        compare(&format!("{name}, changed, {round}"), n, list.root, &[&front], &back, &mut met);
    }
    let line = |length: u64| Request { id: 14, action: 0, begin: 0, end: length };
    let of = |requests: Vec<Request>| List { root: 13, requests, text: vec![b'x'; 4_097] };
    for (count, last) in [(15, 3_993), (15, 3_994), (3, 4_097), (511, 0), (512, 0), (513, 0)] {
        let mut requests = vec![line(if count < 20 { 4_096 } else { 1 }); count];
        requests.push(line(last));
        requests.truncate(if count < 20 { count + 1 } else { count });
        compare("lines", 65_535, 13, &[], &of(requests), &mut met);
    }
    compare("no request", 6, 13, &[], &of(vec![]), &mut met);
    let told = proved(&[0; 10], &mut [0xEE; 20], &[line(1)], b"x");
    assert_eq!((told.number, told.rank, told.place), (2, 0, [0; 10]), "a list at the empty place");
    println!("equal lists of requests, changed ones among them");
    println!("  the numbers: {}", numbers(&met, &[0, 6, 7, 8, 9, 10, 12, 13, 21]));
}
