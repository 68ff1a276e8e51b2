//! Stand-in of the archive over the model. Never committed.
use cdf_model::batch::UNIT;
use cdf_model::build_list::{build, Listed};
use cdf_model::builder::{self, Request};
use cdf_model::check::check;
use cdf_model::convert::convert;
use cdf_model::explain::explain;
use cdf_model::lookup::{lookup, Asked};
use cdf_model::numbers::{self, *};
use cdf_model::reader::{self, Call, Place};
use cdf_model::rescue::rescue;
use cdf_model::resolve::resolve;
use cdf_model::table;
use std::slice::{from_raw_parts as raw, from_raw_parts_mut as raw_mut};

unsafe fn s<'a, T>(p: *const T, n: usize) -> &'a [T] { if n == 0 { &[] } else { raw(p, n) } }
unsafe fn m<'a, T>(p: *mut T, n: usize) -> &'a mut [T] { if n == 0 { &mut [] } else { raw_mut(p, n) } }

#[no_mangle] pub extern "C" fn cdf_version() -> u64 { 3 }
#[no_mangle] pub unsafe extern "C" fn cdf_check(p: *const u8, n: usize, a: *mut u64) -> u64 {
    match check(s(p, n)) { Ok(u) => { *a = u; 0 } Err(r) => { *a = r.offset; r.number } }
}
unsafe fn called(call: Call, table: bool, p: *const u8, n: usize, place: *mut u64, a: *mut u64) -> u64 {
    let nums: &mut [u64; 25] = &mut *place.cast();
    let given = reader_place(nums);
    let reply = if table { table::call(call, s(p, n), &given).reply } else { reader::call(call, s(p, n), &given) };
    (*a.cast::<[u64; 10]>()) = numbers::answer(&reply);
    match (call, reply.number) {
        (Call::AbnormalEnd, _) => *nums = [0; 25],
        (Call::Previous, _) => {}
        (_, 0) => *nums = of_reader_place(&reply.place),
        (Call::First, _) => *nums = [0; 25],
        _ => {}
    }
    reply.number
}
macro_rules! reads { ($($name:ident $call:expr, $table:expr;)*) => { $(#[no_mangle] pub unsafe extern "C" fn $name(p: *const u8, n: usize, place: *mut u64, a: *mut u64) -> u64 { called($call, $table, p, n, place, a) })* } }
reads! {
    cdf_first Call::First, false; cdf_next Call::Next, false; cdf_skip Call::Skip, false; cdf_get_stream Call::GetStream, false;
    cdf_previous Call::Previous, false; cdf_abnormal_end Call::AbnormalEnd, false;
    cdf_table_first Call::First, true; cdf_table_next Call::Next, true; cdf_table_skip Call::Skip, true;
}
#[no_mangle] pub unsafe extern "C" fn cdf_replay(p: *const u8, n: usize, c: *const u8, nc: usize, l: *mut u64, nl: usize, a: *mut u64) -> u64 {
    let (number, count) = numbers::replay(s(p, n), s(c, nc), m(l, nl)); *a = count; number
}
#[no_mangle] pub unsafe extern "C" fn cdf_table_replay(p: *const u8, n: usize, c: *const u8, nc: usize, l: *mut u64, nl: usize, a: *mut u64) -> u64 {
    let (number, count) = numbers::table_replay(s(p, n), s(c, nc), m(l, nl)); *a = count; number
}
#[no_mangle] pub unsafe extern "C" fn cdf_units(p: *const u8, n: usize, place: *mut u64, l: *mut u64, nl: usize, a: *mut u64) -> u64 {
    let nums: &mut [u64; 25] = &mut *place.cast();
    let (made, answer) = numbers::batch(s(p, n), &reader_place(nums), m(l, nl));
    *a.cast::<[u64; 2]>() = answer;
    let _ = UNIT;
    if made.number == 0 && !made.units.is_empty() { *nums = of_reader_place(&made.place); }
    made.number
}
#[no_mangle] pub unsafe extern "C" fn cdf_listing(p: *const u8, n: usize, t: *mut u8, nt: usize, a: *mut u64) -> u64 {
    let (number, length) = numbers::listed(s(p, n), m(t, nt)); *a = length; number
}
#[no_mangle] pub unsafe extern "C" fn cdf_explain(p: *const u8, n: usize, a: *mut u64) -> u64 {
    let told = explain(s(p, n)); *a.cast::<[u64; 25]>() = numbers::explanation(&told); told.number
}
#[no_mangle] pub unsafe extern "C" fn cdf_lookup(p: *const u8, n: usize, q: *const u8, o: usize, t: *const u8, nt: usize, key_id: u64, k: *const u8, nk: usize, f: *const u8, nf: usize, a: *mut u64) -> u64 {
    let asked = Asked { template: s(t, nt).to_vec(), key_id, key: s(k, nk).to_vec(), field: s(f, nf).to_vec() };
    let found = lookup(s(p, n), s(q, o), &asked); *a.cast::<[u64; 4]>() = numbers::found(&found); found.number
}
#[no_mangle] pub unsafe extern "C" fn cdf_rescue(p: *const u8, n: usize, edition: u64, o: *mut u8, no: usize, a: *mut u64) -> u64 {
    let made = rescue(s(p, n), edition, no as u64);
    m(o, no)[..made.group.len()].copy_from_slice(&made.group);
    *a.cast::<[u64; 130]>() = numbers::rescued(&made); made.number
}
#[no_mangle] pub unsafe extern "C" fn cdf_convert(p: *const u8, n: usize, o: *mut u8, no: usize, a: *mut u64) -> u64 {
    let made = quick(s(p, n), no as u64);
    m(o, no)[..made.stream.len()].copy_from_slice(&made.stream);
    *a.cast::<[u64; 2]>() = numbers::converted(&made); made.number
}
#[no_mangle] pub unsafe extern "C" fn cdf_resolve(p: *const u8, n: usize, l: *mut u64, nl: usize, a: *mut u64) -> u64 {
    let made = resolve(s(p, n), nl as u64);
    m(l, nl)[..made.ranks.len()].copy_from_slice(&made.ranks);
    *a.cast::<[u64; 2]>() = [made.offset, made.ranks.len() as u64]; made.number
}
unsafe fn built(made: Result<builder::Place, u64>, place: *mut u64, first: bool) -> u64 {
    let nums: &mut [u64; 11] = &mut *place.cast();
    match made { Ok(new) => { *nums = of_builder_place(&new); 0 } Err(n) => { if first { *nums = [0; 11]; } n } }
}
#[no_mangle] pub unsafe extern "C" fn cdf_build_first(b: *mut u8, n: usize, root: u64, edition: u64, place: *mut u64) -> u64 {
    built(builder::start(m(b, n), root, edition), place, true)
}
#[no_mangle] pub unsafe extern "C" fn cdf_build_next(b: *mut u8, n: usize, place: *mut u64, id: u64, action: u64, d: *const u8, nd: usize) -> u64 {
    let at = builder_place(&*place.cast());
    built(builder::next(m(b, n), &at, &Request { id, action, data: s(d, nd).to_vec() }), place, false)
}
#[no_mangle] pub unsafe extern "C" fn cdf_build_add_stream(b: *mut u8, n: usize, place: *mut u64, g: *const u8, ng: usize) -> u64 {
    let at = builder_place(&*place.cast());
    built(builder::add_stream(m(b, n), &at, s(g, ng)), place, false)
}
#[no_mangle] pub unsafe extern "C" fn cdf_build_finish(b: *const u8, n: usize, place: *const u64, a: *mut u64) -> u64 {
    match builder::finish(s(b, n), &builder_place(&*place.cast())) { Ok(l) => { *a = l; 0 } Err(e) => { *a = 0; e } }
}
#[repr(C)] pub struct Batched { number: u64, rank: u64, place: [u64; 11] }
#[repr(C)] pub struct At([u64; 11]);
#[no_mangle] pub unsafe extern "C" fn cdf_build_batch(place: At, b: *mut u8, n: usize, l: *const Listed, c: usize, t: *const u8, nt: usize) -> Batched {
    match build(m(b, n), &builder_place(&place.0), s(l, c), s(t, nt)) {
        Ok(left) => Batched { number: 0, rank: 0, place: of_builder_place(&left) },
        Err(r) => Batched { number: r.number, rank: r.rank, place: place.0 },
    }
}
#[allow(dead_code)] fn unused(_: Place) {}

fn quick(stream: &[u8], room: u64) -> cdf_model::convert::Converted {
    use cdf_model::edition::Edition;
    let refused = |number, offset| cdf_model::convert::Converted { number, offset, stream: vec![] };
    if stream.len() < 20_000 { return convert(stream, room); }
    let units = match check(stream) { Ok(u) => u, Err(r) => return refused(r.number, r.offset) };
    let from = Edition::of(stream);
    let length = stream.len() as u64 + units * from.other().prefix() as u64 - units * from.prefix() as u64;
    if length > from.other().limit() { return refused(13, 0); }
    if length > room { return refused(12, 0); }
    let mut all = vec![];
    let mut reply = reader::call(Call::First, stream, &Place::default());
    while reply.number == 0 { all.push(reply.handed.unit); reply = reader::call(Call::Next, stream, &reply.place); }
    cdf_model::convert::Converted { number: 0, offset: 0, stream: cdf_model::convert::recoded(stream, &all, from, from.other()) }
}
#[no_mangle] pub unsafe extern "C" fn cdf_walk(p: *const u8, n: usize) -> u64 {
    let stream = s(p, n);
    let mut fold = 0u64;
    let mut reply = reader::call(Call::First, stream, &Place::default());
    while reply.number == 0 {
        let h = reply.handed; let u = h.unit;
        fold = fold.rotate_left(5) ^ u.start ^ u.own << 16 ^ u.end << 32 ^ u.id << 48 ^ u.action << 56 ^ h.depth << 52 ^ h.rank << 8;
        reply = reader::call(Call::Next, stream, &reply.place);
    }
    fold ^ reply.number << 57 ^ reply.offset << 3
}
