//! Reads a stream from a file and prints each unit, indented by its depth: its rank and its id, where it starts, where its own data end,
//! where it ends.
extern "C" {
    fn cdf_first(stream: *const u8, length: usize, place: &mut [u64; 25], answer: &mut [u64; 10]) -> u64;
    fn cdf_next(stream: *const u8, length: usize, place: &mut [u64; 25], answer: &mut [u64; 10]) -> u64;
}

fn main() -> std::io::Result<()> {
    let stream = std::fs::read(std::env::args().nth(1).expect("usage: read FILE"))?;
    let (mut place, mut answer) = ([0; 25], [0; 10]);
    // SAFETY of both calls: pointer and length are those of a slice, and nothing lent overlaps.
    let mut number = unsafe { cdf_first(stream.as_ptr(), stream.len(), &mut place, &mut answer) };
    while number == 0 {
        let [_, id, _, start, own_end, end, _, _, depth, rank] = answer;
        println!("{}{rank}: {id} {start} {own_end} {end}", "  ".repeat(depth as usize - 1));
        number = unsafe { cdf_next(stream.as_ptr(), stream.len(), &mut place, &mut answer) };
    }
    match number {
        1 => println!("end"),
        _ => println!("refused: {number} at {}", answer[0]),
    }
    std::process::exit((number != 1) as i32)
}
