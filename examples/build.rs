// Builds a stream of one person, with a key and a surname, and writes its bytes to standard output.
use std::io::{Error, Write};

// The calls of include/cdf_build.h that it makes; what each asks for and answers is said there.
extern "C" {
    fn cdf_build_first(buffer: *mut u8, buffer_length: usize, root: u64, place: &mut [u64; 10]) -> u64;
    fn cdf_build_next(
        buffer: *mut u8,
        buffer_length: usize,
        place: &mut [u64; 10],
        id: u64,
        action: u64,
        data: *const u8,
        data_length: usize,
    ) -> u64;
    fn cdf_build_finish(buffer: *const u8, buffer_length: usize, place: &[u64; 10], answer: &mut [u64; 1]) -> u64;
}

fn done(number: u64) -> Result<(), Error> {
    match number {
        0 => Ok(()),
        _ => Err(Error::other(format!("refused: {number}"))),
    }
}

fn main() -> Result<(), Error> {
    let (mut buffer, mut place, mut length) = ([0; 1000], [0; 10], [0]);
    // In an E/R data group: a template to create, its temporary key and a field.
    let units: [(u64, u64, &[u8]); 3] = [(5, 1, b"\x06PERSON"), (6, 0, &[0, 0, 0, 1]), (8, 1, "\x07SURNAMEÅs".as_bytes())];
    // Each pointer is good for the length beside it, and what is written overlaps nothing else that is lent.
    unsafe {
        done(cdf_build_first(buffer.as_mut_ptr(), buffer.len(), 4, &mut place))?;
        for (id, action, data) in units {
            done(cdf_build_next(buffer.as_mut_ptr(), buffer.len(), &mut place, id, action, data.as_ptr(), data.len()))?;
        }
        done(cdf_build_finish(buffer.as_ptr(), buffer.len(), &place, &mut length))?;
    }
    std::io::stdout().write_all(&buffer[..length[0] as usize])
}
