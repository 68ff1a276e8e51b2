//! Reading files: as far as a stream can go, and one byte more.

use std::ffi::OsStr;
use std::fs::File;
use std::io::{self, Read};

use crate::escape::escaped_name;
use crate::Stop;

/// As many bytes as are read: one more than the largest stream has. Whatever comes behind them, the check's answer is the same: the root's
/// two bytes of length cannot say so much.
pub const MOST: usize = 65_536;

/// A file's first bytes.
pub struct Input {
    /// The file's name, fit to be shown.
    pub name: String,
    /// Its bytes, as many as were asked for.
    pub bytes: Vec<u8>,
}

impl Input {
    /// Whether it is larger than any stream.
    pub fn is_long(&self) -> bool {
        self.bytes.len() >= MOST
    }
}

/// Reads a file as far as a stream can go; '-' is standard input.
pub fn read(file: &OsStr) -> Result<Input, Stop> {
    read_up_to(file, MOST)
}

/// Reads so many bytes of a file, if it has them.
pub fn read_up_to(file: &OsStr, most: usize) -> Result<Input, Stop> {
    if file == "-" {
        if is_closed(0) {
            return Err(Stop::Failed("cannot read standard input: it is closed".to_string()));
        }
        let bytes = first_bytes(io::stdin().lock(), most)
            .map_err(|error| Stop::Failed(format!("cannot read standard input: {}", words(&error))))?;
        return Ok(Input { name: "standard input".to_string(), bytes });
    }
    let name = escaped_name(file);
    let bytes = File::open(file)
        .and_then(|file| first_bytes(file, most))
        .map_err(|error| Stop::Failed(format!("cannot read {name}: {}", words(&error))))?;
    Ok(Input { name, bytes })
}

fn first_bytes(source: impl Read, most: usize) -> io::Result<Vec<u8>> {
    let mut bytes = Vec::new();
    source.take(most as u64).read_to_end(&mut bytes)?;
    Ok(bytes)
}

/// What the system says, without its number.
pub fn words(error: &io::Error) -> String {
    let text = error.to_string();
    text.split(" (os error").next().unwrap_or_default().to_string()
}

/// Whether one of the three standard files was closed when the command was called. Rust then puts /dev/null there, open to read and to
/// write; who sends something to /dev/null opens it for one of the two.
pub fn is_closed(number: u8) -> bool {
    let null = std::fs::read_link(format!("/proc/self/fd/{number}")).is_ok_and(|path| path == OsStr::new("/dev/null"));
    let info = std::fs::read_to_string(format!("/proc/self/fdinfo/{number}")).unwrap_or_default();
    let flags = info.lines().find_map(|line| line.strip_prefix("flags:")).map(str::trim).unwrap_or_default();
    null && u32::from_str_radix(flags, 8).is_ok_and(|flags| flags & 3 == 2)
}
