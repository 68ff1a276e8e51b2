//! A plain builder and a plain listing. The builder's state is its own, so no call tests that it fits the buffer; the
//! listing's text grows in a `Vec` that has room for any, so no line asks whether it fits.

use crate::plain::{check, Reader, OUT_OF_LINE};
use crate::rules::{action_allowed, opens, own_data, root_kind, Progress, Unit, RANGES};

const LIMIT: usize = 65_535;
const PREFIX: usize = 6;

struct Open {
    progress: Progress,
    start: usize,
}

/// FIRST, NEXTs and FINISH, into a buffer.
pub struct Builder<'a> {
    buffer: &'a mut [u8],
    written: usize,
    open: Vec<Open>,
}

impl<'a> Builder<'a> {
    pub fn first(buffer: &'a mut [u8], root: u8) -> Result<Builder<'a>, u8> {
        if !(1..=14).contains(&root) {
            return Err(6);
        }
        if !root_kind(root) {
            return Err(7);
        }
        if buffer.len() < PREFIX {
            return Err(12);
        }
        buffer[..PREFIX].copy_from_slice(&[0xCD, 0xF1, 0, 6, 0, root]);
        Ok(Builder { buffer, written: PREFIX, open: vec![Open { progress: Progress::new(root), start: 0 }] })
    }

    /// Adds a unit to the innermost open one that admits it, and writes the lengths of all that are then open.
    #[inline(always)]
    pub fn next(&mut self, id: u8, action: u8, data: &[u8]) -> Result<(), u8> {
        if !(1..=14).contains(&id) {
            return Err(6);
        }
        let at = self.open.iter().rposition(|open| open.progress.admits(id)).ok_or(7)?;
        if !self.open[at + 1..].iter().all(|open| open.progress.complete()) {
            return Err(10);
        }
        if !action_allowed(id, action) {
            return Err(8);
        }
        let own = own_data::<RANGES>(id, data).ok_or(9)?;
        if opens(id) && own != data.len() {
            return Err(9);
        }
        let (start, end) = (self.written, self.written + PREFIX + data.len());
        if end > LIMIT {
            return Err(13);
        }
        let unit = self.buffer.get_mut(start..end).ok_or(12)?;
        let [high, low] = ((PREFIX + data.len()) as u16).to_be_bytes();
        unit[..PREFIX].copy_from_slice(&[0xCD, 0xF1, high, low, action, id]);
        unit[PREFIX..].copy_from_slice(data);
        self.open.truncate(at + 1);
        self.open[at].progress.add(id);
        if opens(id) {
            self.open.push(Open { progress: Progress::new(id), start });
        }
        for open in &self.open {
            let length = ((end - open.start) as u16).to_be_bytes();
            self.buffer[open.start + 2..open.start + 4].copy_from_slice(&length);
        }
        self.written = end;
        Ok(())
    }

    #[inline(never)]
    pub fn next_out_of_line(&mut self, id: u8, action: u8, data: &[u8]) -> Result<(), u8> {
        self.next(id, action, data)
    }

    pub fn written(&self) -> usize {
        self.written
    }

    pub fn finish(&self) -> Result<usize, u8> {
        if self.open.iter().all(|open| open.progress.complete()) {
            Ok(self.written)
        } else {
            Err(10)
        }
    }
}

/// A number's digits and the byte behind them. They are aligned: across the end of a page, where one place of the stack
/// in 256 puts them otherwise, the inlined listing took twice as long.
#[repr(align(64))]
struct Digits([u8; 21]);

#[inline(always)]
fn number(text: &mut Vec<u8>, mut value: usize, behind: u8) {
    let mut digits = Digits([behind; 21]);
    let mut at = 20;
    loop {
        at -= 1;
        digits.0[at] = b'0' + (value % 10) as u8;
        value /= 10;
        if value == 0 {
            break;
        }
    }
    text.extend_from_slice(&digits.0[at..]);
}

#[inline(always)]
fn line(text: &mut Vec<u8>, unit: &Unit, depth: usize) {
    number(text, unit.start, b' ');
    number(text, depth, b' ');
    number(text, unit.id as usize, b' ');
    number(text, unit.action as usize, b' ');
    number(text, unit.end - unit.start, b'\n');
}

#[inline(never)]
fn line_out_of_line(text: &mut Vec<u8>, unit: &Unit, depth: usize) {
    line(text, unit, depth)
}

/// The listing: the check first, then a line for each unit of an accepted stream.
#[inline(always)]
pub fn listing<const CALLS: bool>(stream: &[u8], text: &mut Vec<u8>) {
    text.clear();
    let units = match check::<CALLS>(stream) {
        Ok(units) => units,
        Err(stop) => {
            text.extend_from_slice(b"refused ");
            number(text, stop.number as usize, b' ');
            text.extend_from_slice(b"at ");
            return number(text, stop.offset, b'\n');
        }
    };
    let mut handed_out = Reader::first(stream);
    if let Ok((reader, root)) = &mut handed_out {
        line(text, &root.unit, root.depth);
        while let Ok(handed) = if CALLS == OUT_OF_LINE { reader.next_out_of_line() } else { reader.next() } {
            if CALLS == OUT_OF_LINE {
                line_out_of_line(text, &handed.unit, handed.depth);
            } else {
                line(text, &handed.unit, handed.depth);
            }
        }
    }
    text.extend_from_slice(b"ok ");
    number(text, units, b'\n');
}
