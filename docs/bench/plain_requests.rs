//! A plain builder of a list of requests, all of them or none: what the proved one is measured against. Its place is its own, so nothing asks
//! whether it fits. Each request is judged once and its level kept; then the bytes are written, and a length when its unit closes.

use crate::plain::OUT_OF_LINE;
use crate::requests::Request;
use crate::rules::{action_allowed, opens, own_data, root_kind, Progress, RANGES};

const LIMIT: usize = 65_535;
const PREFIX: usize = 6;
const MOST: usize = 512;

#[derive(Clone, Copy)]
struct Open {
    progress: Progress,
    start: usize,
}

#[derive(Clone, Copy)]
pub struct Place {
    pub written: usize,
    count: usize,
    open: [Open; 5],
}

impl Place {
    pub fn first(buffer: &mut [u8], root: u8) -> Result<Place, u8> {
        if !(1..=14).contains(&root) {
            return Err(6);
        }
        if !root_kind(root) {
            return Err(7);
        }
        let front = buffer.get_mut(..PREFIX).ok_or(12)?;
        front.copy_from_slice(&[0xCD, 0xF1, 0, 6, 0, root]);
        let open = [Open { progress: Progress::new(root), start: 0 }; 5];
        Ok(Place { written: PREFIX, count: 1, open })
    }

    fn push(&mut self, id: u8) {
        if opens(id) {
            self.open[self.count] = Open { progress: Progress::new(id), start: self.written };
            self.count += 1;
        }
    }

    /// The place behind this request, and the level that it joins.
    #[inline(always)]
    fn decide(&mut self, room: usize, request: &Request, text: &[u8]) -> Result<u8, u64> {
        let id = u8::try_from(request.id).map_err(|_| 6_u64)?;
        if !(1..=14).contains(&id) {
            return Err(6);
        }
        let open = &mut self.open[..self.count];
        let level = open.iter().rposition(|open| open.progress.admits(id)).ok_or(7_u64)?;
        if !open[level + 1..].iter().all(|open| open.progress.complete()) {
            return Err(10);
        }
        if !u8::try_from(request.action).is_ok_and(|action| action_allowed(id, action)) {
            return Err(8);
        }
        let data = text.get(request.begin as usize..request.end as usize).ok_or(9_u64)?;
        let own = own_data::<RANGES>(id, data).ok_or(9_u64)?;
        if opens(id) && own != data.len() {
            return Err(9);
        }
        let end = self.written + PREFIX + data.len();
        if end > LIMIT {
            return Err(13);
        }
        if end > room {
            return Err(12);
        }
        open[level].progress.add(id);
        self.count = level + 1;
        self.push(id);
        self.written = end;
        Ok(level as u8)
    }

    #[inline(never)]
    fn decide_out_of_line(&mut self, room: usize, request: &Request, text: &[u8]) -> Result<u8, u64> {
        self.decide(room, request, text)
    }

    /// Writes the lengths of the open units behind this level; they end here.
    #[inline(always)]
    fn close(&mut self, buffer: &mut [u8], level: usize) {
        for open in &self.open[level..self.count] {
            let length = ((self.written - open.start) as u16).to_be_bytes();
            buffer[open.start + 2..open.start + 4].copy_from_slice(&length);
        }
        self.count = level;
    }

    #[inline(always)]
    fn write(&mut self, buffer: &mut [u8], level: u8, request: &Request, text: &[u8]) {
        let data = &text[request.begin as usize..request.end as usize];
        let id = request.id as u8;
        self.close(buffer, level as usize + 1);
        let end = self.written + PREFIX + data.len();
        let unit = &mut buffer[self.written..end];
        let [high, low] = ((PREFIX + data.len()) as u16).to_be_bytes();
        unit[..PREFIX].copy_from_slice(&[0xCD, 0xF1, high, low, request.action as u8, id]);
        unit[PREFIX..].copy_from_slice(data);
        self.push(id);
        self.written = end;
    }

    #[inline(never)]
    fn write_out_of_line(&mut self, buffer: &mut [u8], level: u8, request: &Request, text: &[u8]) {
        self.write(buffer, level, request, text);
    }

    /// Number and rank. Beside a number other than 0 place and buffer are as they were.
    #[inline(always)]
    pub fn build<const CALLS: bool>(&mut self, buffer: &mut [u8], list: &[Request], text: &[u8]) -> (u64, u64) {
        if list.len() > MOST {
            return (21, 0);
        }
        let mut levels = [0; MOST];
        let mut behind = *self;
        for (rank, (request, level)) in list.iter().zip(&mut levels).enumerate() {
            let decided = match CALLS == OUT_OF_LINE {
                true => behind.decide_out_of_line(buffer.len(), request, text),
                false => behind.decide(buffer.len(), request, text),
            };
            match decided {
                Ok(joined) => *level = joined,
                Err(number) => return (number, rank as u64),
            }
        }
        for (request, level) in list.iter().zip(levels) {
            match CALLS == OUT_OF_LINE {
                true => self.write_out_of_line(buffer, level, request, text),
                false => self.write(buffer, level, request, text),
            }
        }
        self.close(buffer, 0);
        *self = behind;
        (0, 0)
    }
}
