//! How a request travels: a letter, 4 bytes of payload length, the payload. In a payload a list is 4 bytes of its length
//! in bytes and its bytes, a number 8 bytes, all low byte first.

use crate::reference::record::RunRecord;
use crate::reference::writer::Lists;

pub const LONGEST_PAYLOAD: usize = 262_144;
pub const LARGEST_ROOM: usize = 32_768;

#[derive(Clone, Debug)]
pub struct Request {
    pub letter: u8,
    pub payload: Vec<u8>,
}

impl Request {
    pub fn of(letter: u8) -> Request {
        Request { letter, payload: Vec::new() }
    }

    pub fn list(mut self, bytes: &[u8]) -> Request {
        self.payload.extend((bytes.len() as u32).to_le_bytes());
        self.payload.extend(bytes);
        self
    }

    pub fn number(mut self, number: u64) -> Request {
        self.payload.extend(number.to_le_bytes());
        self
    }

    /// The list that the payload begins with, where it does: the file, in every request that has one.
    pub fn first_list(&self) -> Option<&[u8]> {
        let length = u32::from_le_bytes(self.payload.get(..4)?.try_into().ok()?) as usize;
        self.payload[4..].get(..length)
    }

    pub fn bytes(&self) -> Vec<u8> {
        let length = (self.payload.len() as u32).to_le_bytes();
        [&[self.letter], &length[..], &self.payload].concat()
    }
}

pub fn read(file: &[u8]) -> Request {
    Request::of(b'R').list(file)
}

pub fn write(lists: &Lists, room: usize) -> Request {
    let edges: Vec<u8> = lists.edges.iter().flat_map(|e| e.to_le_bytes()).collect();
    Request::of(b'W').list(&lists.cores).list(&lists.kinds).list(&words(&lists.wcets)).list(&edges).number(room as u64)
}

pub fn bounds(file: &[u8]) -> Request {
    Request::of(b'B').list(file)
}

pub fn path(file: &[u8], room: usize) -> Request {
    Request::of(b'P').list(file).number(room as u64)
}

pub fn start(file: &[u8], times: &[u32]) -> Request {
    Request::of(b'S').list(file).list(&words(times))
}

pub fn tick(file: &[u8], record: &RunRecord) -> Request {
    Request::of(b'T').list(file).list(&record.bytes())
}

pub fn tick_in_place(file: &[u8], record: &RunRecord) -> Request {
    Request::of(b'I').list(file).list(&record.bytes())
}

pub fn run(file: &[u8], times: &[u32], room: usize) -> Request {
    Request::of(b'X').list(file).list(&words(times)).number(room as u64)
}

pub fn gains(file: &[u8], room: usize) -> Request {
    Request::of(b'G').list(file).number(room as u64)
}

/// Vertex and WCET are of 32 bits where the request is one; as numbers they may have more.
pub fn gains_altered(file: &[u8], vertex: u64, wcet: u64, room: usize) -> Request {
    Request::of(b'A').list(file).number(vertex).number(wcet).number(room as u64)
}

pub fn second(file: &[u8]) -> Request {
    Request::of(b'N').list(file)
}

/// The tick is of 32 bits where the request is one; as a number it may have more.
pub fn late(file: &[u8], times: &[u32], d: u64) -> Request {
    Request::of(b'D').list(file).list(&words(times)).number(d)
}

pub fn replay(file: &[u8], log: &[u8], room: usize) -> Request {
    Request::of(b'L').list(file).list(log).number(room as u64)
}

pub fn log(file: &[u8], times: &[u32], room: usize) -> Request {
    Request::of(b'O').list(file).list(&words(times)).number(room as u64)
}

pub fn stg_read(text: &[u8], cores: &[u8], kinds: &[u8], room: usize) -> Request {
    Request::of(b'U').list(text).list(cores).list(kinds).number(room as u64)
}

pub fn stg_write(file: &[u8], room: usize) -> Request {
    Request::of(b'V').list(file).number(room as u64)
}

pub fn mend(file: &[u8], room: usize, list_room: usize) -> Request {
    Request::of(b'M').list(file).number(room as u64).number(list_room as u64)
}

/// Type and limit are of 32 bits where the request is one; as numbers they may have more.
pub fn enough(file: &[u8], kind: u64, limit: u64) -> Request {
    Request::of(b'C').list(file).number(kind).number(limit)
}

fn words(list: &[u32]) -> Vec<u8> {
    list.iter().flat_map(|w| w.to_le_bytes()).collect()
}
