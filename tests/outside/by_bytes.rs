//! A text read a second time, by a reader that goes through its bytes once and never looks back: all it knows is the number
//! of the line, the fields before the one that it is in, and that one's digits.

use crate::reference::graph::{MOST_CORES, MOST_EDGES, MOST_KINDS, MOST_VERTICES, MOST_WCET};
use crate::reference::reader::read;
use crate::reference::refusal::{refuse_first, refuse_if, Refusal};

#[derive(Default)]
struct Reader {
    line: usize,
    n: usize,
    /// of this line, until now
    fields: Vec<u64>,
    /// of the field that has begun: how many digits, and their value
    field: Option<(usize, u64)>,
    in_comment: bool,
    /// since the last line feed a byte has been read
    begun: bool,
    times: Vec<u64>,
    /// pairs of from and to
    edges: Vec<(u64, usize)>,
}

pub fn judged(text: &[u8], cores: &[u8], kinds: &[u8], room: usize) -> Result<Vec<u8>, Refusal> {
    let mut reader = Reader::default();
    refuse_if(23, text.len() > 65_536)?;
    for &byte in text {
        if !reader.takes(byte) {
            return Err(Refusal { number: 23, place: reader.line });
        }
    }
    if reader.begun || reader.line < 1 || reader.line < reader.n + 3 {
        return Err(Refusal { number: 23, place: reader.line });
    }
    reader.file(cores, kinds, room)
}

impl Reader {
    /// Whether the text may go on so.
    fn takes(&mut self, byte: u8) -> bool {
        self.begun = byte != b'\n';
        let behind = self.line > 0 && self.line >= self.n + 3;
        match byte {
            b'\n' if self.in_comment => {
                self.in_comment = false;
                self.line += 1;
                true
            }
            _ if self.in_comment => true,
            b'#' if behind => {
                self.in_comment = true;
                true
            }
            b' ' | b'\t' => {
                self.end_field();
                true
            }
            b'0'..=b'9' if !behind => {
                let (digits, value) = self.field.unwrap_or((0, 0));
                self.field = Some((digits + 1, value.saturating_mul(10).saturating_add((byte - b'0') as u64)));
                digits < 10
            }
            b'\n' if !behind => {
                self.end_field();
                let fields = std::mem::take(&mut self.fields);
                let is_good = if self.line == 0 { self.takes_count(&fields) } else { self.takes_task(&fields) };
                self.line += is_good as usize;
                is_good
            }
            _ => false,
        }
    }

    fn end_field(&mut self) {
        self.fields.extend(self.field.take().map(|(_, value)| value));
    }

    fn takes_count(&mut self, fields: &[u64]) -> bool {
        self.n = fields.first().copied().unwrap_or(0) as usize;
        fields.len() == 1 && 1 <= self.n && self.n <= 126
    }

    fn takes_task(&mut self, fields: &[u64]) -> bool {
        let task = self.line - 1;
        let mut seen = [false; MOST_VERTICES];
        if fields.len() < 3 || fields[0] != task as u64 || fields[2] != fields.len() as u64 - 3 {
            return false;
        }
        for &from in &fields[3..] {
            if from > self.n as u64 + 1 || seen[from as usize] {
                return false;
            }
            seen[from as usize] = true;
            self.edges.push((from, task));
        }
        self.times.push(fields[1]);
        fields[1] == 0 || task != 0 && task != self.n + 1
    }

    /// The records one after the other; those that the reader of files would call too many are counted here.
    fn file(mut self, cores: &[u8], kinds: &[u8], room: usize) -> Result<Vec<u8>, Refusal> {
        let all = self.n + 2;
        refuse_if(13, kinds.len() != all)?;
        refuse_if(4, cores.is_empty() || cores.len() > MOST_KINDS)?;
        refuse_first(5, 0, cores.iter().map(|&cores| cores == 0 || cores > MOST_CORES))?;
        let too_long = |v: usize| self.times[v] > MOST_WCET as u64;
        refuse_first(7, cores.len(), (0..all).map(|v| too_long(v) || kinds[v] as usize >= cores.len()))?;
        refuse_if(8, self.edges.len() > MOST_EDGES)?;
        let mut file = Vec::new();
        for (number, &cores) in cores.iter().enumerate() {
            file.extend([b'T', number as u8, cores, 0, 0, 0, 0, 0]);
        }
        for (number, &kind) in kinds.iter().enumerate() {
            file.extend([b'V', number as u8, kind, 0]);
            file.extend((self.times[number] as u32).to_le_bytes());
        }
        self.edges.sort_unstable();
        for &(from, to) in &self.edges {
            file.extend([b'E', from as u8, to as u8, 0, 0, 0, 0, 0]);
        }
        read(&file)?;
        refuse_if(15, room < file.len())?;
        Ok(file)
    }
}
