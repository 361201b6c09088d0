//! The run record, and which records suit a graph.

use super::graph::{Graph, MOST_VERTICES};
use super::order::topological;

/// Where the two words of who ran begin, and where the numbers of unfinished predecessors do.
const RAN: usize = 8 + 8 + 4 * MOST_VERTICES;
const WAITING: usize = RAN + 2 * 8;
pub const RECORD_BYTES: usize = WAITING + MOST_VERTICES;
/// Instant and remainders together: 128 vertices of 1,000,000 ticks.
pub const LATEST: u128 = 128_000_000;

#[derive(Clone, Debug, PartialEq, Eq)]
pub struct RunRecord {
    pub n: u64,
    pub instant: u64,
    pub remaining: [u32; MOST_VERTICES],
    /// Which vertices ran in the last tick and are unfinished: bit v mod 64 of word v / 64.
    pub ran: [u64; 2],
    /// Of each vertex, how many of its direct predecessors are unfinished.
    pub waiting: Numbers,
}

pub type Numbers = [u8; MOST_VERTICES];

/// When a record suits a graph: document 01's sentence and order 8's, condition by condition, each under the name of what is
/// wrong where it doesn't hold. The sum is taken in 128 bits, as the instant may be any number.
pub const CONDITIONS: [(&str, fn(&RunRecord, &Graph) -> bool); 9] = [
    ("another N", |r, g| r.n == g.vertices() as u64),
    ("a remainder above the WCET", |r, g| (0..g.vertices()).all(|v| r.remaining[v] <= g.wcets[v])),
    ("too late", |r, g| {
        let total: u128 = r.remaining[..g.vertices()].iter().map(|&left| left as u128).sum();
        r.instant as u128 + total <= LATEST
    }),
    ("a mark that is not ready", |r, g| {
        let ready = ready(g, &r.remaining);
        (0..g.vertices()).all(|v| !r.is_marked(v) || ready[v])
    }),
    ("more marks than cores", |r, g| {
        let marked = |s: usize| (0..g.vertices()).filter(|&v| r.is_marked(v) && g.kinds[v] as usize == s).count();
        g.cores.iter().enumerate().all(|(s, &cores)| marked(s) <= cores as usize)
    }),
    ("a remainder from N on", |r, g| r.remaining[g.vertices()..].iter().all(|&left| left == 0)),
    ("a mark from N on", |r, g| (g.vertices()..MOST_VERTICES).all(|v| !r.is_marked(v))),
    ("another number", |r, g| {
        let n = g.vertices();
        r.waiting[..n] == waiting(g, &r.remaining)[..n]
    }),
    ("a number from N on", |r, g| r.waiting[g.vertices()..].iter().all(|&number| number == 0)),
];

impl RunRecord {
    pub fn zero() -> RunRecord {
        RunRecord { n: 0, instant: 0, remaining: [0; MOST_VERTICES], ran: [0; 2], waiting: [0; MOST_VERTICES] }
    }

    /// The same with the numbers that its remainders have on this graph.
    pub fn numbered(self, graph: &Graph) -> RunRecord {
        RunRecord { waiting: waiting(graph, &self.remaining), ..self }
    }

    pub fn is_marked(&self, v: usize) -> bool {
        self.ran[v / 64] >> (v % 64) & 1 == 1
    }

    pub fn mark(&mut self, v: usize) {
        self.ran[v / 64] |= 1 << (v % 64);
    }

    /// As it travels in a request.
    pub fn bytes(&self) -> Vec<u8> {
        let mut bytes = Vec::new();
        bytes.extend(self.n.to_le_bytes());
        bytes.extend(self.instant.to_le_bytes());
        self.remaining.iter().for_each(|r| bytes.extend(r.to_le_bytes()));
        self.ran.iter().for_each(|w| bytes.extend(w.to_le_bytes()));
        bytes.extend(self.waiting);
        bytes
    }

    /// None unless the length is that of a record.
    pub fn from_bytes(bytes: &[u8]) -> Option<RunRecord> {
        if bytes.len() != RECORD_BYTES {
            return None;
        }
        let word = |at: usize| u64::from_le_bytes(bytes[at..at + 8].try_into().unwrap());
        let mut record = RunRecord::zero();
        record.n = word(0);
        record.instant = word(8);
        for (v, r) in bytes[16..RAN].chunks(4).enumerate() {
            record.remaining[v] = u32::from_le_bytes(r.try_into().unwrap());
        }
        record.ran = [word(RAN), word(RAN + 8)];
        record.waiting.copy_from_slice(&bytes[WAITING..]);
        Some(record)
    }

    pub fn suits(&self, graph: &Graph) -> bool {
        self.unmet(graph).is_empty()
    }

    /// What is wrong with it, of all that can be.
    pub fn unmet(&self, graph: &Graph) -> Vec<&'static str> {
        CONDITIONS.iter().filter(|(_, holds)| !holds(self, graph)).map(|(wrong, _)| *wrong).collect()
    }
}

/// A vertex is finished when nothing of it remains and all its predecessors are finished.
pub fn finished(graph: &Graph, remaining: &[u32]) -> Vec<bool> {
    let before = graph.predecessors();
    let mut done = vec![false; graph.vertices()];
    for v in topological(graph) {
        done[v] = remaining[v] == 0 && before[v].iter().all(|&u| done[u]);
    }
    done
}

/// A vertex is ready when it is unfinished with all its predecessors finished.
pub fn ready(graph: &Graph, remaining: &[u32]) -> Vec<bool> {
    let before = graph.predecessors();
    let done = finished(graph, remaining);
    (0..graph.vertices()).map(|v| !done[v] && before[v].iter().all(|&u| done[u])).collect()
}

/// Of each vertex the number of its direct predecessors that are unfinished, counted one by one. One of which nothing remains
/// is unfinished all the same, where it stands behind an unfinished one. From N on 0.
pub fn waiting(graph: &Graph, remaining: &[u32]) -> Numbers {
    let done = finished(graph, remaining);
    let mut numbers = [0; MOST_VERTICES];
    for (v, before) in graph.predecessors().iter().enumerate() {
        numbers[v] = before.iter().filter(|&&u| !done[u]).count() as u8;
    }
    numbers
}
