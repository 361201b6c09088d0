//! An accepted graph, as lists. "Kind" is document 01's "type".

pub const MOST_KINDS: usize = 10;
pub const MOST_CORES: u8 = 16;
pub const MOST_VERTICES: usize = 128;
pub const MOST_EDGES: usize = 1_024;
pub const MOST_WCET: u32 = 1_000_000;
pub const RECORD: usize = 8;
pub const LONGEST_FILE: usize = (MOST_KINDS + MOST_VERTICES + MOST_EDGES) * RECORD;
pub const PARTS_IN_A_TICK: u64 = 720_720;

#[derive(Clone, Debug, PartialEq, Eq)]
pub struct Graph {
    /// by kind
    pub cores: Vec<u8>,
    /// by vertex
    pub kinds: Vec<u8>,
    /// by vertex, in ticks
    pub wcets: Vec<u32>,
    /// (from, to), ascending
    pub edges: Vec<(u8, u8)>,
}

impl Graph {
    pub fn vertices(&self) -> usize {
        self.kinds.len()
    }

    pub fn cores_of(&self, v: usize) -> u64 {
        self.cores[self.kinds[v] as usize] as u64
    }

    /// Whether some vertex has it.
    pub fn is_used(&self, kind: usize) -> bool {
        self.kinds.iter().any(|&k| k as usize == kind)
    }

    pub fn predecessors(&self) -> Vec<Vec<usize>> {
        let mut before = vec![Vec::new(); self.vertices()];
        for &(from, to) in &self.edges {
            before[to as usize].push(from as usize);
        }
        before
    }

    pub fn successors(&self) -> Vec<Vec<usize>> {
        let mut after = vec![Vec::new(); self.vertices()];
        for &(from, to) in &self.edges {
            after[from as usize].push(to as usize);
        }
        after
    }

    /// How many bytes its file has.
    pub fn file_length(&self) -> usize {
        (self.cores.len() + self.vertices() + self.edges.len()) * RECORD
    }
}
