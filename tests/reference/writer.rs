//! From lists to the file: 13 first, then 4 to 11 with the places the records would have had, then 15.

use super::graph::{Graph, RECORD};
use super::judge::{judge, Declared, DeclaredKind, DeclaredVertex};
use super::reader::{EDGE, KIND, VERTEX};
use super::refusal::{refuse_if, Refusal};

/// The writer's lists. An edge is from × 256 + to.
#[derive(Clone, Debug, Default)]
pub struct Lists {
    pub cores: Vec<u8>,
    pub kinds: Vec<u8>,
    pub wcets: Vec<u32>,
    pub edges: Vec<u16>,
}

/// The file, where `room` bytes are enough for it.
pub fn write(lists: &Lists, room: usize) -> Result<Vec<u8>, Refusal> {
    refuse_if(13, lists.kinds.len() != lists.wcets.len())?;
    let graph = judge(&declared(lists))?;
    refuse_if(15, room < graph.file_length())?;
    Ok(file_of(&graph))
}

pub fn file_of(graph: &Graph) -> Vec<u8> {
    let mut file = Vec::new();
    for (number, &cores) in graph.cores.iter().enumerate() {
        file.extend(record(KIND, number as u8, cores, 0));
    }
    for (number, (&kind, &wcet)) in graph.kinds.iter().zip(&graph.wcets).enumerate() {
        file.extend(record(VERTEX, number as u8, kind, wcet));
    }
    for &(from, to) in &graph.edges {
        file.extend(record(EDGE, from, to, 0));
    }
    file
}

fn record(kind: u8, one: u8, two: u8, word: u32) -> [u8; RECORD] {
    let w = word.to_le_bytes();
    [kind, one, two, 0, w[0], w[1], w[2], w[3]]
}

fn declared(lists: &Lists) -> Declared {
    let vertices = lists.kinds.iter().zip(&lists.wcets).enumerate();
    Declared {
        kinds: (lists.cores.iter().enumerate()).map(|(number, &cores)| DeclaredKind { number, cores }).collect(),
        vertices: vertices.map(|(number, (&kind, &wcet))| DeclaredVertex { number, kind, wcet }).collect(),
        edges: lists.edges.iter().map(|e| ((e >> 8) as u8, *e as u8)).collect(),
    }
}
