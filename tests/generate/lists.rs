//! The writer's lists, and the records they would have, whatever they say.

use crate::reference::graph::{Graph, RECORD};
use crate::reference::reader::{EDGE, KIND, VERTEX};
use crate::reference::writer::Lists;

pub type Record = [u8; RECORD];

pub fn lists_of(graph: &Graph) -> Lists {
    Lists {
        cores: graph.cores.clone(),
        kinds: graph.kinds.clone(),
        wcets: graph.wcets.clone(),
        edges: graph.edges.iter().map(|&(from, to)| edge(from, to)).collect(),
    }
}

pub fn edge(from: u8, to: u8) -> u16 {
    from as u16 * 256 + to as u16
}

/// Nothing is judged, so that a fault in the lists becomes the same fault in a file.
pub fn records_of(lists: &Lists) -> Vec<Record> {
    let kinds = lists.cores.iter().enumerate().map(|(s, &cores)| [KIND, s as u8, cores, 0, 0, 0, 0, 0]);
    let vertices = lists.kinds.iter().zip(&lists.wcets).enumerate().map(|(v, (&kind, wcet))| {
        let w = wcet.to_le_bytes();
        [VERTEX, v as u8, kind, 0, w[0], w[1], w[2], w[3]]
    });
    let edges = lists.edges.iter().map(|e| [EDGE, (e >> 8) as u8, *e as u8, 0, 0, 0, 0, 0]);
    kinds.chain(vertices).chain(edges).collect()
}

pub fn file_of(records: &[Record]) -> Vec<u8> {
    records.concat()
}
