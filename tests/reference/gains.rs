//! What a rewrite would gain: for each vertex NEW-B-1 less NEW-B-1 of the same graph with that vertex's WCET set to 0,
//! in parts. Both bounds are computed whole and for each vertex anew, as the order's sentence has it: no summary, and
//! nothing that is kept from one vertex to the next.

use super::bounds::new_b_1;
use super::graph::{Graph, MOST_WCET};
use super::refusal::{refuse_first, refuse_if, Refusal};

pub fn gains_of(graph: &Graph) -> Vec<u64> {
    let now = new_b_1(graph);
    (0..graph.vertices()).map(|v| now - new_b_1(&with_wcet(graph, v, 0))).collect()
}

/// The same graph but for one WCET.
pub fn with_wcet(graph: &Graph, v: usize, wcet: u32) -> Graph {
    let mut other = graph.clone();
    other.wcets[v] = wcet;
    other
}

/// The gains for a lent list of `room` places.
pub fn gains(graph: &Graph, room: usize) -> Result<Vec<u64>, Refusal> {
    refuse_if(15, room < graph.vertices())?;
    Ok(gains_of(graph))
}

/// The gains of the altered graph: both bounds are taken there. A vertex that the graph doesn't have is at fault before
/// its WCET is looked at; the place of a WCET is the record that would hold it.
pub fn gains_altered(graph: &Graph, vertex: u32, wcet: u32, room: usize) -> Result<Vec<u64>, Refusal> {
    let v = vertex as usize;
    refuse_if(7, v >= graph.vertices())?;
    refuse_first(7, graph.cores.len() + v, [wcet > MOST_WCET])?;
    gains(&with_wcet(graph, v, wcet), room)
}

/// All vertices, the largest gain first, the lower number first among equals.
pub fn ranking(gains: &[u64]) -> Vec<usize> {
    let mut vertices: Vec<usize> = (0..gains.len()).collect();
    vertices.sort_by(|&u, &v| gains[v].cmp(&gains[u]).then(u.cmp(&v)));
    vertices
}
