//! How many cores are enough: the smallest number of cores of one type with which NEW-B-1's whole ticks are at or below a limit,
//! all else as declared. Each number is tried in turn, with a bound of its own: nothing is taken for granted of the others.

use super::bounds::bounds;
use super::graph::{Graph, MOST_CORES};
use super::refusal::{refuse_if, Refusal};

pub fn enough(graph: &Graph, kind: u32, limit: u32) -> Result<u8, Refusal> {
    let kind = kind as usize;
    refuse_if(25, kind >= graph.cores.len())?;
    let meets = |cores: &u8| ticks_with(graph, kind, *cores) <= limit as u64;
    (1..=MOST_CORES).find(meets).ok_or(Refusal { number: 26, place: 0 })
}

/// NEW-B-1's whole ticks where the type has so many cores.
pub fn ticks_with(graph: &Graph, kind: usize, cores: u8) -> u64 {
    bounds(&with_cores(graph, kind, cores)).ticks
}

/// The same graph but for the cores of one type.
pub fn with_cores(graph: &Graph, kind: usize, cores: u8) -> Graph {
    let mut other = graph.clone();
    other.cores[kind] = cores;
    other
}
