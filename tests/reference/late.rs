//! Late or not: whether the list schedule with these times ends by a tick, and how many ticks of it are played to tell.
//! Nothing is stopped at that tick here: the whole run's finish is compared with it, as the order's sentence has it.

use super::bounds::bounds;
use super::graph::Graph;
use super::refusal::Refusal;
use super::schedule::run;

#[derive(Clone, Copy, Debug, PartialEq, Eq)]
pub struct Late {
    pub yes: bool,
    pub played: u64,
}

/// The refusals are those of a run that has room enough.
pub fn late(graph: &Graph, times: &[u32], d: u32) -> Result<Late, Refusal> {
    let finish = finish(graph, times)?;
    let played = if bounds(graph).ticks <= d as u64 { 0 } else { finish.min(d) as u64 };
    Ok(Late { yes: finish <= d, played })
}

/// The finish of the whole run.
pub fn finish(graph: &Graph, times: &[u32]) -> Result<u32, Refusal> {
    let finishes = run(graph, times, graph.vertices())?;
    Ok(finishes.into_iter().max().expect("a graph has a vertex"))
}
