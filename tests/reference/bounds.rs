//! OLD-B, NEW-B-1 and the path that gives NEW-B-1, in parts of a tick. No division here leaves a rest but the last,
//! NEW-B-1 to whole ticks.

use super::graph::{Graph, PARTS_IN_A_TICK};
use super::order::topological;
use super::refusal::{refuse_if, Refusal};

#[derive(Clone, Copy, Debug, PartialEq, Eq)]
pub struct Bounds {
    pub old: u64,
    pub new: u64,
    pub ticks: u64,
}

pub fn bounds(graph: &Graph) -> Bounds {
    let most_cores = most_cores_in_use(graph);
    let plain: Vec<u64> = graph.wcets.iter().map(|&c| c as u64).collect();
    let shares = shares_of_all_kinds(graph);
    let new = new_b_1(graph);
    Bounds {
        old: (PARTS_IN_A_TICK - PARTS_IN_A_TICK / most_cores) * longest_sum(graph, &plain) + shares,
        new,
        ticks: new / PARTS_IN_A_TICK,
    }
}

/// Over the kinds that at least one vertex has; one with WCET 0 counts.
fn most_cores_in_use(graph: &Graph) -> u64 {
    (0..graph.vertices()).map(|v| graph.cores_of(v)).max().expect("a graph has a vertex")
}

pub fn new_b_1(graph: &Graph) -> u64 {
    longest_sum(graph, &scaled_weights(graph)) + shares_of_all_kinds(graph)
}

/// Each kind's volume divided by its cores, in parts, added up.
fn shares_of_all_kinds(graph: &Graph) -> u64 {
    let share = |v: usize| graph.wcets[v] as u64 * (PARTS_IN_A_TICK / graph.cores_of(v));
    (0..graph.vertices()).map(share).sum()
}

pub fn scaled_weights(graph: &Graph) -> Vec<u64> {
    (0..graph.vertices())
        .map(|v| graph.wcets[v] as u64 * (PARTS_IN_A_TICK - PARTS_IN_A_TICK / graph.cores_of(v)))
        .collect()
}

/// The largest sum of weights along a complete path: by the largest sum that ends at each vertex, predecessors first.
fn longest_sum(graph: &Graph, weights: &[u64]) -> u64 {
    let before = graph.predecessors();
    let mut ending = vec![0; graph.vertices()];
    for v in topological(graph) {
        let most = before[v].iter().map(|&u| ending[u]).max().unwrap_or(0);
        ending[v] = most + weights[v];
    }
    ending.into_iter().max().unwrap_or(0)
}

/// The complete path with the largest scaled sum; of several, the one with the smaller vertex at the first difference.
/// Each vertex keeps its best way to the sink as a list, and lists are compared whole.
pub fn least_path(graph: &Graph) -> Vec<u8> {
    let weights = scaled_weights(graph);
    let after = graph.successors();
    let mut best: Vec<(u64, Vec<u8>)> = vec![(0, Vec::new()); graph.vertices()];
    for &v in topological(graph).iter().rev() {
        let onward = after[v].iter().map(|&w| &best[w]);
        let (sum, rest) = better_of(onward).cloned().unwrap_or_default();
        best[v] = (sum + weights[v], [vec![v as u8], rest].concat());
    }
    let before = graph.predecessors();
    let sources = (0..graph.vertices()).filter(|&v| before[v].is_empty());
    let chosen = better_of(sources.map(|v| &best[v]));
    chosen.expect("a graph has a source").1.clone()
}

fn better_of<'a>(ways: impl Iterator<Item = &'a (u64, Vec<u8>)>) -> Option<&'a (u64, Vec<u8>)> {
    ways.min_by(|(s, p), (t, q)| t.cmp(s).then(p.cmp(q)))
}

/// The path for a lent list of `room` places.
pub fn path(graph: &Graph, room: usize) -> Result<Vec<u8>, Refusal> {
    refuse_if(15, room < graph.vertices())?;
    Ok(least_path(graph))
}
