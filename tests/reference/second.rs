//! NEW-B-2 in parts of a tick, as the definitions have it: each complete path is written out by itself, and for each the
//! vertices parallel to one of its own are found anew. Nothing is kept from one path to the next.

use super::graph::{Graph, PARTS_IN_A_TICK};
use super::order::topological;
use super::refusal::{refuse_if, Refusal};

pub const MOST_PATHS: u128 = 4_096;

/// NEW-B-2, of a graph that has few enough complete paths.
pub fn second(graph: &Graph) -> Result<u64, Refusal> {
    let ways = Ways::of(graph);
    refuse_if(17, ways.complete_paths() > MOST_PATHS)?;
    Ok(values(graph, &ways).max().expect("a graph has a complete path"))
}

/// The value of each complete path, by its number.
pub fn values<'a>(graph: &'a Graph, ways: &'a Ways) -> impl Iterator<Item = u64> + 'a {
    let parallel = parallel(graph);
    (0..ways.complete_paths()).map(move |k| value(graph, &parallel, &ways.path(k)))
}

/// How many ways there are from each vertex to a sink. They are exact for every graph: along the edges a path has its
/// vertices in one order only, so that there are fewer paths than sets of 128 vertices.
pub struct Ways {
    sources: Vec<usize>,
    after: Vec<Vec<usize>>,
    onward: Vec<u128>,
}

impl Ways {
    pub fn of(graph: &Graph) -> Ways {
        let before = graph.predecessors();
        let after = graph.successors();
        let mut onward = vec![0; graph.vertices()];
        for &v in topological(graph).iter().rev() {
            onward[v] = if after[v].is_empty() { 1 } else { after[v].iter().map(|&w| onward[w]).sum() };
        }
        Ways { sources: (0..graph.vertices()).filter(|&v| before[v].is_empty()).collect(), after, onward }
    }

    pub fn complete_paths(&self) -> u128 {
        self.sources.iter().map(|&v| self.onward[v]).sum()
    }

    /// The complete path with this number, counted from 0 as they stand in a dictionary.
    pub fn path(&self, mut number: u128) -> Vec<usize> {
        let mut path = Vec::new();
        let mut choices = &self.sources;
        while !choices.is_empty() {
            let mut chosen = choices.iter();
            let v = loop {
                let &v = chosen.next().expect("the number of a complete path");
                if number < self.onward[v] {
                    break v;
                }
                number -= self.onward[v];
            };
            path.push(v);
            choices = &self.after[v];
        }
        path
    }
}

/// For each vertex, which ones are parallel to it: the same type, not itself, and neither an ancestor of the other.
fn parallel(graph: &Graph) -> Vec<Vec<bool>> {
    let n = graph.vertices();
    let ahead = descendants(graph);
    let is_parallel = |u: usize, v: usize| graph.kinds[u] == graph.kinds[v] && u != v && !ahead[u][v] && !ahead[v][u];
    (0..n).map(|u| (0..n).map(|v| is_parallel(u, v)).collect()).collect()
}

/// By a search from each vertex.
fn descendants(graph: &Graph) -> Vec<Vec<bool>> {
    let after = graph.successors();
    let from = |u: usize| {
        let mut found = vec![false; graph.vertices()];
        let mut open = after[u].clone();
        while let Some(v) = open.pop() {
            if !found[v] {
                found[v] = true;
                open.extend(&after[v]);
            }
        }
        found
    };
    (0..graph.vertices()).map(from).collect()
}

/// The sum of the path's WCETs, and for each type the WCETs of all vertices parallel to a path vertex of that type, each
/// once, divided by its cores.
fn value(graph: &Graph, parallel: &[Vec<bool>], path: &[usize]) -> u64 {
    let of_path: u64 = path.iter().map(|&v| graph.wcets[v] as u64).sum();
    let mut parts = of_path * PARTS_IN_A_TICK;
    for (kind, &cores) in graph.cores.iter().enumerate() {
        let mut counted = vec![false; graph.vertices()];
        for &v in path.iter().filter(|&&v| graph.kinds[v] as usize == kind) {
            counted.iter_mut().zip(&parallel[v]).for_each(|(c, &p)| *c |= p);
        }
        let beside: u64 = counted.iter().zip(&graph.wcets).filter(|(&c, _)| c).map(|(_, &wcet)| wcet as u64).sum();
        parts += beside * (PARTS_IN_A_TICK / cores as u64);
    }
    parts
}
