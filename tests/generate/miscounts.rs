//! Numbers of unfinished predecessors counted wrongly, as a planner might count them. On many a graph they are right by chance.

use crate::reference::graph::{Graph, MOST_VERTICES};
use crate::reference::order::topological;
use crate::reference::record::{finished, Numbers};

/// Of a graph and the remainders.
pub type Count = fn(&Graph, &[u32]) -> Numbers;

pub const MISCOUNTS: [(&str, Count); 6] = [
    ("all zero", |_, _| [0; MOST_VERTICES]),
    // as if nobody had been told of any end since the start
    ("all predecessors", |graph, _| of_each(graph, |before| before.len())),
    // who has no ticks left counts as finished, whoever is before it
    ("remainders alone", |graph, left| of_each(graph, |before| before.iter().filter(|&&u| left[u] > 0).count())),
    ("ancestors", |graph, left| {
        let done = finished(graph, left);
        let ancestors = ancestors(graph);
        of_each_vertex(graph, |v| (0..graph.vertices()).filter(|&u| ancestors[v][u] && !done[u]).count())
    }),
    ("successors", |graph, left| {
        let (done, after) = (finished(graph, left), graph.successors());
        of_each_vertex(graph, |v| after[v].iter().filter(|&&w| !done[w]).count())
    }),
    // an end is told by those that ran: whoever takes no time, and doesn't stand first, tells nobody
    ("no time not told on", |graph, left| {
        let (done, before) = (finished(graph, left), graph.predecessors());
        let tells = |u: usize| done[u] && (graph.wcets[u] > 0 || before[u].is_empty());
        of_each(graph, |before| before.iter().filter(|&&u| !tells(u)).count())
    }),
];

/// Right but for one vertex, which is taken for unfinished where it is finished, and for finished where it isn't: all its
/// successors have a wrong number.
pub fn mistaken(graph: &Graph, left: &[u32], mistaken: usize) -> Numbers {
    let mut done = finished(graph, left);
    done[mistaken] = !done[mistaken];
    of_each(graph, |before| before.iter().filter(|&&u| !done[u]).count())
}

fn of_each(graph: &Graph, count: impl Fn(&[usize]) -> usize) -> Numbers {
    let before = graph.predecessors();
    of_each_vertex(graph, |v| count(&before[v]))
}

fn of_each_vertex(graph: &Graph, count: impl Fn(usize) -> usize) -> Numbers {
    let mut numbers = [0; MOST_VERTICES];
    (0..graph.vertices()).for_each(|v| numbers[v] = count(v) as u8);
    numbers
}

fn ancestors(graph: &Graph) -> Vec<Vec<bool>> {
    let n = graph.vertices();
    let before = graph.predecessors();
    let mut ancestors = vec![vec![false; n]; n];
    for v in topological(graph) {
        for &u in &before[v] {
            let of_u = ancestors[u].clone();
            (0..n).for_each(|w| ancestors[v][w] |= of_u[w] || w == u);
        }
    }
    ancestors
}
